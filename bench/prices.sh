#!/bin/sh
# Times the search for prices over pools of drawn tours of 100 calls, 100 rounds each, and prints the bound before and after:
# ./bench/prices.sh
# The program that does it is proved and built in a copy, which is removed afterwards.
top=$(cd "$(dirname "$0")/.." && pwd)
work=$(mktemp -d) || exit 1
trap 'rm -rf "$work"' EXIT
mkdir -p "$work/crates/price_bench/src" "$work/crates/price_bench/proofs/offer" "$work/crates/price_bench/proofs/drawn_pool"
used="orienteering fixed_num site_model bit_sets tour_check region_ctx price_bound draws pool_cols dual_master"
for name in $used; do
    cp -r "$top/crates/$name" "$work/crates/$name"
    grep "^$name[ :]" "$top/crates.txt" >> "$work/crates.txt"
done
echo "price_bench: $used" >> "$work/crates.txt"
cp "$top/HANDLES" "$work/HANDLES"
cat > "$work/crates/price_bench/src/main.rt" <<'END'
//! Times the search for prices.
#![tactic(auto)]

ghost use Rattle.std.specs.Prelude.{◌≡◌, ◌≤◌, IfOk, OnOk};
ghost use Rattle.orienteering.specs.Instance.{calls};
ghost use Rattle.orienteering.specs.Price.{IsFit};
ghost use Rattle.orienteering.specs.Region.{IsProper, is_forced};
ghost use Rattle.pool_cols.specs.Pool.{IsPoolOf};

use draws::Draws;
use dual_master::improve;
use fixed_num::Scale;
use orienteering::{Entries, Place, Price, Tour};
use pool_cols::Pool;
use price_bound::bound;
use region_ctx::Context;
use site_model::{Instance, Parts, Places};
use std::alloc::{AllocError, Global};
use std::io::{self, ErrorKind};
use std::time::Instant;
use tour_check::tour_value;

const fn spot(x: i64, y: i64, score: u32, closing: u64) -> Place {
    Place {
        x,
        y,
        score,
        service: 0,
        opening: 0,
        closing,
    }
}

/// Calls drawn in a square of 100, as the generator draws them, each tour at most `limit` long at scale 10.
fn square(alloc: Global, calls: u32, limit: u64) -> io::Result<Instance> {
    let mut draws = Draws::of_seed(1);
    let mut places = Vec::new(alloc);
    places.push(spot(500_000, 500_000, 0, limit))?;
    for _ in 0..calls {
        let x = (draws.draw() % 101) as i64 * 10_000;
        let y = (draws.draw() % 101) as i64 * 10_000;
        let score = 1 + (draws.draw() % 20) as u32;
        places.push(spot(x, y, score, limit))?;
    }
    places.push(spot(500_000, 500_000, 0, limit))?;
    let parts = Parts {
        scale: Scale::Ten,
        team: 4,
        places: Places::from_list(places),
    };
    match Instance::new(alloc, parts) {
        Ok(inst) => Ok(inst),
        Err(_) => Err(ErrorKind::InvalidData.into()),
    }
}

fn is_feasible(alloc: Global, inst: &Instance, calls: &[u32]) -> io::Result<bool> {
    let tour = Tour::from_calls(Vec::from_slice(alloc, calls)?);
    Ok(tour_value(alloc, inst, &tour).is_ok())
}

/// The calls of a tour: of many that are drawn those that it can visit behind the ones before, up to 15.
fn drawn(alloc: Global, inst: &Instance, draws: &mut Draws) -> io::Result<Vec<u32>> {
    let mut calls = Vec::new(alloc);
    for _ in 0..60u32 {
        let call = 1 + (draws.draw() % 100) as u32;
        if calls.len() < 15 {
            calls.push(call)?;
            if !is_feasible(alloc, inst, calls.as_slice())? {
                let _ = calls.pop();
            }
        }
    }
    Ok(calls)
}

/// Puts the tour into the pool, if it is feasible.
fn offer(alloc: Global, inst: &Instance, pool: &mut Pool, calls: Vec<u32>) -> io::Result<()>
    requires { IsPoolOf inst.now pool.old }
    ensures { OnOk result (IsPoolOf inst.now pool.new) }
{
    let tour = Tour::from_calls(calls);
    match tour_value(alloc, inst, &tour) {
        Ok(_) => {
            pool.add(inst, tour)?;
            Ok(())
        }
        Err(_) => Ok(()),
    }
}

#[tactic(auto, using(orienteering::proofs::SplitLaws::root_is_proper))]
fn root(alloc: Global, inst: &Instance) -> Result<Context, AllocError>
    ensures { IfOk result (IsProper inst.now) }
{
    Context::root(alloc, inst)
}

fn start(alloc: Global, inst: &Instance, ctx: &Context, alpha: u32, beta: u32) -> Price
    requires alpha { alpha ≤ 1000 }
    requires beta { beta ≤ 1000 }
    ensures { IsFit (calls inst.now) (is_forced ctx.now) result }
{
    Price {
        alpha,
        beta,
        pi: Entries::from_list(Vec::new(alloc)),
    }
}

fn time_improve(rt: &HostRuntime, inst: &Instance, pool: &Pool, alpha: u32, beta: u32) -> io::Result<()>
    requires pool { IsPoolOf inst.now pool.now }
    requires alpha { alpha ≤ 1000 }
    requires beta { beta ≤ 1000 }
{
    let alloc = rt.alloc();
    let ctx = root(alloc, inst)?;
    let price = start(alloc, inst, &ctx, alpha, beta);
    for rounds in [0, 25, 50, 100, 200] {
        let begun = Instant::now(rt)?;
        let answer = improve(alloc, inst, pool, &ctx, &price, rounds)?;
        let micros = begun.elapsed(rt)?.as_micros();
        println!(
            rt;
            "{} tours, weights {alpha} and {beta}, {rounds} rounds: bound {}, gap {}, {} prices, {} shares, {micros} us",
            pool.len(),
            bound(&answer.price, answer.sigma, &ctx),
            answer.gap,
            answer.price.pi.list().len(),
            answer.shares.list().len()
        )?;
    }
    Ok(())
}

/// A pool of so many tours, less those that are drawn twice.
fn drawn_pool(alloc: Global, inst: &Instance, count: u32) -> io::Result<Pool>
    ensures { IfOk result (IsPoolOf inst.now) }
{
    let mut pool = Pool::new(alloc)?;
    let mut draws = Draws::of_seed(2);
    'tours: for _ in 0..count {
        let calls = drawn(alloc, inst, &mut draws)?;
        offer(alloc, inst, &mut pool, calls)?;
    }
    Ok(pool)
}

fn time_pool(rt: &HostRuntime, count: u32) -> io::Result<()> {
    let alloc = rt.alloc();
    let inst = square(alloc, 100, 2_500)?;
    let pool = drawn_pool(alloc, &inst, count)?;
    time_improve(rt, &inst, &pool, 1, 0)?;
    time_improve(rt, &inst, &pool, 1000, 10)
}

fn main(rt: HostRuntime) -> io::Result<()> {
    for count in [1_000, 10_000] {
        time_pool(&rt, count)?;
    }
    Ok(())
}
END
cat > "$work/crates/price_bench/proofs/drawn_pool/Invariants.antt" <<'END'
use Rattle.pool_cols.specs.Pool.{IsPoolOf}
use Rattle.price_bench.proofs.drawn_pool.Given as goal

abbrev pub invariant-tours : goal.invariant-tours
invariant-tours l = IsPoolOf l.inst l.pool
END
cat > "$work/crates/price_bench/proofs/offer/Answers.antt" <<'END'
use Rattle.std.proofs.Common.{◌∙◌, sym}
use Rattle.pool_cols.proofs.Places.{valued}
use Rattle.price_bench.proofs.offer.Goals as goal

pub add-requires : goal.add-requires
add-requires c =
    valued c.args.inst.now c.from_calls-tour.result c.in-Ok.field-0 (sym c.tour_value.ensures ∙ c.in-Ok.is)
END
cd "$work/crates/price_bench" && rt run < /dev/null
