#!/bin/sh
# Times insertion plans and their improvement for 100 and 300 calls, and inserts into an archive of many points:
# ./bench/insertions.sh
# The program that does it is proved and built in a copy, which is removed afterwards.
top=$(cd "$(dirname "$0")/.." && pwd)
work=$(mktemp -d) || exit 1
trap 'rm -rf "$work"' EXIT
mkdir -p "$work/crates/plan_bench/src" "$work/crates/plan_bench/proofs/checked"
used="orienteering fixed_num site_model bit_sets tour_check draws job_pool front_archive insert_heur"
for name in $used; do
    cp -r "$top/crates/$name" "$work/crates/$name"
    grep "^$name[ :]" "$top/crates.txt" >> "$work/crates.txt"
done
echo "plan_bench: $used" >> "$work/crates.txt"
cp "$top/HANDLES" "$work/HANDLES"
cat > "$work/crates/plan_bench/src/main.rt" <<'END'
//! Times starting plans and the archive.
#![tactic(auto)]

ghost use Rattle.std.specs.Prelude.{◌≤◌, ◌<◌, IfOk};
ghost use Rattle.orienteering.specs.Tour.{IsPlan};

use draws::Draws;
use fixed_num::Scale;
use front_archive::Archive;
use insert_heur::{Weight, build, improve_plan};
use orienteering::{Place, Plan, Tour};
use site_model::{Instance, Parts, Places};
use std::alloc::Global;
use std::io::{self, ErrorKind};
use std::time::Instant;
use tour_check::plan_value;

const WEIGHT: Weight = Weight { alpha: 1_000, beta: 1 };

const fn spot(x: i64, y: i64, score: u32, closing: u64) -> Place {
    Place {
        x,
        y,
        score,
        service: 0,
        opening: 0,
        closing,
    }
}

fn instance(alloc: Global, scale: Scale, team: u32, places: Vec<Place>) -> io::Result<Instance> {
    let parts = Parts {
        scale,
        team,
        places: Places::from_list(places),
    };
    match Instance::new(alloc, parts) {
        Ok(inst) => Ok(inst),
        Err(_) => Err(ErrorKind::InvalidData.into()),
    }
}

/// Calls drawn in a square of 100, as the generator draws them, each tour at most `limit` long at scale 10.
fn square(alloc: Global, calls: u32, limit: u64) -> io::Result<Instance> {
    let mut draws = Draws::of_seed(1);
    let mut places = Vec::new(alloc);
    places.push(spot(500_000, 500_000, 0, limit))?;
    for _ in 0..calls {
        let x = (draws.draw() % 101) as i64 * 10_000;
        let y = (draws.draw() % 101) as i64 * 10_000;
        let score = 1 + (draws.draw() % 20) as u32;
        places.push(spot(x, y, score, limit))?;
    }
    places.push(spot(500_000, 500_000, 0, limit))?;
    instance(alloc, Scale::Ten, 4, places)
}

/// 300 calls on a line, each with its distance as its score, so that most pairs have points of their own.
fn line(alloc: Global) -> io::Result<Instance> {
    let mut draws = Draws::of_seed(1);
    let mut places = Vec::new(alloc);
    places.push(spot(0, 0, 0, 100_000_000))?;
    for _ in 0..300u32 {
        let far = draws.draw() % 50_000 + 1;
        places.push(spot(far as i64 * 10_000, 0, far as u32, 100_000_000))?;
    }
    places.push(spot(0, 0, 0, 100_000_000))?;
    instance(alloc, Scale::One, 2, places)
}

fn checked(alloc: Global, inst: &Instance, plan: Plan) -> io::Result<Plan>
    ensures { IfOk result (IsPlan inst.now) }
{
    match plan_value(alloc, inst, &plan) {
        Ok(_) => Ok(plan),
        Err(_) => Err(ErrorKind::InvalidData.into()),
    }
}

fn tour_of(alloc: Global, call: u32) -> io::Result<Tour> {
    let mut calls = Vec::new(alloc);
    calls.push(call)?;
    Ok(Tour::from_calls(calls))
}

fn pair(alloc: Global, inst: &Instance, first: u32, second: u32) -> io::Result<Plan>
    ensures { IfOk result (IsPlan inst.now) }
{
    let mut tours = Vec::new(alloc);
    tours.push(tour_of(alloc, first)?)?;
    tours.push(tour_of(alloc, second)?)?;
    checked(alloc, inst, Plan::from_tours(tours))
}

/// The pairs of calls, each with a smaller one, that are put into the archive, or only made.
fn pairs(alloc: Global, inst: &Instance, archive: &mut Archive, put: bool) -> io::Result<u32> {
    let mut made = 0;
    for second in 2..301u32 {
        for first in 1..second {
            let plan = pair(alloc, inst, first, second)?;
            if put {
                archive.insert(inst, plan)?;
            }
            if made < 1_000_000 {
                made += 1;
            }
        }
    }
    Ok(made)
}

fn time_pairs(rt: &HostRuntime, put: bool) -> io::Result<()> {
    let alloc = rt.alloc();
    let inst = line(alloc)?;
    let mut archive = Archive::new(alloc);
    let begun = Instant::now(rt)?;
    let made = pairs(alloc, &inst, &mut archive, put)?;
    let millis = begun.elapsed(rt)?.as_millis();
    println!(rt; "{made} plans of two tours, {} held: {millis} ms", archive.points().len())
}

fn time_build(rt: &HostRuntime, calls: u32, limit: u64) -> io::Result<()> {
    let alloc = rt.alloc();
    let inst = square(alloc, calls, limit)?;
    let begun = Instant::now(rt)?;
    let plan = build(alloc, &inst, 1, WEIGHT)?;
    let built = begun.elapsed(rt)?.as_millis();
    let plan = checked(alloc, &inst, plan)?;
    let mut visited = 0;
    for tour in plan.tours() {
        if visited < 1_000 {
            visited += tour.calls().len().min(1_000);
        }
    }
    let begun = Instant::now(rt)?;
    let better = improve_plan(alloc, &inst, plan)?;
    let improved = begun.elapsed(rt)?.as_millis();
    println!(
        rt;
        "{calls} calls, limit {limit}: {visited} visited in {} tours, built in {built} ms, improved in {improved} ms",
        better.tours().len()
    )
}

fn main(rt: HostRuntime) -> io::Result<()> {
    for (calls, limit) in [(100, 1_200), (100, 10_000), (300, 1_200), (300, 10_000)] {
        time_build(&rt, calls, limit)?;
    }
    time_pairs(&rt, false)?;
    time_pairs(&rt, true)
}
END
cat > "$work/crates/plan_bench/proofs/checked/Answers.antt" <<'END'
use Rattle.std.proofs.Common.{◌∙◌, sym}
use Rattle.front_archive.proofs.Valued.{valued_plan}
use Rattle.plan_bench.proofs.checked.Goals as goal

pub returns-in-Ok : goal.returns-in-Ok
returns-in-Ok c =
    valued_plan c.args.inst.now c.args.plan c.in-Ok.field-0 (sym c.plan_value.ensures ∙ c.in-Ok.is)
END
cd "$work/crates/plan_bench" && rt run < /dev/null
