#!/bin/bash
# Solves generated instances of 5 to 30 calls in the three profiles, seeds 1 to 3, at scale 100 within 20000 nodes (or as many as
# are given), and prints nodes, cuts, points, boxes left, their share of the root's profits times times, and the processor time
# of solve and of check: ./bench/search.sh [NODES [CALLS..]]. PROFILES and SEEDS, where they are set, are those that are run, and
# PROGRAM is the program.
top=$(cd "$(dirname "$0")/.." && pwd)
program=${PROGRAM:-$top/frontier}
work=$(mktemp -d) || exit 1
trap 'rm -rf "$work"' EXIT
nodes=${1:-20000}
shift
sizes=${*:-5 8 10 12 15 20 25 30}
TIMEFORMAT=%U

# The share, in percent, of the root box that the union of the boxes covers.
share() {
    awk -v profile="$1" '
        FILENAME == ARGV[1] {
            if (profile == "op" && NR == 1) { most = $1 * 100 * $2 }
            if (profile == "top" && $1 == "m") { team = $2 }
            if (profile == "top" && $1 == "tmax") { most = $2 * 100 * team }
            if (profile == "toptw" && FNR == 1) { team = $2 }
            if (profile == "toptw" && FNR == 3) { most = $NF * 100 * team }
            if (profile == "op" && FNR > 3) total += $3
            if (profile == "top" && FNR > 4) total += $3
            if (profile == "toptw" && FNR > 3) total += $5
            next
        }
        $1 == "box" { count++; a[count] = $2; b[count] = $3; c[count] = $4; d[count] = $5 }
        END {
            for (p = 0; p <= total; p++) {
                n = 0
                for (k = 1; k <= count; k++) if (a[k] <= p && p <= b[k]) { n++; low[n] = c[k]; high[n] = d[k] }
                for (i = 2; i <= n; i++) for (j = i; j > 1 && low[j - 1] > low[j]; j--) {
                    x = low[j]; low[j] = low[j - 1]; low[j - 1] = x
                    x = high[j]; high[j] = high[j - 1]; high[j - 1] = x
                }
                at = -1
                for (i = 1; i <= n; i++) if (high[i] > at) {
                    from = low[i] > at + 1 ? low[i] : at + 1
                    cells += high[i] - from + 1
                    at = high[i]
                }
            }
            printf "%.2f", 100 * cells / ((total + 1) * (most + 1))
        }' "$work/instance" "$work/report"
}

echo "profile calls seed: nodes cuts points boxes share solve check"
for profile in ${PROFILES:-op top toptw}; do
    for calls in $sizes; do
        for seed in ${SEEDS:-1 2 3}; do
            "$program" generate $seed $calls --format $profile > "$work/instance"
            solve=$( { time "$program" solve "$work/instance" --cert "$work/certificate" --format $profile --scale 100 \
                --nodes "$nodes" > "$work/report" 2> "$work/error"; } 2>&1 )
            check=$( { time "$program" check "$work/instance" "$work/certificate" --format $profile --scale 100 \
                > "$work/again" 2>> "$work/error"; } 2>&1 )
            cmp -s "$work/report" "$work/again" || echo "the reports differ"
            echo "$profile $calls $seed: $(awk '/^nodes/ { print $2 }' "$work/certificate")" \
                "$(grep -c '^cut ' "$work/certificate") $(awk '/^points/ { print $2 }' "$work/report")" \
                "$(awk '/^boxes/ { print $2 }' "$work/report") $(share $profile) $solve $check"
        done
    done
done
