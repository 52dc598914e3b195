#!/bin/bash
# Times one replay at the root of generated instances of 20, 50 and 100 calls, for critical sets of 0, 10 and 30 calls. It
# prints the settled labels, found as the least limit that is not passed, the processor time of the whole check, and how
# many labels that is a second: ./bench/labels.sh
top=$(cd "$(dirname "$0")/.." && pwd)
work=$(mktemp -d) || exit 1
trap 'rm -rf "$work"' EXIT
TIMEFORMAT=%U

# Checks a certificate of one cut under a limit of labels. Status 3 says that there are no more.
replay() {
    "$top/frontier" check "$work/instance" "$work/certificate" --format op --labels "$1" > "$work/report" 2>&1
}

for calls in 20 50 100; do
    "$top/frontier" generate 1 $calls --format op > "$work/instance"
    for critical in 0 10 30; do
        [ $critical -le $calls ] || continue
        {
            printf 'PARETO 1\ninstance %s 2 100\npoints 1\npoint 0 0 0\nnodes 2\n' $calls
            printf 'cut 1000 10 0 %s' $critical
            for ((call = 1; call <= critical; call++)); do printf ' %s' $call; done
            printf '\nopen\nend\n'
        } > "$work/certificate"
        few=0 enough=2000000
        while ((enough - few > 1)); do
            middle=$(((few + enough) / 2))
            replay $middle
            if [ $? -eq 3 ]; then enough=$middle; else few=$middle; fi
        done
        seconds=$( { time replay 2000000; } 2>&1 )
        awk -v calls=$calls -v critical=$critical -v labels=$enough -v seconds="$seconds" 'BEGIN {
            rate = seconds > 0 ? int(labels / seconds) : "too fast to tell"
            print calls " calls, " critical " critical: " labels " labels, " seconds " s, a second " rate
        }'
    done
done
