#!/bin/bash
# Solves the ten instances by which the strategy is chosen, until no box is left, and prints the nodes and the processor time
# of each and of all: ./bench/ten_instances.sh [PROGRAM]
top=$(cd "$(dirname "$0")/.." && pwd)
program=${1:-$top/frontier}
work=$(mktemp -d) || exit 1
trap 'rm -rf "$work"' EXIT
TIMEFORMAT=%U

while read -r profile calls seed; do
    "$program" generate "$seed" "$calls" --format "$profile" > "$work/instance"
    seconds=$( { time "$program" solve "$work/instance" --cert "$work/certificate" --format "$profile" --scale 100 \
        > "$work/report"; } 2>&1 )
    echo "$profile $calls $seed: $(awk '/^nodes/ { print $2 }' "$work/certificate")" \
        "$(awk '/^boxes/ { print $2 }' "$work/report") $seconds"
done <<END | awk '{ print; nodes += $4; seconds += $6 } END { print "all:", nodes, seconds }'
op 12 5
op 12 1
op 12 2
op 12 3
op 10 2
op 10 4
toptw 15 2
toptw 15 3
top 20 2
top 20 3
END
