#!/bin/sh
# Times the checker on a tree of 60001 nodes, half of them splits by profit, over 300 calls: ./bench/open_leaves.sh
top=$(cd "$(dirname "$0")/.." && pwd)
work=$(mktemp -d) || exit 1
trap 'rm -rf "$work"' EXIT
awk 'BEGIN { print "10 1"; print "0 0 0"; print "0 0 0"; for (i = 0; i < 300; i++) print "3 0 100" }' > "$work/instance"
awk 'BEGIN {
    print "PARETO 1"; print "instance 300 1 1"; print "points 1"; print "point 0 0 0"; print "nodes 60001"
    for (v = 0; v < 30000; v++) { print "profit " v; print "open" }
    print "open"; print "end"
}' > "$work/certificate"
time "$top/frontier" check "$work/instance" "$work/certificate" --format op --scale 1 > "$work/report"
grep '^boxes' "$work/report"
