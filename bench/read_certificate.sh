#!/bin/sh
# Times the reading of a certificate of 1000001 nodes, which names another instance, so that nothing of it is decided:
# ./bench/read_certificate.sh
top=$(cd "$(dirname "$0")/.." && pwd)
work=$(mktemp -d) || exit 1
trap 'rm -rf "$work"' EXIT
awk 'BEGIN {
    print "PARETO 1"; print "instance 3 1 1"; print "points 1"; print "point 0 0 0"; print "nodes 1000001"
    for (v = 0; v < 500000; v++) { print "profit " v; print "open" }
    print "open"; print "end"
}' > "$work/certificate"
wc -c < "$work/certificate"
time "$top/frontier" check "$top/examples/two_calls.op" "$work/certificate" --format op --scale 1
