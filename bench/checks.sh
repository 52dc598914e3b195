#!/bin/bash
# Compares the checks of two programs, such as of two commits: ./bench/checks.sh OLD NEW. Each line has an instance, the
# nodes of the certificate that NEW finds, and the processor seconds and the peak memory of both checks. The last line is
# a certificate of one cut at the root, all of whose 30 calls are critical; see labels.sh for labels a second.
[ $# = 2 ] || { sed -n '2,4s/^# //p' "$0"; exit 2; }
work=$(mktemp -d) || exit 1
trap 'rm -rf "$work"' EXIT

# Runs a check, and prints its processor seconds and its peak memory in megabytes.
measure() {
    python3 - "$@" <<'EOF'
import resource, subprocess, sys
subprocess.run(sys.argv[1:], stdout=subprocess.DEVNULL, stderr=subprocess.DEVNULL)
used = resource.getrusage(resource.RUSAGE_CHILDREN)
print(f"{used.ru_utime:.2f} s {used.ru_maxrss // 1024} MB", end="")
EOF
}

# Prints the line of a certificate, whose instance has this profile.
compare() {
    echo "$2: $(measure "$old" check "$work/instance" "$work/certificate" --format "$1")," \
        "$(measure "$new" check "$work/instance" "$work/certificate" --format "$1")"
}

old=$1 new=$2
while read -r profile calls seed; do
    "$new" generate "$seed" "$calls" --format "$profile" > "$work/instance"
    "$new" solve "$work/instance" --format "$profile" --cert "$work/certificate" --nodes 2000 > "$work/report"
    compare "$profile" "$profile $calls, seed $seed, $(sed -n 's/^nodes //p' "$work/certificate") nodes"
done <<'EOF'
op 20 1
op 20 2
op 25 1
op 25 2
op 30 1
op 30 2
toptw 40 1
toptw 40 2
top 30 1
EOF
"$new" generate 2 30 --format op > "$work/instance"
{
    printf 'PARETO 1\ninstance 30 2 100\npoints 1\npoint 0 0 0\nnodes 2\ncut 190 1 0 30'
    printf ' %s' {1..30}
    printf '\nopen\nend\n'
} > "$work/certificate"
compare op 'op 30, seed 2, one cut with all calls critical'
