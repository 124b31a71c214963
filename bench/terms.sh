#!/usr/bin/env bash
# How the time and memory of work on terms grow with its size.
#   copy   a copy of a term, by its depth                          doesn't grow
#   add    one conjunct added to a condition, by its length        doesn't grow
#   same   a comparison of two equal terms made apart, by depth    grows with the nodes
#   walk   the value of a term by the walk that remembers          grows with the nodes
# The terms are a byte added to itself, so a depth of n has n nodes and 2^n paths.
set -euo pipefail
cd "$(dirname "$0")/../crates/bench_programs"
rt run >/dev/null 2>&1 || { rt run >&2; exit 1; }
program=$(find out -maxdepth 1 -type f -name 'bench_programs*' -perm -u+x | head -n 1)
if [ -z "$program" ]; then
    echo "no program was built in $PWD/out" >&2
    exit 1
fi
# Microseconds and kilobytes of one run.
spent() {
    local started ended memory
    started=$(date +%s%N)
    memory=$({ /usr/bin/time -f %M "$program" terms "$1" "$2" "$3" >/dev/null; } 2>&1)
    ended=$(date +%s%N)
    echo "$(((ended - started) / 1000)) $memory"
}
# The cost of one piece of work: a run with it less a run without it.
cost() {
    local what=$1 size=$2 times=$3 per=$4 without with
    without=$(spent "$what" "$size" 0)
    with=$(spent "$what" "$size" "$times")
    awk -v a="$without" -v b="$with" -v n="$times" -v per="$per" -v what="$what" -v size="$size" -v last="${last:-}" 'BEGIN {
        split(a, x, " "); split(b, y, " ");
        t = (y[1] - x[1]) * 1000 / n / per; if (t < 0) t = 0;
        m = (y[2] - x[2]) * 1024 / per; if (m < 0) m = 0;
        printf "%s %d: %.0f ns, %.0f bytes", what, size, t, m;
        if (last != "" && last > 0) printf ", %.2f times the time of the size before", t / last;
        printf "\n"; print t > "/dev/stderr";
    }' 2>"$state"
    last=$(tail -n 1 "$state")
}
state=$(mktemp)
trap 'rm -f "$state"' EXIT
last=
for depth in 10 100 1000 10000; do cost copy "$depth" 1000000 1; done
last=
for count in 1000 10000 100000; do cost add "$count" 1 "$count"; done
last=
for depth in 10 100 1000 10000; do cost same "$depth" 100 1; done
last=
for depth in 10 100 1000 10000; do cost walk "$depth" 100 1; done
