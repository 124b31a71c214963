#!/usr/bin/env bash
# Stores and loads of concrete memory, by the number of live objects: the time of one pair is to be flat within a factor of 3.
set -euo pipefail
cd "$(dirname "$0")/../crates/bench_programs"
rt run >/dev/null 2>&1 || { rt run >&2; exit 1; }
program=$PWD/out/bench_programs
times=${1:-1000000}
# Microseconds of one run.
spent() {
    local started ended
    started=$(date +%s%N)
    "$program" memory "$1" "$2" >/dev/null
    ended=$(date +%s%N)
    echo $(((ended - started) / 1000))
}
first=
for objects in 10 1000 100000; do
    without=$(spent "$objects" 0)
    with=$(spent "$objects" "$times")
    awk -v a="$without" -v b="$with" -v n="$times" -v objects="$objects" -v first="${first:-}" 'BEGIN {
        t = (b - a) * 1000 / n; if (t <= 0) t = 1;
        printf "%d objects: %.0f ns for a store and a load, %.0f pairs per second", objects, t, 1e9 / t;
        if (first != "") printf ", %.2f times the time at 10 objects", t / first;
        printf "\n";
    }'
    [ -n "$first" ] || first=$(awk -v a="$without" -v b="$with" -v n="$times" 'BEGIN { t = (b - a) * 1000 / n; print (t <= 0 ? 1 : t) }')
done
