#!/usr/bin/env bash
# Reading, writing and copying in a log of 10, 1,000 and 100,000 entries. A read looks at each entry, so that its time is to grow as
# the length; a write costs the same whatever the length, and so does a copy.
set -euo pipefail
cd "$(dirname "$0")/../crates/bench_programs"
rt run >/dev/null 2>&1 || { rt run >&2; exit 1; }
program=$PWD/out/bench_programs
# Nanoseconds of one run.
spent() {
    local started ended
    started=$(date +%s%N)
    "$program" log "$1" "$2" "$3" >/dev/null
    ended=$(date +%s%N)
    echo $((ended - started))
}
for what in read append copy; do
    first=
    for length in 10 1000 100000; do
        times=1000000
        [ "$what" = read ] && times=$((1000000 / length))
        without=$(spent "$what" "$length" 0)
        with=$(spent "$what" "$length" "$times")
        each=$(awk -v a="$without" -v b="$with" -v n="$times" 'BEGIN { t = (b - a) / n; print (t <= 0 ? 1 : t) }')
        [ -n "$first" ] || first=$each
        awk -v what="$what" -v length_is="$length" -v each="$each" -v first="$first" 'BEGIN {
            printf "%s, %d entries: %.0f ns, %.2f times the time at 10 entries\n", what, length_is, each, each / first }'
    done
done
