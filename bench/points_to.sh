#!/usr/bin/env bash
# How the time of the points-to sets grows from 100 to 10,000 nodes with 10 to 1,000 sites, in a program that makes objects and chooses
# between pointers to them. Nearly each register comes to point to each site, so that the sets have nodes times sites elements: the
# time of one element is to grow no faster than the length of a row that it is put into.
set -euo pipefail
cd "$(dirname "$0")/../crates/bench_programs"
rt run >/dev/null
program=$PWD/out/bench_programs
first=
for sites in 10 100 1000; do
    choices=$((sites * 10 - sites))
    elements=$((sites * choices))
    started=$(date +%s%N)
    memory=$({ /usr/bin/time -f %M "$program" points_to "$sites" "$choices" >/dev/null; } 2>&1)
    ended=$(date +%s%N)
    each=$(awk -v t=$((ended - started)) -v n="$elements" 'BEGIN { print t / n }')
    [ -n "$first" ] || first=$each
    awk -v sites="$sites" -v nodes="$((sites + choices))" -v t=$((ended - started)) -v each="$each" -v first="$first" -v memory="$memory" 'BEGIN {
        printf "points_to, %d nodes, %d sites: %.1f ms, %.2f times the time of the first for an element, %d KB\n", nodes, sites, t / 1e6, each / first, memory }'
done
