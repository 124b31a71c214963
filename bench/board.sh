#!/usr/bin/env bash
# Posts on a board, by the shape of its tree: the time of one post is to be flat.
# Memory stays with the program between rounds, so that the system's paging isn't measured in its place.
set -euo pipefail
export MALLOC_TRIM_THRESHOLD_=4000000000 MALLOC_TOP_PAD_=64000000 MALLOC_MMAP_THRESHOLD_=4000000000
cd "$(dirname "$0")/../crates/bench_programs"
rt run >/dev/null
program=$PWD/out/bench_programs
first=
while read -r shape count rounds; do
    started=$(date +%s%N)
    posts=$("$program" board "$shape" "$count" "$rounds")
    ended=$(date +%s%N)
    each=$(awk -v t=$((ended - started)) -v n="$posts" 'BEGIN { print t / n }')
    [ -n "$first" ] || first=$each
    awk -v shape="$shape" -v count="$count" -v each="$each" -v first="$first" 'BEGIN {
        printf "%s of %d: %.0f ns for a post, %.0f posts per second, %.2f times the first\n", shape, count, each, 1e9 / each, each / first }'
done <<'SHAPES'
wide 1000 1000
wide 100000 10
chain 10000 100
SHAPES
