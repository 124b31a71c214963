#!/usr/bin/env bash
# How the time of a slice grows from 100 to 10,000 nodes of one function, and with 100 functions of 100 nodes. Each function adds
# again and again, each time behind a branch, so that the slice retains nearly each node. What each node meets first is found for each retained node
# by walks back over the function, so that the time is to grow with the square of a function's nodes, and with the number of functions.
set -euo pipefail
cd "$(dirname "$0")/../crates/bench_programs"
rt run >/dev/null
program=$PWD/out/bench_programs
first=
tell() {
    local nodes=$1 functions=$2 started ended memory each
    started=$(date +%s%N)
    memory=$({ /usr/bin/time -f %M "$program" slice "$((nodes / 2))" "$functions" >/dev/null; } 2>&1)
    ended=$(date +%s%N)
    each=$(awk -v t=$((ended - started)) -v n="$nodes" -v f="$functions" 'BEGIN { print t / (n * n * f) }')
    [ -n "$first" ] || first=$each
    awk -v nodes="$nodes" -v functions="$functions" -v t=$((ended - started)) -v each="$each" -v first="$first" -v memory="$memory" 'BEGIN {
        printf "slice, %d functions of %d nodes: %.1f ms, %.2f times the time of the first for a pair of nodes, %d KB\n", functions, nodes, t / 1e6, each / first, memory }'
}
tell 100 1
tell 1000 1
tell 10000 1
tell 100 100
