#!/usr/bin/env bash
# How fast conditions become clauses, and how fast they are searched, by the bytes of input that they read.
#   equal   each byte is a number                                       has a model
#   sum     the sum of the bytes is two numbers at once                 has none
#   less    each byte is less than the next, the last than the first    has none
#   mul     the product of the bytes is a number                        has a model
#   urem    the remainder of each byte by 10 is a number                has a model
#   table   what each byte finds in a table of 32 numbers is a number   has a model
# Where minisat is installed, its time on the same clauses stands beside the search's.
set -euo pipefail
cd "$(dirname "$0")/../crates/bench_programs"
rt run >/dev/null 2>&1 || { rt run >&2; exit 1; }
program=$(find out -maxdepth 1 -type f -name 'bench_programs*' -perm -u+x | head -n 1)
if [ -z "$program" ]; then
    echo "no program was built in $PWD/out" >&2
    exit 1
fi
# Nanoseconds of a command, whatever its status.
spent() {
    local started ended
    started=$(date +%s%N)
    "$@" >/dev/null 2>&1 || true
    ended=$(date +%s%N)
    echo "$((ended - started))"
}
# Nanoseconds of one piece of work: so many runs of it less none.
cost() {
    local work=$1 kind=$2 bytes=$3 times=$4 without with
    without=$(spent "$program" solver "$work" "$kind" "$bytes" 0)
    with=$(spent "$program" solver "$work" "$kind" "$bytes" "$times")
    echo "$(((with - without) / times))"
}
file=$(mktemp --suffix .cnf)
trap 'rm -f "$file"' EXIT
for kind in equal sum less mul urem table; do
    for bytes in 1 2 4 8; do
        clauses=$("$program" solver clauses "$kind" "$bytes" 0)
        made=$(cost clauses "$kind" "$bytes" 20)
        leaves=$("$program" solver search "$kind" "$bytes" 1)
        searched=$(cost search "$kind" "$bytes" 2)
        awk -v kind="$kind" -v bytes="$bytes" -v c="$clauses" -v m="$made" -v l="$leaves" -v s="$searched" 'BEGIN {
            if (m < 1) m = 1; if (s < 1) s = 1;
            printf "%s %d: %d clauses, %.0f clauses a second; %d conflicts, %.0f a second", kind, bytes, c, c * 1e9 / m, l, l * 1e9 / s;
        }'
        if command -v minisat >/dev/null; then
            "$program" solver dimacs "$kind" "$bytes" 1 >"$file"
            other=$(spent minisat "$file")
            awk -v s="$searched" -v o="$other" 'BEGIN { printf "; %.2f times the time of minisat", s / o }'
        fi
        echo
    done
done
