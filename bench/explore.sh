#!/usr/bin/env bash
# Attempts a second of explorations of the sort, the tokenizer and the checksum of `examples/` over 1 to 3 bytes of input, with the memory
# that an exploration took for each state that waited in it at once. Where lli is installed the steps a second of its interpreter on a
# loop stand beside them. An exploration that takes longer than the limit in seconds (60, or the first word) is left out.
set -euo pipefail
limit=${1:-60}
cd "$(dirname "$0")/.."
examples=$PWD/examples
cd crates/bench_programs
rt run >/dev/null 2>&1 || { rt run >&2; exit 1; }
program=$(find "$PWD/out" -maxdepth 1 -type f -name 'bench_programs*' -perm -u+x | head -n 1)
if [ -z "$program" ]; then
    echo "no program was built in $PWD/out" >&2
    exit 1
fi
ulimit -S -s 262144 2>/dev/null || true
work=$(mktemp -d)
trap 'rm -rf "$work"' EXIT
# Nanoseconds of a command within the limit, and its output in a file; none where it took longer.
spent() {
    local started ended
    started=$(date +%s%N)
    timeout "$limit" "$@" >"$work/told" 2>/dev/null || return 1
    ended=$(date +%s%N)
    echo "$((ended - started))"
}
# The most memory of a command, in kilobytes, where the system's time tells it.
memory() {
    if [ -x /usr/bin/time ]; then
        /usr/bin/time -f %M -o "$work/memory" timeout "$limit" "$@" >/dev/null 2>&1 || return 1
        tail -n 1 "$work/memory"
    else
        echo 0
    fi
}
cat >"$work/start.ll" <<'MODULE'
define i32 @main() {
  ret i32 0
}
MODULE
least=$(memory "$program" machine 0 1 "$work/start.ll") || least=0
for name in bubble_sort tokenizer checksum; do
    for bytes in 1 2 3; do
        if ! once=$(spent "$program" machine "$bytes" 1 "$examples/$name.ll"); then
            echo "$name, $bytes bytes: more than $limit s"
            continue
        fi
        told=$(cat "$work/told")
        attempts=${told#attempts=}
        attempts=${attempts%% *}
        waiting=${told##*waiting=}
        times=$((1000000000 / (once + 1) + 1))
        often=$(spent "$program" machine "$bytes" "$((times + 1))" "$examples/$name.ll") || often=$((once * (times + 1)))
        most=$(memory "$program" machine "$bytes" 1 "$examples/$name.ll") || most=0
        awk -v name="$name" -v bytes="$bytes" -v told="$told" -v attempts="$attempts" -v waiting="$waiting" -v took="$((often - once))" \
            -v times="$times" -v most="$most" -v least="$least" 'BEGIN {
            each = took / times; if (each < 1) each = 1
            printf "%s, %d bytes: %s, %.0f attempts a second", name, bytes, told, attempts * 1e9 / each
            if (most > 0) printf ", %.0f KB a waiting state", (most - least) / waiting
            printf "\n" }'
    done
done
if ! command -v lli >/dev/null; then
    echo "lli is not installed: its steps are left out"
    exit 0
fi
other=()
for flags in "-jit-kind=mcjit -force-interpreter -opaque-pointers" "-jit-kind=mcjit -force-interpreter" "-force-interpreter"; do
    if lli $flags "$work/start.ll" 2>/dev/null; then
        read -ra other <<<"lli $flags"
        break
    fi
done
# A loop whose number of steps is known: 4 a round.
cat >"$work/loop.ll" <<'MODULE'
define i32 @main() {
e:
  br label %l
l:
  %i = phi i32 [ 0, %e ], [ %j, %l ]
  %j = add i32 %i, 1
  %c = icmp ult i32 %j, 2000000
  br i1 %c, label %l, label %x
x:
  ret i32 0
}
MODULE
[ "${#other[@]}" -gt 0 ] || { echo "lli has no interpreter here"; exit 0; }
start=$(spent "${other[@]}" "$work/start.ll")
took=$(spent "${other[@]}" "$work/loop.ll")
awk -v t="$((took - start))" 'BEGIN { printf "lli, a loop: %.0f steps a second\n", 8000000 * 1e9 / t }'
