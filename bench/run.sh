#!/usr/bin/env bash
# How fast `run` runs a module: steps a second of processor time of a loop that counts, of a memcpy of 60,000 bytes and of a recursive Fibonacci number, the time
# of a module of one step taken off. Where `lli` is installed the time of its interpreter for the same module stands beside it.
set -euo pipefail
cd "$(dirname "$0")/.."
chopper=$PWD/chopper.sh
"$chopper" --version >/dev/null
work=$(mktemp -d)
trap 'rm -rf "$work"' EXIT
cat >"$work/start.ll" <<'MODULE'
define i32 @main() {
  ret i32 0
}
MODULE
cat >"$work/loop.ll" <<'MODULE'
define i32 @main() {
e:
  br label %l
l:
  %i = phi i32 [ 0, %e ], [ %j, %l ]
  %j = add i32 %i, 1
  %c = icmp ult i32 %j, 240000
  br i1 %c, label %l, label %x
x:
  ret i32 0
}
MODULE
cat >"$work/memcpy.ll" <<'MODULE'
@from = global [60000 x i8] zeroinitializer
@to = global [60000 x i8] zeroinitializer
declare ptr @memcpy(ptr, ptr, i64)
define i32 @main() {
  %r = call ptr @memcpy(ptr @to, ptr @from, i64 60000)
  ret i32 0
}
MODULE
# The same for the other interpreter, which calls the machine's own memcpy where it isn't written out.
cat >"$work/memcpy.other.ll" <<'MODULE'
@from = global [60000 x i8] zeroinitializer
@to = global [60000 x i8] zeroinitializer
define ptr @copy(ptr %d, ptr %s, i64 %n) {
e:
  br label %l
l:
  %i = phi i64 [ 0, %e ], [ %j, %k ]
  %t = icmp ult i64 %i, %n
  br i1 %t, label %k, label %x
k:
  %p = getelementptr i8, ptr %d, i64 %i
  %q = getelementptr i8, ptr %s, i64 %i
  %b = load i8, ptr %q
  store i8 %b, ptr %p
  %j = add i64 %i, 1
  br label %l
x:
  ret ptr %d
}
define i32 @main() {
  %r = call ptr @copy(ptr @to, ptr @from, i64 60000)
  ret i32 0
}
MODULE
cat >"$work/fibonacci.ll" <<'MODULE'
define i32 @fibonacci(i32 %n) {
e:
  %c = icmp ult i32 %n, 2
  br i1 %c, label %b, label %r
b:
  ret i32 %n
r:
  %m = sub i32 %n, 1
  %x = call i32 @fibonacci(i32 %m)
  %k = sub i32 %n, 2
  %y = call i32 @fibonacci(i32 %k)
  %s = add i32 %x, %y
  ret i32 %s
}
define i32 @main() {
  %r = call i32 @fibonacci(i32 22)
  ret i32 0
}
MODULE
# Milliseconds of processor time of one run, the least of three.
spent() {
    local least="" took TIMEFORMAT=%U
    for _ in 1 2 3; do
        took=$({ time "$@" >/dev/null 2>&1; } 2>&1)
        took=$((10#${took/./}))
        if [ -z "$least" ] || [ "$took" -lt "$least" ]; then
            least=$took
        fi
    done
    echo "$least"
}
run() {
    "$chopper" run --hex - --steps 1000000 "$1"
}
other=()
if command -v lli >/dev/null; then
    # The newer engine of lli compiles whatever it is told; older ones need to be told that pointers have no types of their own.
    for flags in "-jit-kind=mcjit -force-interpreter -opaque-pointers" "-jit-kind=mcjit -force-interpreter" "-force-interpreter"; do
        if lli $flags "$work/start.ll" 2>/dev/null; then
            read -ra other <<<"lli $flags"
            break
        fi
    done
fi
[ "${#other[@]}" -gt 0 ] || echo "lli is not installed: its times are left out"
start=$(spent run "$work/start.ll")
other_start=0
[ "${#other[@]}" -eq 0 ] || other_start=$(spent "${other[@]}" "$work/start.ll")
for name in loop memcpy fibonacci; do
    line=$(run "$work/$name.ll")
    case $line in
        "complete status=0 output=- steps="*) ;;
        *) echo "$name: $line" >&2; exit 1 ;;
    esac
    time=$(spent run "$work/$name.ll")
    other_time=0
    module=$work/$name.ll
    [ ! -f "$work/$name.other.ll" ] || module=$work/$name.other.ll
    if [ "${#other[@]}" -gt 0 ] && "${other[@]}" "$module" >/dev/null 2>&1; then
        other_time=$(spent "${other[@]}" "$module")
    fi
    awk -v name="$name" -v steps="${line##*steps=}" -v time="$time" -v start="$start" -v other="$other_time" -v other_start="$other_start" 'BEGIN {
        t = time - start; if (t < 1) t = 1;
        printf "%s: %d steps, %.2f million steps a second", name, steps, steps / t / 1000;
        if (other > 0) { o = other - other_start; if (o < 1) o = 1; printf ", %.0f ms, lli %.0f ms", t, o; }
        printf "\n";
    }'
done
