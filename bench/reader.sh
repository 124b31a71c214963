#!/usr/bin/env bash
# How fast a module's text is read: its bytes in tokens, and then in a tree; and how fast `print` answers whole, which resolves names and
# checks types too. The text is one module's functions and globals over and over, of 1, 4 and 16 MiB; `print` gets texts of 1/4, 1 and 4 MiB.
# Where `llvm-as` is installed its time for the same text stands beside it.
set -euo pipefail
cd "$(dirname "$0")/../crates/bench_programs"
rt run >/dev/null 2>&1 || { rt run >&2; exit 1; }
program=$(find out -maxdepth 1 -type f -name 'bench_programs*' -perm -u+x | head -n 1)
if [ -z "$program" ]; then
    echo "no program was built in $PWD/out" >&2
    exit 1
fi
chopper=$PWD/../../chopper.sh
"$chopper" --version >/dev/null
work=$(mktemp -d)
trap 'rm -rf "$work"' EXIT
# One copy of the module, its names with a number behind them.
copy='@values.N = private unnamed_addr constant { i32, i8 } { i32 2, i8 3 }, align 4
define dso_local void @note.N(i32 noundef %0) #0 {
  %2 = alloca i32, align 4
  store i32 %0, ptr %2, align 4
  %3 = load i32, ptr %2, align 4
  %4 = add nsw i32 48, %3
  %5 = call i32 @putchar(i32 noundef %4)
  ret void
}
define dso_local i32 @main.N() #0 {
  %1 = alloca i32, align 4
  %2 = alloca { i32, i8 }, align 4
  store i32 0, ptr %1, align 4
  call void @llvm.memcpy.p0.p0.i64(ptr align 4 %2, ptr align 4 @values.N, i64 8, i1 false)
  %3 = getelementptr inbounds { i32, i8 }, ptr %2, i32 0, i32 0
  %4 = load i32, ptr %3, align 4
  call void @note.N(i32 noundef %4)
  %5 = call i32 @putchar(i32 noundef 33)
  %6 = getelementptr inbounds { i32, i8 }, ptr %2, i32 0, i32 0
  %7 = load i32, ptr %6, align 4
  %8 = icmp sgt i32 %7, 0
  br i1 %8, label %9, label %14
9:                                                ; preds = %0
  %10 = getelementptr inbounds { i32, i8 }, ptr %2, i32 0, i32 1
  %11 = load i8, ptr %10, align 4
  %12 = sext i8 %11 to i32
  %13 = icmp eq i32 %12, 3
  br label %14
14:                                               ; preds = %9, %0
  %15 = phi i1 [ false, %0 ], [ %13, %9 ]
  %16 = zext i1 %15 to i32
  ret i32 %16
}'
text() {
    printf 'source_filename = "a.c"\ntarget triple = "x86_64-pc-linux-gnu"\n'
    printf 'declare i32 @putchar(i32 noundef) #1\n'
    printf 'declare void @llvm.memcpy.p0.p0.i64(ptr noalias nocapture writeonly, ptr noalias nocapture readonly, i64, i1 immarg) #2\n'
    awk -v copy="$copy" -v bytes="$1" 'BEGIN { n = 0; while (done < bytes) { c = copy; gsub(/\.N/, "." n, c); print c; done += length(c) + 1; n++ } }'
    printf 'define i32 @main() {\n  ret i32 0\n}\n'
    printf 'attributes #0 = { noinline nounwind optnone }\nattributes #1 = { nounwind }\nattributes #2 = { nounwind }\n'
}
# Microseconds of one run.
spent() {
    local started ended
    started=$(date +%s%N)
    "$@" >/dev/null
    ended=$(date +%s%N)
    echo $(((ended - started) / 1000))
}
for mebibytes in 1 4 16; do
    file=$work/$mebibytes.ll
    text $((mebibytes * 1048576)) >"$file"
    [ "$("$program" reader read "$file")" = done ] || { echo "the text of $mebibytes MiB is not read" >&2; exit 1; }
    keep=$(spent "$program" reader keep "$file")
    lex=$(spent "$program" reader lex "$file")
    read=$(spent "$program" reader read "$file")
    other=0
    # Older ones need to be told that pointers have no types of their own.
    for assembler in "llvm-as" "llvm-as -opaque-pointers"; do
        if $assembler -o "$work/out.bc" "$file" 2>/dev/null; then
            other=$(spent $assembler -o "$work/out.bc" "$file")
            break
        fi
    done
    awk -v keep="$keep" -v lex="$lex" -v read="$read" -v other="$other" -v bytes="$(stat -c %s "$file")" -v m="$mebibytes" -v last="${last:-0}" 'BEGIN {
        l = lex - keep; r = read - keep; if (l < 1) l = 1; if (r < 1) r = 1;
        printf "%d MiB: tokens %.1f MB/s, tokens and tree %.1f MB/s", m, bytes / l, bytes / r;
        if (last > 0) printf ", %.2f times the time of the size before", r / last;
        if (other > 0) printf ", llvm-as %.1f MB/s, %.2f times its time", bytes / other, r / other;
        printf "\n"; print r > "/dev/stderr";
    }' 2>"$work/state"
    last=$(tail -n 1 "$work/state")
done
last=0
for kibibytes in 256 1024 4096; do
    file=$work/print.ll
    text $((kibibytes * 1024)) >"$file"
    "$chopper" print "$file" >"$work/printed.ll" || { head -c 200 "$work/printed.ll"; exit 1; }
    whole=$(spent "$chopper" print "$file")
    awk -v whole="$whole" -v bytes="$(stat -c %s "$file")" -v k="$kibibytes" -v last="$last" 'BEGIN {
        printf "print of %d KiB: %.2f MB/s", k, bytes / whole;
        if (last > 0) printf ", %.2f times the time of the size before", whole / last;
        printf "\n";
    }'
    last=$whole
done
