#!/usr/bin/env bash
# Compiles each C program of this folder to the module beside it, and puts a copy where the stored run of `crates/example_runs` finds it.
# With `--check` it compiles nothing, and says whether each copy is the same as its module.
set -euo pipefail
cd "$(dirname "$0")"
copies=../crates/example_runs/data
for program in *.c; do
    module=${program%.c}.ll
    if [ "${1:-}" = --check ]; then
        cmp "$module" "$copies/$module"
    else
        clang -O0 -S -emit-llvm -mllvm -opaque-pointers -fno-ident -o "$module" "$program"
        cp "$module" "$copies/$module"
    fi
done
