#!/bin/sh
# Builds the program where a source is newer than it, and starts it with these words in the caller's folder.
here=$(cd "$(dirname "$0")" && pwd) || exit 1
program="$here/crates/chopper/out/chopper"
if [ ! -x "$program" ] || [ -n "$(find "$here/crates" -name '*.rt' -newer "$program" -print -quit)" ]; then
    log=$(mktemp) || exit 1
    if ! (cd "$here/crates/chopper" && rt run -- --version) >"$log" 2>&1; then
        cat "$log" >&2
        rm -f "$log"
        exit 1
    fi
    rm -f "$log"
fi
# Walks of terms call themselves once a level, and a term may have 65,535 levels: where the system allows it, the stack is larger.
ulimit -S -s 262144 2>/dev/null || ulimit -S -s "$(ulimit -H -s)" 2>/dev/null || true
exec "$program" "$@"
