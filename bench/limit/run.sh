#!/bin/sh
# Replays the same bags by `office replay` and by a plain Rust program that trusts its input, by turns, and compares what
# they print.
# usage: run.sh OFFICE [SHAPE:SOURCES|PACKAGES..]
# OFFICE is the built program. A bag is one of bench/replay/bag.py, or is made of a file of Packages.
# ROUNDS says how often each program is run (5).
set -eu
here=$(cd "$(dirname "$0")" && pwd)
top=$(cd "$here/../.." && pwd)
office=$1
shift
work=$(mktemp -d)
trap 'rm -rf "$work"' EXIT
export OFFICE_SYNC="${OFFICE_SYNC:-$top/crates/office_sync/out/office_sync}"
[ $# -gt 0 ] || set -- runs:34000 both:34000
rustc -O --edition 2024 -o "$work/plain" "$here/plain/main.rs"
for name in "$@"; do
    echo "$name:"
    if [ -f "$name" ]; then
        "$top/tools/bin/office-from-packages" --uploaded 2025-03-01 --run 2025-03-31 --no-hints "$work/archive" "$name" \
            > "$work/told" 2>&1 || { tail -3 "$work/told"; exit 1; }
        setup=$work/archive/setup.conf bag=$work/archive/bag
    else
        setup=$work/conf bag=$work/bag
        python3 "$top/bench/replay/bag.py" "${name%:*}" conf > "$setup"
        python3 "$top/bench/replay/bag.py" "${name%:*}" "${name#*:}" > "$bag"
    fi
    python3 "$here/turns.py" "$office" "$work/plain" "$setup" "$bag" "${ROUNDS:-5}"
done
