#!/bin/sh
# Builds the library for C in a folder of its own, and measures it beside plain C.
# usage: run.sh [VERSIONS [ROUNDS [TIMES]]]
# VERSIONS has pairs of lines; without it they are taken from apt's lists. BUILD names the folder to
# build in, and is kept; KIT the folder of Rattle.
set -eu
here=$(cd "$(dirname "$0")" && pwd)
kit=${KIT:-$(dirname "$(dirname "$(readlink -f "$(command -v rt)")")")}
build=${BUILD:-$(mktemp -d)}
mkdir -p "$build/crates/version_bench/src"
cp -R "$here/../../crates/deb_version" "$build/crates/"
cp "$here/program.rattle" "$build/crates/version_bench/src/lib.rt"
rm -rf "$build/crates/deb_version/must-fail"
printf 'deb_version: thiserror\nversion_bench staticlib: deb_version\n' > "$build/crates.txt"
(cd "$build/crates/version_bench" && rt lib --jobs 1) > "$build/lib.txt" 2>&1 || { tail -30 "$build/lib.txt"; exit 1; }
gcc -O2 -Wall -o "$build/bench" "$here/bench.c" "$build/crates/version_bench/out/libversion_bench.a" "$kit/c/liblibc_c.a"
if [ $# -eq 0 ]; then
    "$here/versions_from_apt.sh" > "$build/versions.txt"
    set -- "$build/versions.txt"
fi
"$build/bench" "$1" "${2:-15}" "${3:-3}"
[ -n "${BUILD:-}" ] || rm -rf "$build"
