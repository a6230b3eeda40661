#!/bin/sh
# Measures `office compare` from start to end beside `dpkg --compare-versions`.
# usage: start_to_end.sh OFFICE [TIMES]
# OFFICE is the built program.
set -eu
here=$(cd "$(dirname "$0")" && pwd)
build=$(mktemp -d)
trap 'rm -rf "$build"' EXIT
gcc -O2 -Wall -o "$build/spawn" "$here/spawn.c"
"$build/spawn" "${2:-500}" "$1" compare 1.0 lt 1.1 -- dpkg --compare-versions 1.0 lt 1.1
