#!/bin/bash
# Times the installable rows of an archive, beside a plain Rust worklist over the same rows.
# Usage: bench/installable/run.sh [PACKAGES]. Without a file of Packages the rows are apt's, and without apt's drawn.
set -euo pipefail
here=$(cd "$(dirname "$0")" && pwd)
top=$(cd "$here/../.." && pwd)
work=$(mktemp -d)
trap 'rm -rf "$work"' EXIT

# The paragraphs, with the fields that count.
fields() { awk '/^(Package|Version|Architecture|Pre-Depends|Depends|Provides):/ || /^$/'; }
is_archive() { [ "$(grep -c '^Package:' "$work/archive")" -gt 1000 ]; }
if [ $# -ge 1 ]; then
    fields < "$1" > "$work/archive"
elif ! (apt-cache dumpavail 2> /dev/null | fields > "$work/archive" && is_archive); then
    rm "$work/archive"
fi
awk -f "$here/random_rows.awk" > "$work/drawn"
awk -f "$here/providers.awk" > "$work/providers"
runs="drawn providers"
if [ -f "$work/archive" ]; then
    awk -v RS= -v ORS='\n\n' '!/^Package: libc6\n/' "$work/archive" > "$work/without_libc6"
    awk -v RS= -v ORS='\n\n' 'NR % 100 != 7' "$work/archive" > "$work/with_gaps"
    runs="archive without_libc6 with_gaps $runs"
fi

# The proved program, beside copies of the crates that it stands on.
grep -E '^(deb_version|deb_control|testing_install):' "$top/crates.txt" > "$work/crates.txt"
echo 'bench_installable: deb_version deb_control testing_install anyhow' >> "$work/crates.txt"
proved=$work/crates/bench_installable
mkdir -p "$proved/src"
cp "$here/program.rattle" "$proved/src/main.rt"
for name in deb_version deb_control testing_install; do cp -r "$top/crates/$name" "$work/crates/"; done
(cd "$proved" && rt run --jobs 1 < /dev/null) > "$work/build" 2>&1 || { cat "$work/build"; exit 1; }
rustc -O --edition 2021 -o "$work/plain" "$here/plain.rs"

peak='import resource, subprocess, sys
subprocess.run(sys.argv[1:], check=True)
print("peak", resource.getrusage(resource.RUSAGE_CHILDREN).ru_maxrss // 1024)'
for rows in $runs; do
    python3 -c "$peak" "$proved/out/bench_installable" < "$work/$rows" > "$work/by_proved"
    "$work/plain" < "$work/$rows" > "$work/by_plain"
    echo "$rows: $(head -1 "$work/by_proved")"
    if [ "$(head -1 "$work/by_proved")" != "$(head -1 "$work/by_plain")" ]; then
        echo "  plain Rust differs: $(head -1 "$work/by_plain")"
    fi
    cat "$work/by_proved" "$work/by_plain" | awk '
        $1 == "index" && !whole { index_time = $2; whole = $4; next }
        $1 == "index" { plain = $4 }
        $1 == "peak" { peak = $2 }
        END { printf "  index %.0f ms, solve %.0f ms, whole %.0f ms; plain Rust %.0f ms; ratio %.2f; peak %d MB\n",
            index_time / 1000, (whole - index_time) / 1000, whole / 1000, plain / 1000, whole / plain, peak }'
done
