#!/bin/sh
# Runs each benchmark once on small input, so that it is known to run, and prints a line for each and
# `N passed, N failed`.
#
# Usage: bench/all.sh OFFICE [without-kit]
#
# OFFICE is the built program, crates/office/out/office. Some benchmarks build a program of their own with `rt`, which
# proves copies of the crates and takes an hour together; with `without-kit` they are left out. What each benchmark
# prints stands in a file of a new folder, whose name is told, and is printed where the benchmark failed. The times that
# they print here say nothing. The exit status is 1 where one failed, and 2 where the words are wrong.
set -u
if [ $# -lt 1 ] || [ $# -gt 2 ] || [ ! -x "$1" ] || [ "${2:-without-kit}" != without-kit ]; then
    echo "usage: $0 OFFICE [without-kit]" >&2
    exit 2
fi
bench=$(cd "$(dirname "$0")" && pwd)
office=$(realpath -e -- "$1")
told=$(mktemp -d)
# (one package of the example has a version that no reader of versions takes)
packages=$told/Packages
awk -v RS= -v ORS='\n\n' '!/\nVersion: [^\n]*_/' "$bench/../examples/Packages" > "$packages"
passed=0
failed=0

# try NAME COMMAND..
try() {
    name=$1
    shift
    began=$(date +%s)
    if "$@" > "$told/$name" 2>&1 < /dev/null && [ -s "$told/$name" ]; then
        passed=$((passed + 1))
        echo "ok: $name, $(($(date +%s) - began)) s: $(tail -n 1 "$told/$name")"
    else
        failed=$((failed + 1))
        echo "not ok: $name, $(($(date +%s) - began)) s"
        sed 's/^/  /' "$told/$name"
    fi
}

try replay "$bench/replay/run.sh" "$office" mail:20 waiting:20 backwards:20 idle:20 first:20 runs:20 both:20 nine:20
try replay_store env DB=1 "$bench/replay/run.sh" "$office" runs:20
try replay_file env ROUNDS=1 python3 "$bench/replay/over_file.py" "$office" runs:20 both:20
try serving_pages env ROUNDS=1 python3 "$bench/serving/pages.py" "$office" 20
try serving env ROUNDS=1 REQUESTS=10 python3 "$bench/serving/run.py" "$office" 20
try pages env WHY=5 python3 "$bench/pages/run.py" "$office" 50
try replay_phases python3 "$bench/replay/phases.py" "$office" both:20
try limit env ROUNDS=1 "$bench/limit/run.sh" "$office" runs:20 both:20 nine:20 sixteen:20 "$packages"
try from_packages env ROUNDS=1 /usr/bin/python3 "$bench/tools/from_packages.py" 200
try next_day env SOURCES=200 /usr/bin/python3 "$bench/tools/next_day.py" "$office"
try lists env ROUNDS=1 python3 "$bench/tools/lists.py" "$office" both:200
try start_to_end "$bench/versions/start_to_end.sh" "$office" 5
if [ $# -eq 1 ]; then
    printf '%s\n' 1.0 1.1 1:2.0-1 2.0~rc1-1 > "$told/pairs"
    try versions "$bench/versions/run.sh" "$told/pairs" 1 1
    try installable "$bench/installable/run.sh" "$packages"
fi
echo "what each printed: $told"
echo "$passed passed, $failed failed"
[ "$failed" -eq 0 ]
