#!/bin/sh
# Runs all checks over the built program, one after the other, and prints a line for each and `N passed, N failed`.
#
# Usage: tests/all.sh OFFICE [STEP [PARTS]]
#
# OFFICE is the built program, crates/office/out/office. The environment's OFFICE_PLAN and OFFICE_SYNC name the built
# office-plan and office-sync, if they aren't in crates/office_plan/out and crates/office_sync/out. With STEP only each
# STEPth growth, call and place is tried (1): 23 is a sample. PARTS is the built program that judges itself,
# crates/cases_program/out/cases_program (see tests/memory/refused.py). What each check prints goes to a file of a new
# folder, whose name is printed; if the check fails, the output is printed too. The exit status is 1 if one failed.
set -u
if [ $# -lt 1 ] || [ ! -x "$1" ]; then
    echo "usage: $0 OFFICE [STEP [PARTS]]" >&2
    exit 2
fi
here=$(cd "$(dirname "$0")" && pwd)
office=$(cd "$(dirname "$1")" && pwd)/$(basename "$1")
step=${2:-1}
parts=${3:-}
told=$(mktemp -d)
passed=0
failed=0
export PYTHONDONTWRITEBYTECODE=1

# try NAME COMMAND..
try() {
    name=$1
    shift
    began=$(date +%s)
    if "$@" > "$told/$name" 2>&1 < /dev/null; then
        passed=$((passed + 1))
        echo "ok: $name, $(($(date +%s) - began)) s: $(tail -n 1 "$told/$name")"
    else
        failed=$((failed + 1))
        echo "not ok: $name, $(($(date +%s) - began)) s"
        sed 's/^/  /' "$told/$name"
    fi
}

try clients python3 "$here/service/clients.py" "$office"
try framing python3 "$here/service/framing.py" "$office"
try stores python3 "$here/service/stores.py" "$office"
try asking python3 "$here/service/asking.py" "$office"
try live python3 "$here/service/live.py" "$office"
try proposals python3 "$here/service/proposals.py" "$office"
try refusals python3 "$here/service/refusals.py" "$office"
try breaks python3 "$here/service/breaks.py" "$office"
try replicas python3 "$here/service/replicas.py" "$office"
try hold python3 "$here/service/hold.py" "$office"
try browser /usr/bin/python3 "$here/service/browser.py" "$office"
try journal python3 "$here/service/journal.py" "$office"
try firewall python3 "$here/service/firewall.py" "$office"
try proxy python3 "$here/service/proxy.py" "$office"
try peers sh "$here/peers/store.sh" --by "$office"
try trust python3 "$here/trust.py"
try docs sh "$here/docs.sh" "$office"
plan=${OFFICE_PLAN:-$here/../crates/office_plan/out/office_plan}
sync=${OFFICE_SYNC:-$here/../crates/office_sync/out/office_sync}
if [ -x "$sync" ]; then
    OFFICE_SYNC=$(realpath "$sync")
    export OFFICE_SYNC
    try syncs /usr/bin/python3 "$here/archive/syncs.py" "$sync" 100000
else
    echo "not tried: syncs: office-sync isn't built"
fi
if [ -x "$plan" ]; then
    OFFICE_PLAN=$(realpath "$plan")
    export OFFICE_PLAN
    try plans /usr/bin/python3 "$here/archive/plans.py" "$plan" 10000
    try tenth_day /usr/bin/python3 "$here/tenth_day/run.py" "$office"
else
    echo "not tried: plans, tenth_day: office-plan isn't built"
fi
try tools env OFFICE="$office" /usr/bin/python3 -m unittest discover -s "$here/../tools/tests"
try garbled /usr/bin/python3 "$here/archive/garbled.py" "$office"
if [ -d "$here/../crates/deb_version/out/rlib" ]; then
    try edits python3 "$here/edits/trials.py"
else
    echo "not tried: edits: .ci/run has left no libraries in this checkout"
fi
try commits python3 -m unittest discover -s "$here/commits"
try reach python3 -m unittest discover -s "$here/prover"
try rows python3 "$here/rows/check.py"
try judges python3 "$here/judges/check.py"
try counts python3 "$here/rows/counts.py"
try suites python3 "$here/judges/counts.py"
cases=$here/../crates/cases_libraries/out/cases_libraries
if [ -x "$cases" ]; then
    try more_suites python3 "$here/judges/more_suites.py" "$cases" 1001-1020
else
    echo "not tried: more_suites: .ci/run has left no cases_libraries in this checkout"
fi
try drawn python3 "$here/rows/drawn_rows.py" --check
try again python3 "$here/rows/opened_again.py" "$office" 1001-1200
try stopped timeout 3600 python3 "$here/stops/stopped.py" "$office" "$step"
try surroundings timeout 3600 python3 "$here/surroundings/hostile.py" "$office" "$step"
try refused timeout 36000 python3 "$here/memory/refused.py" "$office" "$step" ${parts:+"$parts"}
if [ -x "$plan" ] && [ -x "$sync" ] && command -v reprepro > /dev/null && command -v aptly > /dev/null &&
    command -v dose-debcheck > /dev/null && command -v installcheck > /dev/null &&
    command -v dpkg-buildpackage > /dev/null; then
    try archive "$here/archive/run.sh" "$office"
    try month /usr/bin/python3 "$here/archive/month.py" "$office"
else
    echo "not tried: archive, month: office-plan or office-sync isn't built, or reprepro, aptly, dose-distcheck," \
        "libsolv-tools or dpkg-dev isn't installed"
fi
if command -v chromium > /dev/null && /usr/bin/python3 -c 'import selenium, html5lib' 2> /dev/null; then
    try pages "$here/pages/look.py" "$office" "$told/pages-folder"
else
    echo "not tried: pages: chromium, python3-selenium or python3-html5lib isn't installed"
fi
echo "what each printed: $told"
echo "$passed passed, $failed failed"
[ "$failed" -eq 0 ]
