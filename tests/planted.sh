#!/bin/sh
# Runs a sample of each check over the built program with a fault planted at its edge, and prints whether it saw it.
#
# Usage: tests/planted.sh OFFICE
#
# OFFICE is the built program, crates/office/out/office. Each check is run first with no fault planted, and has to pass;
# then with the fault, and has to end with status 1. faults/plant.c lists the faults. A line for each: `seen`, or
# `NOT SEEN`. The last line is `N passed, N failed`; the exit status is 1 if one wasn't seen.
set -eu
if [ $# -ne 1 ] || [ ! -x "$1" ]; then
    echo "usage: $0 OFFICE" >&2
    exit 2
fi
here=$(cd "$(dirname "$0")" && pwd)
PLANT_OFFICE=$(realpath -e -- "$1")
work=$(mktemp -d)
chmod 755 "$work"
trap 'rm -rf "$work"' EXIT
trap 'exit 1' HUP INT TERM
PLANT_BY=$work/plant.so
PYTHONDONTWRITEBYTECODE=1
export PLANT_OFFICE PLANT_BY PYTHONDONTWRITEBYTECODE
cc -O1 -shared -fPIC -o "$PLANT_BY" "$here/faults/plant.c" -ldl
cc -O1 -static -o "$work/office" "$here/faults/start.c"
passed=0
failed=0

# try FAULT CHECK [STEP]: whether the check fails with the fault, and passes without.
try() {
    fault=$1
    check=$2
    shift 2
    status=0
    PLANT=none timeout 300 python3 "$here/$check" "$work/office" "$@" > "$work/clean" 2>&1 < /dev/null || status=$?
    if [ "$status" -ne 0 ]; then
        failed=$((failed + 1))
        echo "NOT SEEN: $fault by $check: with no fault it ends with status $status: $(tail -n 1 "$work/clean")"
        return
    fi
    PLANT=$fault timeout 300 python3 "$here/$check" "$work/office" "$@" > "$work/told" 2>&1 < /dev/null || status=$?
    if [ "$status" -eq 1 ] && grep -q '^FAIL' "$work/told"; then
        passed=$((passed + 1))
        first=$(grep -m 1 '^FAIL' "$work/told" | cut -c 1-100)
        printf 'seen: %s by %s, %s: %s\n' "$fault" "$check${ONLY:+ ($ONLY)}" "$(tail -n 1 "$work/told")" "$first"
    else
        failed=$((failed + 1))
        echo "NOT SEEN: $fault by $check${ONLY:+ ($ONLY)}, status $status: $(tail -n 1 "$work/told")"
    fi
}

try held_early stops/stopped.py 5
export ONLY=memory
try lost_is_held memory/refused.py 23
try drops_a_report memory/refused.py 11
export ONLY=service
try lost_is_held memory/refused.py 97
export ONLY=small_disks
try lost_is_held surroundings/hostile.py 3
unset ONLY
try is_not_kept service/stores.py
try drops_a_lack service/asking.py 1-4
try cut_reply service/clients.py
echo "$passed passed, $failed failed"
[ "$failed" -eq 0 ]
