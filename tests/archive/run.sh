#!/bin/sh
# Runs a real archive by the office, end to end: real packages, archives of reprepro and aptly, the running office, and
# what clients of testing meet.
#
# Usage: tests/archive/run.sh OFFICE [planted]
#
# OFFICE is the built program. The environment's OFFICE_PLAN and OFFICE_SYNC name the built office-plan and office-sync,
# if they aren't in crates/office_plan/out and crates/office_sync/out. What lacks of Debian's packages is installed
# first, where this is run by root. Four parts run at once: all days over reprepro and over aptly (loop.py), ends by
# force (kills.py), and adoption, looks before orders and days of office-day (ways.py). With `planted` the tests are
# tested instead, by commands that have a fault (planted.py). The exit status is 0 if all is as it is due, 1 if
# something isn't, 2 if the words or the tools are wrong.
set -u
if [ $# -lt 1 ] || [ $# -gt 2 ] || [ ! -x "$1" ] || [ "${2:-planted}" != planted ]; then
    echo "usage: $0 OFFICE [planted]" >&2
    exit 2
fi
here=$(cd "$(dirname "$0")" && pwd)
office=$(cd "$(dirname "$1")" && pwd)/$(basename "$1")
export PYTHONDONTWRITEBYTECODE=1
OFFICE_PLAN=${OFFICE_PLAN:-$here/../../crates/office_plan/out/office_plan}
OFFICE_SYNC=${OFFICE_SYNC:-$here/../../crates/office_sync/out/office_sync}
export OFFICE_PLAN OFFICE_SYNC
for program in "$OFFICE_PLAN" "$OFFICE_SYNC"; do
    if [ ! -x "$program" ]; then
        echo "$0: there is no program $program" >&2
        exit 2
    fi
done

# COMMAND and the package that has it
lacking=
while read -r command package; do
    command -v "$command" > /dev/null || lacking="$lacking $package"
done << END
reprepro reprepro
aptly aptly
dose-debcheck dose-distcheck
installcheck libsolv-tools
dpkg-buildpackage dpkg-dev
fakeroot fakeroot
make make
curl curl
END
for module in debian:python3-debian apt_pkg:python3-apt; do
    /usr/bin/python3 -c "import ${module%:*}" 2> /dev/null || lacking="$lacking ${module#*:}"
done
if [ -n "$lacking" ]; then
    if [ "$(id -u)" -ne 0 ]; then
        echo "not installed:$lacking (as root this script installs them)" >&2
        exit 2
    fi
    export DEBIAN_FRONTEND=noninteractive
    # shellcheck disable=SC2086  # the names are words
    apt-get install -y --no-install-recommends $lacking > /dev/null 2>&1 ||
        { apt-get update > /dev/null && apt-get install -y --no-install-recommends $lacking > /dev/null; } || exit 2
fi

work=$(mktemp -d)
trap 'rm -rf "$work"' EXIT
trap 'exit 1' HUP INT TERM
if [ $# -eq 2 ]; then
    /usr/bin/python3 "$here/planted.py" "$office" "$work"
    exit
fi
/usr/bin/python3 -c "import sys; sys.path.insert(0, '$here')
import days, kills, packages, ways
packages.build_all([*(upload for day in days.DAYS for upload in day.uploads), *kills.LATER, *ways.ALL], '$work/built')" ||
    exit 1
parts=
for part in 'loop.py reprepro' 'loop.py aptly' 'kills.py' 'ways.py'; do
    name=$(echo "$part" | tr ' ' '-')
    mkdir "$work/$name"
    ln -s ../built "$work/$name/built"
    # shellcheck disable=SC2086  # the script and its part are words
    set -- $part
    script=$1
    shift
    /usr/bin/python3 "$here/$script" "$office" "$work/$name" "$@" > "$work/$name/told" 2>&1 &
    parts="$parts $name:$!"
done
failed=0
for part in $parts; do
    name=${part%:*}
    if wait "${part#*:}"; then
        grep -v ': run [0-9]*: ' "$work/$name/told"
    else
        failed=1
        echo "not ok: $name"
        sed 's/^/  /' "$work/$name/told"
    fi
done
[ "$failed" -eq 0 ] && echo "archive: all as it is due"
exit "$failed"
