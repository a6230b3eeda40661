#!/bin/sh
# Runs the gate over the last commit in a clean clone, and takes nothing from earlier runs: each proof and each
# must-fail edit is made again. The last line is the gate's, and so is the exit status. It takes an hour or two.
set -eu
top=$(cd "$(dirname "$0")/.." && pwd)
work=$(mktemp -d)
trap 'rm -rf "$work"' EXIT
trap 'exit 1' HUP INT TERM
git clone -q "$top" "$work/office"
"$work/office/.ci/run" --anew
