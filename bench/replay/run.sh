#!/bin/sh
# Times `office replay` on bags of an archive's shape.
# usage: run.sh OFFICE [SHAPE:SOURCES..]
# OFFICE is the built program. With DB=1 in the environment each bag is replayed over a store in a new file.
set -eu
here=$(cd "$(dirname "$0")" && pwd)
office=$1
shift
bags=$(mktemp -d)
trap 'rm -rf "$bags"' EXIT
[ $# -gt 0 ] || set -- mail:1000 mail:5000 mail:34000 waiting:1000 waiting:5000 waiting:34000 backwards:34000 idle:34000
for bag in "$@"; do
    python3 "$here/bag.py" "${bag%:*}" "${bag#*:}" > "$bags/bag"
    setup=$bags/conf
    python3 "$here/bag.py" "${bag%:*}" conf > "$setup"
    rm -f "$bags/store" "$bags/store-wal"
    python3 - "$office" "$setup" "$bags/bag" "$bag" "${DB:+$bags/store}" << 'PYTHON'
import resource, subprocess, sys, time
office, setup, bag, name, store = sys.argv[1:]
words = [office, "replay", "--conf", setup] + (["--db", store] if store else [])
messages = sum(line.startswith(b"mail ") for line in open(bag, "rb"))
began = time.monotonic()
with open(bag, "rb") as given:
    told = subprocess.run(words, stdin=given, stdout=subprocess.PIPE)
seconds = time.monotonic() - began
held = sum(line.startswith(b"held ") for line in told.stdout.splitlines())
ready = [line for line in told.stdout.splitlines() if line.startswith(b"ready ")]
peak = resource.getrusage(resource.RUSAGE_CHILDREN).ru_maxrss // 1024
print(f"{name}: {messages} messages, {held} held, {ready[0].decode()}: {seconds:.2f} s, "
      f"{messages / seconds:.0f} a second, {peak} MB, status {told.returncode}")
sys.exit(told.returncode)
PYTHON
done
