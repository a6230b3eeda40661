#!/usr/bin/env python3
"""Times a replay over a store in a new file and the same in memory, by turns: medians of processor time (user and
system) and of the time by the clock, peaks of memory, and ratios. It stops if the two print different texts.

usage: over_file.py OFFICE [SHAPE:SOURCES..]

OFFICE is the built program. The shapes are those of bag.py; runs:34000 if none is named. TMPDIR says where the file
lies, ROUNDS how often each is run (5).
"""
import os
import statistics
import subprocess
import sys
import tempfile
import time

HERE = os.path.dirname(os.path.realpath(__file__))


def timed(words, bag, printed):
    """Seconds of processor, seconds by the clock, and the peak in MB of one run."""
    began = time.monotonic()
    with open(bag, "rb") as given, open(printed, "wb") as output:
        process = subprocess.Popen(words, stdin=given, stdout=output)
        _, status, usage = os.wait4(process.pid, 0)
        process.returncode = os.waitstatus_to_exitcode(status)
    if process.returncode:
        sys.exit(f"{' '.join(words)}: status {process.returncode}")
    return usage.ru_utime + usage.ru_stime, time.monotonic() - began, usage.ru_maxrss / 1024


def measure(office, shape, sources, folder, rounds):
    bag, store = os.path.join(folder, "bag"), os.path.join(folder, "store")
    outputs = [os.path.join(folder, name) for name in ("by_memory", "by_file")]
    with open(bag, "wb") as written:
        subprocess.run([sys.executable, os.path.join(HERE, "bag.py"), shape, sources], stdout=written, check=True)
    setup = os.path.join(folder, "conf")
    with open(setup, "wb") as written:
        subprocess.run([sys.executable, os.path.join(HERE, "bag.py"), shape, "conf"], stdout=written, check=True)
    words = [office, "replay", "--conf", setup]
    took = {"memory": [], "file": []}
    for _ in range(rounds):
        for name in (store, store + "-wal"):
            if os.path.exists(name):
                os.remove(name)
        took["memory"].append(timed(words, bag, outputs[0]))
        took["file"].append(timed([*words, "--db", store], bag, outputs[1]))
        if subprocess.run(["cmp", "-s", *outputs], check=False).returncode:
            sys.exit("the outputs differ")
    medians = {name: [statistics.median(run[at] for run in runs) for at in range(3)] for name, runs in took.items()}
    for name, (processor, clock, peak) in medians.items():
        print(f"{shape}:{sources} in {name}: {processor:.2f} s of processor, {clock:.2f} s by the clock, {peak:.0f} MB")
    ratios = [over / within for over, within in zip(medians["file"], medians["memory"])]
    print("  file / memory: processor %.2f, clock %.2f, peak %.2f" % tuple(ratios))


def main():
    if len(sys.argv) < 2:
        sys.exit(__doc__)
    for bag in sys.argv[2:] or ["runs:34000"]:
        shape, _, sources = bag.partition(":")
        with tempfile.TemporaryDirectory() as folder:
            measure(sys.argv[1], shape, sources, folder, int(os.environ.get("ROUNDS", "5")))


main()
