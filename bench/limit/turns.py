#!/usr/bin/env python3
"""Runs the office and the plain program by turns on one bag: the median of their processor time, the greatest peak of
memory, and the ratios.

usage: turns.py OFFICE PLAIN SETUP BAG ROUNDS

It stops if a program fails, or if the two outputs differ.
"""
import os
import statistics
import subprocess
import sys
import tempfile


def timed(words, bag, printed):
    """The seconds of processor (user and system) and the peak in MB of one run."""
    with open(bag, "rb") as given, open(printed, "wb") as output:
        process = subprocess.Popen(words, stdin=given, stdout=output)
        _, status, usage = os.wait4(process.pid, 0)
        process.returncode = os.waitstatus_to_exitcode(status)
    if process.returncode:
        sys.exit(f"{words[0]}: status {process.returncode}")
    return usage.ru_utime + usage.ru_stime, usage.ru_maxrss / 1024


def first_difference(outputs):
    """The number of the first line that differs, if there is one."""
    with open(outputs[0], "rb") as left, open(outputs[1], "rb") as right:
        lines = zip(left.read().split(b"\n"), right.read().split(b"\n"))
        return next((number for number, pair in enumerate(lines, 1) if pair[0] != pair[1]), None)


def main():
    office, plain, setup, bag = sys.argv[1:5]
    programs = {"office": [office, "replay", "--conf", setup], "plain": [plain, setup]}
    took = {name: [] for name in programs}
    with tempfile.TemporaryDirectory() as folder:
        outputs = [os.path.join(folder, name) for name in programs]
        for _ in range(int(sys.argv[5])):
            for (name, words), output in zip(programs.items(), outputs):
                took[name].append(timed(words, bag, output))
            if subprocess.run(["cmp", "-s", *outputs]).returncode:
                sys.exit(f"  the outputs differ, first in line {first_difference(outputs) or 'the last'}")
    seconds, peaks = {}, {}
    for name, runs in took.items():
        times = [time for time, _ in runs]
        seconds[name], peaks[name] = statistics.median(times), max(peak for _, peak in runs)
        print(f"  {name}: {seconds[name]:.2f} s of processor, {min(times):.2f} to {max(times):.2f}, "
              f"{peaks[name]:.0f} MB")
    of_rounds = [ours / theirs for (ours, _), (theirs, _) in zip(took["office"], took["plain"])]
    print(f"  office / plain: time {seconds['office'] / seconds['plain']:.2f} by the medians, "
          f"{min(of_rounds):.2f} to {max(of_rounds):.2f} by rounds; memory {peaks['office'] / peaks['plain']:.2f}")


main()
