#!/usr/bin/env python3
"""Processor seconds of `office replay`, part by part: the mail that comes before a run's order, and the run.

usage: phases.py OFFICE SHAPE:SOURCES [TIMES]

The bag is that of bag.py, and is written into a pipe: first what comes before an order, then the order, and each time
the office is let come to rest before its time is read. So a run's time is that of its order's delivery and of all that
the run decides. Linux alone.
"""
import array
import fcntl
import os
import subprocess
import sys
import tempfile
import termios
import time

HERE = os.path.dirname(os.path.abspath(__file__))


def stages_of(bag):
    """The parts of a bag: mail, an order, mail, an order, and so on."""
    stages, mail = [], []
    for message in bag.removeprefix(b"mail ").split(b"\nmail "):
        text = b"mail " + message + b"\n"
        if b"\nKind: run\n" in text:
            stages += [("mail", b"".join(mail)), ("run", text)]
            mail = []
        else:
            mail.append(text)
    return stages + ([("mail", b"".join(mail))] if mail else [])


def is_taken(pipe):
    """Nothing that was written waits in the pipe."""
    waiting = array.array("i", [0])
    fcntl.ioctl(pipe, termios.FIONREAD, waiting)
    return waiting[0] == 0


def seconds(process):
    """The processor time that the process has had."""
    with open(f"/proc/{process.pid}/schedstat") as told:
        return int(told.read().split()[0]) / 1e9


def at_rest(process):
    """The process's time, once it waits for more."""
    last, same = seconds(process), 0
    while same < 5:
        time.sleep(0.02)
        now = seconds(process)
        same = same + 1 if now == last and is_taken(process.stdin) else 0
        last = now
    return last


def phases(office, setup, stages):
    """The seconds of each part, and of the end."""
    process = subprocess.Popen([office, "replay", "--conf", setup], stdin=subprocess.PIPE, stdout=subprocess.DEVNULL)
    spent, took = at_rest(process), []
    for name, text in stages:
        process.stdin.write(text)
        process.stdin.flush()
        now = at_rest(process)
        took.append((name, now - spent))
        spent = now
    process.stdin.close()
    _, status, usage = os.wait4(process.pid, 0)
    if status:
        sys.exit(f"{office}: status {os.waitstatus_to_exitcode(status)}")
    took.append(("end", usage.ru_utime + usage.ru_stime - spent))
    return took, usage.ru_maxrss // 1024


def main():
    office, bag = sys.argv[1:3]
    shape, sources = bag.split(":")
    words = [sys.executable, os.path.join(HERE, "bag.py"), shape]
    text = subprocess.run([*words, sources], stdout=subprocess.PIPE, check=True).stdout
    stages = stages_of(text.rstrip(b"\n"))
    with tempfile.NamedTemporaryFile(suffix=".conf") as conf:
        subprocess.run([*words, "conf"], stdout=conf, check=True)
        tell(office, bag, conf.name, stages)


def tell(office, bag, setup, stages):
    for _ in range(int(sys.argv[3]) if len(sys.argv) > 3 else 1):
        took, peak = phases(office, setup, stages)
        runs = [spent for name, spent in took if name == "run"]
        print(f"{bag}: " + ", ".join(f"{name} {spent:.3f}" for name, spent in took) + f" s, {peak} MB")
        if len(runs) > 1:
            print("  later runs cost 1 / " + ", 1 / ".join(f"{runs[0] / run:.1f}" for run in runs[1:]) + " of the first")


if __name__ == "__main__":
    main()
