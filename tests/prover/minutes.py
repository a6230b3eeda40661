#!/usr/bin/env python3
"""Prints what a run of the gate costs, crate by crate, and writes it into `docs/PROVING.md`.

  minutes.py record LOG [COMMAND..]   runs the command (.ci/run) and writes LOG, with the command's exit status
  minutes.py table LOG                prints the table of a run
  minutes.py write LOG                puts the table, and the line on the whole run, in the place of those in the page

A line of LOG is JSON: a line of the command's output with the second in which it came, or what a process of the prover
had used in that second, every two seconds. A process belongs to a crate's proof if it runs in the crate's folder, and
to its must-fail edits if it runs in a copy. The processor time of a process after its last sample is missing.
"""
import collections
import json
import os
import re
import subprocess
import sys
import textwrap
import threading
import time
from pathlib import Path

TOP = Path(__file__).resolve().parents[2]
PAGE = TOP / "docs/PROVING.md"
HEAD = "| Crate | Functions | Proof, minutes | Proved at minute | Must-fail edits | Edits, minutes | Memory, GB |\n"
RULE = "|---|---|---|---|---|---|---|\n"
TICKS = os.sysconf("SC_CLK_TCK")
EVERY = 2


def sample(pid):
    """What a process has used, if it is one of the prover that checks a crate."""
    words = Path(f"/proc/{pid}/cmdline").read_bytes().split(b"\0")
    if not words[0].endswith(b"/rattle") or b"--crate-name" not in words:
        return None
    stat = Path(f"/proc/{pid}/stat").read_text().rsplit(") ", 1)[1].split()
    peak = re.search(r"VmHWM:\s+(\d+)", Path(f"/proc/{pid}/status").read_text())
    return {
        "pid": int(pid),
        "began": int(stat[19]),
        "crate": words[words.index(b"--crate-name") + 1].decode(),
        "folder": os.readlink(f"/proc/{pid}/cwd"),
        "cpu": sum(map(int, stat[11:15])) / TICKS,
        "peak": int(peak[1]) if peak else 0,
    }


def samples():
    """What each process of the prover has used so far."""
    for pid in filter(str.isdigit, os.listdir("/proc")):
        try:
            found = sample(pid)
        except (OSError, ValueError, IndexError):
            continue
        if found:
            yield found


def record(log, command):
    """Runs a command, notes its lines and the samples, and returns its exit status."""
    began, alone, ended = time.time(), threading.Lock(), threading.Event()
    with open(log, "w", encoding="utf-8") as file:

        def note(entry):
            with alone:
                print(json.dumps({"at": round(time.time() - began, 1), **entry}), file=file, flush=True)

        def watch():
            while not ended.wait(EVERY):
                for found in samples():
                    note(found)

        note({"cores": len(os.sched_getaffinity(0)), "command": command})
        watcher = threading.Thread(target=watch)
        watcher.start()
        how = {"stdout": subprocess.PIPE, "stderr": subprocess.STDOUT, "stdin": subprocess.DEVNULL, "text": True}
        with subprocess.Popen(command, cwd=TOP, errors="replace", **how) as ran:
            for line in ran.stdout or ():
                print(line, end="", flush=True)
                note({"line": line.rstrip("\n")})
        ended.set()
        watcher.join()
    return ran.returncode


class Run:
    """What a log says of a run."""

    def __init__(self, log):
        self.entries = [json.loads(line) for line in open(log, encoding="utf-8")]
        self.cores = self.entries[0]["cores"]
        self.lines = [(it["at"], it["line"]) for it in self.entries if "line" in it]
        last = {(it["pid"], it["began"]): it for it in self.entries if "pid" in it}
        self.used = [*last.values()]
        self.minutes = collections.defaultdict(float)
        for it in self.used:
            is_edit = not re.search(r"/crates/\w+$", it["folder"])
            self.minutes[it["crate"], is_edit] += it["cpu"] / 60

    def memory(self, crate):
        """The most that one process took for a crate, in GB."""
        return max((it["peak"] for it in self.used if it["crate"] == crate), default=0) / 1e6

    def proved_at(self, crate):
        """The minute in which the run reported that the crate is proved, None if it took it from an earlier run."""
        found = [at for at, line in self.lines if line.startswith(f"rt: {crate} proved")]
        return int(found[0] // 60) if found else None

    def functions(self, crate):
        """How many functions of the crate the prover checked, None if it was taken from an earlier run."""
        inside = None
        for _, line in self.lines:
            inside = line[3:] if line.startswith("== ") else inside
            found = re.match(r"logic=proved functions=(\d+)", line)
            if found and inside == crate:
                return int(found[1])
        return None

    def closing(self):
        """A sentence on the whole run."""
        edits = sum(used for (_, is_edit), used in self.minutes.items() if is_edit)
        proofs = sum(self.minutes.values()) - edits
        return textwrap.fill(
            f"The run took {self.entries[-1]['at'] / 60:.0f} minutes on {self.cores} cores. The prover used "
            f"{proofs:.0f} processor minutes for proofs and programs, and {edits:.0f} for must-fail edits. "
            f"The last line was `{self.lines[-1][1]}`.",
            width=120,
        )


def crates_in_order():
    """The crates of crates.txt, lowest first."""
    for line in (TOP / "crates.txt").read_text().splitlines():
        if line and not line.startswith("#"):
            yield line.split(":")[0].split()[0]


def cell(value):
    return "" if value is None else str(value)


def table_of(run):
    """The table of a run, with a row for each crate, lowest first."""
    rows = [HEAD, RULE]
    for crate in crates_in_order():
        edits = len([*(TOP / "crates" / crate / "must-fail").glob("*.edit")])
        proof, tried = run.minutes[crate, False], run.minutes[crate, True]
        rows.append(
            f"| {crate} | {cell(run.functions(crate))} | {proof:.1f} | {cell(run.proved_at(crate))} | {edits or ''} "
            f"| {f'{tried:.1f}' if edits else ''} | {run.memory(crate):.1f} |\n"
        )
    return "".join(rows)


def write(run):
    """Puts a run's table, and the sentence after it, in place of those in the page."""
    text = PAGE.read_text(encoding="utf-8")
    start = text.index(HEAD)
    behind = re.compile(r"\n\n(?:The run took (?:[^\n]+\n)*)?").search(text, start)
    PAGE.write_text(text[:start] + table_of(run) + "\n" + run.closing() + "\n" + text[behind.end() :], encoding="utf-8")


def main():
    match sys.argv[1:]:
        case ["record", log, *command]:
            sys.exit(record(log, command or [".ci/run"]))
        case ["table", log]:
            print(table_of(Run(log)), Run(log).closing(), sep="\n")
        case ["write", log]:
            write(Run(log))
        case _:
            sys.exit(__doc__)


main()
