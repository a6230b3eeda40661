#!/usr/bin/env python3
"""Compares the processor time of `office-pages` with that of another checkout, by turns over one service.

usage: turns.py OFFICE BEFORE [SOURCES [TURNS]]

OFFICE is the built program, BEFORE another checkout of this repository. The mail is that of mail.py (34,000 sources).
In each of TURNS turns (3) both checkouts make the pages from nothing after the first run, and after the third run from
those that they made of the second one. Then each is called once more until it has nothing to ask or to read, and at
last with nothing new. A call has WHY seconds (3) for questions. For each kind of call it prints the seconds of
processor of both, with the ratio of the medians.
"""
import os
import shutil
import statistics
import subprocess
import sys
import tempfile

sys.dont_write_bytecode = True
import run  # noqa: E402

WHY = os.environ.get("WHY", "3")
KINDS = ("from nothing", "after a run with newer uploads of a hundredth of the sources", "with nothing new")


def seconds(tree, folder, why=WHY):
    """The seconds of processor of one call."""
    pages = os.path.join(tree, "tools", "bin", "office-pages")
    process = subprocess.Popen(["/usr/bin/python3", pages, "--url", f"http://127.0.0.1:{run.PORT}", "--why-seconds",
                                why, folder])
    _, ended, usage = os.wait4(process.pid, 0)
    if ended:
        sys.exit(f"office-pages ended with status {os.waitstatus_to_exitcode(ended)}")
    return usage.ru_utime + usage.ru_stime


def copied(folder, other):
    """Another folder with the same pages. They are the same files: a call replaces pages and never changes them."""
    shutil.rmtree(other, ignore_errors=True)
    subprocess.run(["cp", "-al", folder, other], check=True)
    shutil.rmtree(os.path.join(other, ".state"))
    subprocess.run(["cp", "-a", os.path.join(folder, ".state"), os.path.join(other, ".state")], check=True)
    return other


class Turns:
    """What both checkouts took, by the kind of the call."""

    def __init__(self, office, trees, work):
        self.office, self.trees, self.work = office, trees, work
        self.store = os.path.join(work, "store.db")
        self.took = {kind: {tree: [] for tree in trees} for kind in KINDS}

    def folder(self, tree, name):
        return os.path.join(self.work, f"{self.trees.index(tree)}-{name}")

    def served(self, number):
        """The service after another run."""
        print(f"run {number}: {run.replay(self.office, self.store, os.path.join(self.work, f'bag{number}'))}",
              flush=True)
        return run.served(self.office, self.store)

    def time(self, kind, tree, folder):
        self.took[kind][tree].append(seconds(tree, folder))

    def all(self, turns):
        """All turns."""
        with self.served(1):
            for _ in range(turns):
                for tree in self.trees:
                    shutil.rmtree(self.folder(tree, "pages"), ignore_errors=True)
                    os.mkdir(self.folder(tree, "pages"))
                    self.time(KINDS[0], tree, self.folder(tree, "pages"))
        with self.served(2):
            for tree in self.trees:
                seconds(tree, self.folder(tree, "pages"), "30")
        with self.served(3):
            for _ in range(turns):
                for tree in self.trees:
                    self.time(KINDS[1], tree, copied(self.folder(tree, "pages"), self.folder(tree, "newer")))
            for tree in self.trees:
                seconds(tree, self.folder(tree, "newer"), "3600")
            for _ in range(turns):
                for tree in self.trees:
                    self.time(KINDS[2], tree, self.folder(tree, "newer"))

    def print(self):
        """Prints what was found."""
        for kind, by_tree in self.took.items():
            before, now = (statistics.median(by_tree[tree]) for tree in self.trees)
            told = "; ".join(", ".join(f"{one:.2f}" for one in by_tree[tree]) for tree in self.trees)
            print(f"{kind}: {told}: ratio {now / before:.2f}")


def main(office, before, sources, turns):
    here = os.path.realpath(os.path.join(run.HERE, "..", ".."))
    with tempfile.TemporaryDirectory() as work:
        subprocess.run([sys.executable, os.path.join(run.HERE, "mail.py"), sources, work], check=True)
        both = Turns(office, (os.path.realpath(before), here), work)
        both.all(turns)
        both.print()


if __name__ == "__main__":
    if not 3 <= len(sys.argv) <= 5:
        sys.exit(__doc__)
    main(os.path.realpath(sys.argv[1]), sys.argv[2], *(sys.argv[3:4] or ["34000"]), int((sys.argv[4:] or ["3"])[0]))
