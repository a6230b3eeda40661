#!/usr/bin/env python3
"""Times office-look over the next day of an archive, next to the feed that sends that day.

usage: next_day.py OFFICE [PACKAGES NEWER..]

The office adopts the testing that the file PACKAGES has. The next day unstable has the files NEWER, too: office-feed
sends what is new, and office-look tries the run of a day on which all of that is old enough, has its testing judged,
and orders it. Then it looks at a day with nothing new. Without files the archive is drawn as from_packages.py has it.
The environment's OFFICE_SYNC names the built office-sync, if it isn't in crates/office_sync/out.
"""
import os
import subprocess
import sys
import tempfile
import time

HERE = os.path.dirname(os.path.realpath(__file__))
TOP = os.path.dirname(os.path.dirname(HERE))
sys.path[:0] = [HERE, os.path.join(TOP, "tests")]
import from_packages  # noqa: E402
import serving  # noqa: E402

BIN = os.path.join(TOP, "tools", "bin")
ADOPTED, NEXT, OLD_ENOUGH, LATER = "2025-03-01", "2025-03-02", "2025-03-12", "2025-03-13"
SOURCES = 34000


def timed(name, *words, statuses=(0,)):
    """Runs a tool, and prints what it took, and its last lines but for those about single packages."""
    began = time.monotonic()
    with tempfile.TemporaryFile("w+") as said:
        process = subprocess.Popen([os.path.join(BIN, words[0]), *words[1:]], stdout=said, stderr=said, text=True)
        _, ended, usage = os.wait4(process.pid, 0)
        took = time.monotonic() - began
        said.seek(0)
        lines = said.read().splitlines()
    if os.waitstatus_to_exitcode(ended) not in statuses:
        sys.exit("\n".join([f"{' '.join(words)}: status {os.waitstatus_to_exitcode(ended)}", *lines[-20:]]))
    told = [line for line in lines if not line.startswith("office-")]
    print(f"{name}: {took:.1f} s, {usage.ru_utime + usage.ru_stime:.1f} s of processor, {usage.ru_maxrss // 1024} MB: "
          f"{'; '.join(told[-2:])}", flush=True)


def drawn(folder):
    """Two files Packages of a drawn archive, the second with newer versions."""
    paths = [os.path.join(folder, name) for name in ("first", "later")]
    sources = int(os.environ.get("SOURCES", SOURCES))
    for path, newer in zip(paths, (0, sources // 70)):
        with open(path, "w", encoding="utf-8") as file:
            file.write(from_packages.archive(sources, newer))
    return paths


def main(program, *packages):
    os.environ["OFFICE"] = program = os.path.abspath(program)
    os.environ.setdefault("OFFICE_SYNC", os.path.join(TOP, "crates/office_sync/out/office_sync"))
    with tempfile.TemporaryDirectory() as folder:
        first, *more = packages or drawn(folder)
        week, store = os.path.join(folder, "week"), os.path.join(folder, "store.db")
        setup = os.path.join(week, "setup.conf")
        timed("adoption", "office-adopt", "--no-check", "--day", ADOPTED, week, first)
        with open(os.path.join(week, "bag"), "rb") as bag:
            subprocess.run([program, "replay", "--conf", setup, "--db", store], stdin=bag, stdout=subprocess.DEVNULL,
                           check=True)
        with serving.Service(program, "--db", store, conf=setup) as service:
            feed = ["office-feed", "--url", service.url, "--cache", os.path.join(folder, "cache"), "--no-order"]
            look = ["office-look", "--url", service.url, "--cache", os.path.join(folder, "look"), "--conf", setup,
                    "--order"]
            timed("feed of the next day", *feed, "--day", NEXT, first, *more, statuses=(0, 1))
            timed("look, which makes its copy", *look, "--day", OLD_ENOUGH, first, *more, statuses=(0, 1))
            timed("feed with nothing new", *feed, "--day", LATER, first, *more, statuses=(0, 1))
            timed("look at a later day", *look, "--day", LATER, first, *more, statuses=(0, 1))


if __name__ == "__main__":
    if len(sys.argv) == 1 or len(sys.argv) == 3:
        sys.exit(__doc__)
    main(*sys.argv[1:])
