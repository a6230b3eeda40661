#!/usr/bin/env python3
"""Times `office-pages` over a service with the reports of an archive: from nothing, after a run, and with nothing new.

usage: run.py OFFICE [SOURCES]

OFFICE is the built program. The mail is that of mail.py, of 34,000 sources without another count: three runs. The pages
are made after the first run from nothing, and after each other one, and then once more. For each call it prints its
seconds by the clock and of processor, the peak of memory, and how many files it wrote. It also prints how large the
first page and the largest one are. KEEP names a folder where the pages stay. WHY is how long the last call asks about
sources at most, 3,600 seconds without it.
"""
import os
import re
import signal
import subprocess
import sys
import tempfile
import time

HERE = os.path.dirname(os.path.realpath(__file__))
SETUP = os.path.join(HERE, "..", "replay", "both.conf")
PAGES = os.path.join(HERE, "..", "..", "tools", "bin", "office-pages")


sys.path.insert(0, os.path.join(HERE, "..", "..", "tests"))
import serving  # noqa: E402

PORT = serving.free_port()


def stamps_of(folder):
    """When each file of the pages was written, and its size."""
    found = {}
    for place, folders, names in os.walk(folder):
        folders[:] = [name for name in folders if name != ".state"]
        for name in names:
            stat = os.stat(os.path.join(place, name))
            found[os.path.join(place, name)] = (stat.st_mtime_ns, stat.st_size)
    return found


def call(folder, words):
    """Calls the command, and prints what it took."""
    before = stamps_of(folder)
    began = time.monotonic()
    process = subprocess.Popen([PAGES, "--url", f"http://127.0.0.1:{PORT}", *words, folder])
    _, ended, usage = os.wait4(process.pid, 0)
    took = time.monotonic() - began
    if ended:
        sys.exit(f"office-pages ended with status {os.waitstatus_to_exitcode(ended)}")
    after = stamps_of(folder)
    written = sum(after[name] != before.get(name) for name in after)
    html = {name: size for name, (_, size) in after.items() if name.endswith(".html")}
    return (f"{took:.1f} s, {usage.ru_utime + usage.ru_stime:.1f} s of processor, {usage.ru_maxrss / 1000:.0f} MB, "
            f"{written} of {len(after)} files written, first page {html[os.path.join(folder, 'index.html')]} bytes, "
            f"largest {max(html.values())}")


def served(office, store):
    """The program over a store, for a `with`."""
    return serving.Service(office, "--db", store, conf=SETUP, port=PORT, ends_by=signal.SIGTERM)


def replay(office, store, bag):
    """Delivers a bag, and gives the lines of its run's excuses and update."""
    with open(bag, "rb") as file:
        told = subprocess.run([office, "replay", "--conf", SETUP, "--db", store], stdin=file, capture_output=True,
                              check=True).stdout.decode()
    if re.search("^refused", told, re.M):
        sys.exit(f"{bag}: a message was refused")
    counts = {word: len(re.findall(f"^{word} ", told, re.M)) for word in ("accept", "wait")}
    return f"{len(re.findall('^ age ', told, re.M))} excuses, {counts['accept']} moved, {counts['wait']} wait"


def main(office, sources):
    with tempfile.TemporaryDirectory() as work:
        folder = os.environ.get("KEEP") or os.path.join(work, "pages")
        os.makedirs(folder, exist_ok=True)
        subprocess.run([sys.executable, os.path.join(HERE, "mail.py"), sources, work], check=True)
        store = os.path.join(work, "store.db")
        for run in (1, 2, 3):
            print(f"run {run}: {replay(office, store, os.path.join(work, f'bag{run}'))}", flush=True)
            with served(office, store):
                print("  from nothing:" if run == 1 else "  behind it:", call(folder, []), flush=True)
                print("  once more:", call(folder, []), flush=True)
        with served(office, store):
            print("  with all answers:", call(folder, ["--why-seconds", os.environ.get("WHY", "3600")]), flush=True)
            print("  once more:", call(folder, []), flush=True)


if __name__ == "__main__":
    if len(sys.argv) not in (2, 3):
        sys.exit(__doc__)
    main(os.path.realpath(sys.argv[1]), sys.argv[2] if len(sys.argv) == 3 else "34000")
