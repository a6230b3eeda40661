#!/usr/bin/env python3
"""Times the next day of office-from-packages, which reads all mail that was sent before, and the first day.

usage: from_packages.py [SOURCES | PACKAGES..]

The archive is drawn: 34,000 sources without another count, with nearly twice as many packages, some needing each other.
Or it is that of files Packages, the last one having what the next day has more. By turns the tool makes the bag of the
first day and, over this bag, that of the next day, on which each 70th source of a drawn archive has a newer version.
ROUNDS in the environment is how often: 5 without it.
"""
import os
import random
import statistics
import subprocess
import sys
import tempfile

TOP = os.path.join(os.path.dirname(os.path.abspath(__file__)), "..", "..")
TOOL = os.path.join(TOP, "tools", "bin", "office-from-packages")
os.environ.setdefault("OFFICE_SYNC", os.path.join(TOP, "crates/office_sync/out/office_sync"))


def archive(sources, newer):
    """A file Packages of that many sources, with a newer version for a number of them."""
    drawn = random.Random(1)
    names = [f"source{number:05}" for number in range(sources)]
    changed = set(random.Random(2).sample(names, newer))
    parts = []
    for place, name in enumerate(names):
        version = "2.0-1" if name in changed else "1.0-1"
        needed = [drawn.choice(names[:place + 1]) for _ in range(drawn.randint(0, 8))]
        if place % 100 == 0 and place + 1 < sources:
            needed.append(names[place + 1])
        if place % 100 == 1:
            needed.append(names[place - 1])
        depends = ", ".join(f"{other} (>= 1.0)" for other in sorted(set(needed) - {name}))
        binaries = [name] + [f"{name}-part{number}" for number in range(drawn.choice([0, 0, 1, 2]))]
        for binary in binaries:
            fields = [("Package", binary), ("Source", name), ("Version", version), ("Architecture", "amd64"),
                      ("Maintainer", f"Somebody of {name} <{name}@example.org>"), ("Depends", depends),
                      ("Description", "a package that was drawn"), ("SHA256", "0" * 64)]
            parts.append("".join(f"{field}: {value}\n" for field, value in fields if value))
    return "\n".join(parts)


def seconds(*words):
    """The seconds of processor and the megabytes that the tool takes, and what it prints."""
    process = subprocess.Popen([TOOL, "--uploaded", "2025-03-01", "--run", "2025-03-06", "--no-hints", *words],
                               stdout=subprocess.PIPE, stderr=subprocess.DEVNULL, text=True)
    printed = process.stdout.read().strip()
    process.stdout.close()
    _, ended, usage = os.wait4(process.pid, 0)
    if ended:
        sys.exit(f"office-from-packages ended with status {os.waitstatus_to_exitcode(ended)}")
    return usage.ru_utime + usage.ru_stime, usage.ru_maxrss // 1024, printed


def main(words):
    rounds = int(os.environ.get("ROUNDS", "5"))
    with tempfile.TemporaryDirectory() as folder:
        first, later = words[:-1], words
        if len(words) <= 1:
            sources = int(words[0]) if words else 34000
            first, later = [os.path.join(folder, "first")], [os.path.join(folder, "later")]
            for path, newer in ((first[0], 0), (later[0], sources // 70)):
                with open(path, "w", encoding="utf-8") as file:
                    file.write(archive(sources, newer))
        took, told = {"first day": [], "next day": []}, {}
        for _ in range(rounds):
            for day, given in (("first day", [os.path.join(folder, "one"), *first]),
                               ("next day", ["--after", os.path.join(folder, "one", "bag"),
                                             os.path.join(folder, "two"), *later])):
                spent, memory, printed = seconds(*given)
                took[day].append(spent)
                told[day] = f"{memory} MB: {printed}"
    for day, found in took.items():
        print(f"{day}: {statistics.median(found):.2f} s ({min(found):.2f} to {max(found):.2f}), {told[day]}")
    ratios = [later / first for first, later in zip(took["first day"], took["next day"])]
    print(f"next day, of the first: {statistics.median(ratios):.2f} ({min(ratios):.2f} to {max(ratios):.2f})")


if __name__ == "__main__":
    main(sys.argv[1:])
