#!/usr/bin/env python3
"""Reports which functions of a crate are dear to prove.

  dear.py CRATE [COUNT]

CRATE is a crate's folder, after a whole `rt check --jobs 1` of it. For each of the COUNT dearest functions, 30 if it
isn't said, a line has its seconds, the megabytes of the borrow checker's part, and the parts that took the seconds. The
seconds are those between the times of the files that the check kept. So they hold only after a check from nothing by
one job, and a busy machine makes them longer. The megabytes hold on any machine: each takes some two seconds.
"""
import collections
import os
import re
import sys

# The first word of a file's name after the function that it is of.
PARTS = re.compile(
    r"(Code|Mir|Proof|Statement|Met|Goals?|Answers\w*|Lts|Reads|Invariants\w*|TheLinks?|Key|Layout|Named|Tie|Symbol"
    r"|Given|Kinds)\b"
)
BORROWS = "Lts"


def kept_files(folder):
    """The files of checked modules below a folder, oldest first: time in nanoseconds, module, bytes."""
    found = []
    for at, folders, files in os.walk(folder):
        if "records" in folders:
            folders.remove("records")
        for name in files:
            if name.endswith(".oantt"):
                stat = os.stat(os.path.join(at, name))
                found.append((stat.st_mtime_ns, name[: -len(".oantt")], stat.st_size))
    return sorted(found)


def function_and_part(module):
    """The function that a module is of, and which part of its proof it is."""
    library, _, path = module.partition(".")
    words = path.split(".")
    place = next((place for place, word in enumerate(words) if PARTS.match(word)), len(words) - 1)
    part = words[place].split("-")[0]
    return ".".join(words[:place]) or path or library, part


def main():
    if len(sys.argv) not in (2, 3):
        sys.exit(__doc__)
    count = int(sys.argv[2]) if len(sys.argv) == 3 else 30
    seconds, sizes = collections.defaultdict(collections.Counter), collections.Counter()
    before = None
    for time, module, size in kept_files(os.path.join(sys.argv[1], "out", "incremental")):
        function, part = function_and_part(module)
        seconds[function][part] += (time - before) / 1e9 if before else 0
        sizes[function] += size / 1e6 if part == BORROWS else 0
        before = time
    totals = {function: sum(parts.values()) for function, parts in seconds.items()}
    print("%.0f s, %.1f MB of the borrow checker's part" % (sum(totals.values()), sum(sizes.values())))
    for function in sorted(totals, key=totals.get, reverse=True)[:count]:
        parts = ", ".join("%s %.1f" % part for part in seconds[function].most_common(4))
        print("%7.1f s %6.2f MB  %s: %s" % (totals[function], sizes[function], function, parts))


main()
