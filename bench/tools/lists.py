#!/usr/bin/env python3
"""Times office-sync and office-plan over the lists of an archive, next to a replay of the archive's mail.

usage: lists.py OFFICE [SHAPE:SOURCES]

The mail is that of ../replay/bag.py, `both:34000` if nothing is stated. The lists are those of testing as its replay
prints it. By turns OFFICE replays the mail, office-sync compares a list with itself and with one on which 300 sources
are newer, and office-plan plans that day: they have to print a line for each source and each package that is newer,
and for each one that leaves. The environment's OFFICE_PLAN and OFFICE_SYNC name the two programs, if they aren't in
crates/office_plan/out and crates/office_sync/out, and ROUNDS is how often: 5 without it.
"""
import os
import statistics
import subprocess
import sys
import tempfile

TOP = os.path.dirname(os.path.dirname(os.path.dirname(os.path.realpath(__file__))))
BAG = os.path.join(TOP, "bench/replay/bag.py")
PLAN = os.environ.get("OFFICE_PLAN", os.path.join(TOP, "crates/office_plan/out/office_plan"))
SYNC = os.environ.get("OFFICE_SYNC", os.path.join(TOP, "crates/office_sync/out/office_sync"))
NEWER = 300


def ran(words, standard_input=os.devnull):
    """What a command prints, its seconds of processor, and its megabytes."""
    with open(standard_input, "rb") as given, tempfile.TemporaryFile() as said:
        process = subprocess.Popen(words, stdin=given, stdout=said)
        _, ended, usage = os.wait4(process.pid, 0)
        if ended:
            sys.exit(f"{' '.join(words)}: status {os.waitstatus_to_exitcode(ended)}")
        said.seek(0)
        return said.read().decode(), usage.ru_utime + usage.ru_stime, usage.ru_maxrss // 1024


def list_of(testing, newer):
    """The lines of a list, from those of testing, with a newer version for some sources and what they build."""
    lines = []
    for kind, *words in (line.split(" ") for line in testing):
        name, version, architecture, source = (*words, "source", words[0]) if kind == "source" else \
            (words[1], words[2], words[0], words[3])
        lines.append(f"{name} {version}{'+new' if source in newer else ''} {architecture}\n")
    return lines


def written(folder, name, lines):
    """The path of a list that is written."""
    path = os.path.join(folder, name)
    with open(path, "w", encoding="utf-8") as file:
        file.writelines(lines)
    return path


def commands_over(testing, folder):
    """The commands over lists of testing, each with the number of lines that it has to print."""
    names = [line.split(" ")[1] for line in testing if line.startswith("source ")]
    newer = set(names[::max(1, len(names) // NEWER)][:NEWER])
    lists = list_of(testing, ()), list_of(testing, newer)
    changed = sum(one != other for one, other in zip(*lists))
    old, new = (written(folder, name, lines) for name, lines in zip(("old", "new"), lists))
    nothing = written(folder, "nothing", [])
    return {"office-sync, nothing new": ([SYNC, old, old, nothing], 0),
            f"office-sync, {len(newer)} sources new": ([SYNC, old, new, nothing], changed),
            f"office-plan, {len(newer)} sources new": ([PLAN, new, old, new], 2 * changed)}


def report(name, runs, replays):
    """Prints what a command took, in all and of the replay by turns."""
    ratios = [seconds / other for (seconds, _), (other, _) in zip(runs, replays)]
    print(f"{name}: {statistics.median(seconds for seconds, _ in runs):.2f} s, {max(memory for _, memory in runs)} MB; "
          f"of the replay's time {statistics.median(ratios):.2f} ({min(ratios):.2f} to {max(ratios):.2f})")


def main(office, shape="both:34000"):
    form, sources = shape.split(":")
    with tempfile.TemporaryDirectory() as folder:
        setup, bag = os.path.join(folder, "setup.conf"), os.path.join(folder, "bag")
        for path, words in ((setup, [form, "conf"]), (bag, [form, sources])):
            with open(path, "wb") as file:
                subprocess.run([sys.executable, BAG, *words], stdout=file, check=True)
        replay = [office, "replay", "--conf", setup]
        printed = ran(replay, bag)[0].splitlines()
        testing = printed[max(place for place, line in enumerate(printed) if line.startswith("testing ")) + 1:]
        commands = commands_over(testing, folder)
        took = {name: [] for name in ["replay", *commands]}
        for _ in range(int(os.environ.get("ROUNDS", "5"))):
            took["replay"].append(ran(replay, bag)[1:])
            for name, (words, due) in commands.items():
                told, *used = ran(words)
                if len(told.splitlines()) != due:
                    sys.exit(f"{name}: {len(told.splitlines())} lines, and not {due}")
                took[name].append(used)
    print(f"{shape}: lists of {len(testing)} lines")
    for name, runs in took.items():
        report(name, runs, took["replay"])


if __name__ == "__main__":
    if not 2 <= len(sys.argv) <= 3:
        sys.exit(__doc__)
    main(*sys.argv[1:])
