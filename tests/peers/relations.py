#!/usr/bin/python3
"""Reads the relations of a real archive twice, and compares.

Every Depends, Pre-Depends and Provides of the Packages files that apt has on this machine is read by
deb_control, through the program in printer/, and by python3-debian. Both are printed in one form. The
first fields that differ or are refused are printed, and then the counts. The exit status is 1 if there is
such a field, or no field at all.

It needs Debian with apt's lists (`apt-get update`), the package python3-debian (run it by
/usr/bin/python3), and the kit's command rt, which builds the printer; or give the path of a printer
that is built, as its one argument.
"""

import collections
import glob
import logging
import pathlib
import subprocess
import sys
import tempfile

from debian.deb822 import PkgRelation

FIELDS = ("Depends", "Pre-Depends", "Provides")
FAULTS = ("BadName", "BadVersion", "BadRelation", "NoMemory", "no field")
# Debian Policy 7.1: the two old signs mean `<=` and `>=`.
SIGNS = {"<": "<=", ">": ">="}
SHOWN = 20


def packages_files():
    """The texts of the Packages files that apt keeps, which may be compressed."""
    for path in sorted(glob.glob("/var/lib/apt/lists/*_Packages*")):
        read = subprocess.run(
            ["/usr/lib/apt/apt-helper", "cat-file", path],
            check=True,
            capture_output=True,
        )
        yield path, read.stdout.decode("utf-8")


def fields_of(text):
    """The fields of relations in a Packages file, each of one line."""
    lines = text.split("\n")
    for line, after in zip(lines, lines[1:] + [""]):
        name = line.partition(":")[0]
        if name in FIELDS:
            if after.startswith((" ", "\t")):
                raise SystemExit(f"a field of several lines, which the printer can't take: {line}")
            yield line


def alternative_text(alternative):
    """An alternative as Debian's tool reads it. A qualifier of the name is left out, as deb_control does."""
    text = alternative["name"]
    if alternative["version"] is not None:
        sign, version = alternative["version"]
        text += f" ({SIGNS.get(sign, sign)} {version})"
    if alternative["arch"] is not None:
        text += " [..]"
    if alternative["restrictions"] is not None:
        text += " <..>"
    return text


def debian_text(line):
    """A field as python3-debian reads it, in the printer's form."""
    value = line.partition(":")[2].strip()
    clauses = PkgRelation.parse_relations(value)
    return ", ".join(" | ".join(map(alternative_text, clause)) for clause in clauses)


def printed(printer, lines):
    """The printer's line for each of these."""
    answer = subprocess.run(
        [printer], input="\n".join(lines) + "\n", check=True, capture_output=True, text=True
    )
    return answer.stdout.split("\n")[:-1]


def built_printer(folder):
    """The path of a printer that is built in this folder."""
    script = pathlib.Path(__file__).parent / "printer" / "build.sh"
    return subprocess.run(
        [script, folder], check=True, stdout=subprocess.PIPE, text=True
    ).stdout.strip()


def compare(printer):
    """Compares all fields, prints what differs and the counts, and answers whether all are equal."""
    counts = collections.Counter()
    for path, text in packages_files():
        lines = list(fields_of(text))
        answers = printed(printer, lines)
        if len(answers) != len(lines):
            raise SystemExit(f"{len(lines)} fields, and {len(answers)} answers")
        for line, ours in zip(lines, answers):
            if ours in FAULTS:
                outcome = ours
            else:
                outcome = "equal" if ours == debian_text(line) else "different"
            counts[line.partition(":")[0], outcome] += 1
            if outcome != "equal" and counts[line.partition(":")[0], outcome] <= SHOWN:
                print(f"{outcome}: {line}\n  deb_control: {ours}\n  Debian: {debian_text(line)}")
        print(f"{path}: {len(lines)} fields")
    for (field, outcome), count in sorted(counts.items()):
        print(f"{field}: {count} {outcome}")
    return bool(counts) and all(outcome == "equal" for _, outcome in counts)


def main():
    logging.disable(logging.WARNING)
    if len(sys.argv) > 1:
        same = compare(sys.argv[1])
    else:
        with tempfile.TemporaryDirectory() as folder:
            same = compare(built_printer(folder))
    sys.exit(0 if same else 1)


if __name__ == "__main__":
    main()
