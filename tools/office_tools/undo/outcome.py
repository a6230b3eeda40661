"""What an office makes of its mail, and how two such offices differ."""
import re
from collections import Counter
from dataclasses import dataclass, field
from typing import Iterator, Mapping, Sequence

from office_tools import program
from office_tools.bags import bag_of
from office_tools.faults import Exit, Fault


@dataclass
class Run:
    """A finished run: its date, the lines of its excuses, each source's in one, and those of its update."""

    date: str
    excuses: list[str] = field(default_factory=list)
    update: list[str] = field(default_factory=list)


@dataclass
class Outcome:
    """The replies that are refusals, the runs by their numbers, and the lines of testing."""

    refused: list[str]
    runs: dict[int, Run] = field(default_factory=dict)
    testing: list[str] = field(default_factory=list)


def replayed(words: Sequence[str], texts: Sequence[bytes]) -> Outcome:
    """What the program makes of these messages; `words` name the setup and maybe a store."""
    told = program.output(["replay", *words], bag_of(texts)).decode(errors="backslashreplace")
    lines = told.split("\n")
    outcome = Outcome([line for line in lines[:len(texts)] if not line.startswith("held ")])
    take(outcome, lines[len(texts) + 1:])
    return outcome


def take(outcome: Outcome, lines: Sequence[str]) -> None:
    """Takes the reports of all runs and testing, one after the other."""
    part: list[str] = []
    for place, line in enumerate(lines):
        is_excuse = place + 1 < len(lines) and lines[place + 1].startswith(" age ")
        head = None if is_excuse else re.fullmatch(r"(excuses|update|testing) ([0-9]{1,9})(?: (\S+))?", line)
        if head is None:
            if line.startswith(" ") and part:
                part[-1] += line if part[-1].endswith(":") else f",{line}"
            elif line:
                part.append(f"{line}:" if is_excuse else line)
        elif head[1] == "excuses":
            part = outcome.runs.setdefault(int(head[2]), Run(head[3] or "")).excuses
        elif head[1] == "update":
            part = outcome.runs.setdefault(int(head[2]), Run(head[3] or "")).update
        else:
            part = outcome.testing


def differences(before: Outcome, after: Outcome) -> Iterator[str]:
    """The lines of every finished run and of testing that are in one alone."""
    for number in sorted({*before.runs, *after.runs}):
        old, new = before.runs.get(number, Run("")), after.runs.get(number, Run(""))
        lines = [*differing("excuse", old.excuses, new.excuses), *differing("update", old.update, new.update)]
        if lines:
            yield f"run {number} {new.date or old.date}"
            yield from lines
    lines = list(differing("testing", before.testing, after.testing))
    if lines:
        yield "testing"
        yield from lines


def differing(name: str, old: Sequence[str], new: Sequence[str]) -> Iterator[str]:
    """The lines that are in one alone."""
    both = Counter(old) & Counter(new)
    for sign, lines in (("-", old), ("+", new)):
        left = Counter(both)
        for line in lines:
            if left[line]:
                left[line] -= 1
            else:
                yield f"{sign}{name} {line}"


def summary(before: Outcome, after: Outcome) -> str:
    """How many runs differ, and how much comes to testing and goes."""
    runs = [number for number in before.runs if after.runs.get(number) != before.runs[number]]
    counts: Mapping[str, int] = Counter(line[0] for line in differing("", before.testing, after.testing))
    return (f"runs {len(after.runs)}, of which {len(runs)} differ; testing: {counts.get('+', 0)} lines come, "
            f"{counts.get('-', 0)} go")


def check(before: Outcome, after: Outcome) -> None:
    """Refuses an office that refuses mail or doesn't finish a run which the old one has finished."""
    if len(after.refused) > len(before.refused):
        raise Fault(f"the new office would refuse mail: {after.refused[-1]}", Exit.REFUSED)
    lacking = sorted(set(before.runs) - set(after.runs))
    if lacking:
        raise Fault(f"the new office wouldn't finish run {lacking[0]}", Exit.REFUSED)
