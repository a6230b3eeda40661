"""Which waiting sources some groups would free, by model.py, and what is wrong with a text that says that none does.

Each run does its removals and groups in force first, then single moves. Proposals are made for the state in between.
`Behind` is it, of the next run of an office. All sequences of groups from there on are tried, so this is for few
sources alone.
"""
import itertools
import re
from asked import CLOCK, NEED, RELEASE, clause_text, groundless_fault, meets, next_run, on, state, told_numbers
from asked import unbroken
from model import ARCHS, Refused, SENDERS, vcmp, works

STUCK = re.compile(r"stuck (\S+) (\S+) uninstallable (\S+) (\S+)")


class Behind:
    """The next run of an office after its removals and groups in force: the terms of a trial say what it covers."""

    def __init__(self, office, day=None, of_all=False):
        covers, last = office.covers(office.finished) if office.finished else ([0] * len(SENDERS), None)
        self.date = max(filter(None, [last, day]))
        self.covers = [
            unbroken(office.kept, s) if s != CLOCK and (of_all or s == RELEASE) else n for s, n in enumerate(covers)
        ]
        self.office, self.first = office, self.covers[RELEASE] + 1
        self.run = office.finished + 1
        self.late = next_run(office, self.covers, self.date, [])
        self.rows, self.sources, self.left, self.excuse = self.late.behind_groups

    def reasons(self):
        """The reasons of each excuse of the run."""
        reasons = {}
        for line in self.late.reports[self.run][0].splitlines()[1:]:
            if not line.startswith(" "):
                why = reasons.setdefault(line.split(" ")[0], [])
            elif not re.fullmatch(r" age .*|( not a)? candidate", line):
                why.append(line[1:])
        return reasons

    def line(self, name):
        """The line on a source that isn't a candidate of the run; none for a candidate."""
        upload, excuses = self.late.known.sources.get(name), self.reasons()
        if upload is None:
            return "unknown " + name
        if name not in excuses and name in self.sources:
            return "in testing %s %s" % (name, self.sources[name])
        why = excuses.get(name, ["removal asked"])
        return "source %s %s isn't a candidate: %s" % (name, upload[1], ", ".join(why)) if why else None

    def with_hints(self, hints):
        """The office after its next run with these hints, too."""
        return next_run(self.office, self.covers, self.date, hints)

    def change(self, rows, group):
        """The rows once a group has moved, or None where it isn't allowed."""
        self.late.rows = rows
        new, coming = self.late.known.moved(group)
        return None if self.late.known.offender(new, coming) else new

    def can_move(self):
        """The sources that some sequence of groups moves."""
        states, seen, moved = [(self.rows, frozenset())], set(), set()
        while states:
            rows, done = states.pop()
            rest = sorted(set(self.left) - done)
            for size in range(1, len(rest) + 1):
                for group in itertools.combinations(rest, size):
                    new = self.change(rows, group)
                    if new is None:
                        continue
                    after = done | set(group)
                    moved |= after
                    # Where a way leads depends on what is in: two ways to the same rows and sources are one.
                    mark = after, frozenset((key, row["version"], row["source"]) for key, row in new.items())
                    if mark not in seen:
                        seen.add(mark)
                        states.append((new, after))
        return moved

    # What shows that no group frees a source: blocks, each resting on the sources of those after it.

    def living(self, dead):
        return [name for name in self.left if name not in dead]

    def coming(self, names):
        """The current rows of these sources."""
        known = self.late.known
        return [
            row
            for row in known.rows.values()
            if row["source"] in names
            and row["source"] in known.sources
            and vcmp(row["source_version"], known.sources[row["source"]][1]) == 0
        ]

    def may_stand(self, name, dead):
        """The rows that may be in testing once a source has moved and none of the dead has."""
        taken = {(row["arch"], row["package"]) for row in self.coming([name])}
        left = [row for row in self.rows.values() if row["source"] != name and (row["arch"], row["package"]) not in taken]
        return left + self.coming(self.living(dead))

    def is_due(self, row, name, dead, arch):
        """Whether a row comes with the source, or is one of testing's that worked and stays whatever moves."""
        if row in self.coming([name]):
            return True
        living = self.living(dead)
        key = row["arch"], row["package"]
        worked = (ARCHS.index(arch), row["package"], row["arch"]) in works(self.rows)[1]
        return (
            row in self.rows.values()
            and worked
            and row["source"] not in living
            and not any((r["arch"], r["package"]) == key for r in self.coming(living))
        )

    def behind_nothing(self, name, arch, clause, dead):
        """The lines after one whose clause nothing meets that may be in testing."""
        lines = ["leaves %s %s" % (r["package"], r["version"]) for r in on(arch, self.rows) if meets(r, clause)]
        offers = [r for r in on(arch, self.late.known.rows) if meets(r, clause)]
        for row in offers:
            told = state(self.late.known, Refused(0, (), [name], {}, {}, self.excuse), row)
            told = "is stuck" if row["source"] in dead and told != "isn't current" else told
            lines.append("unstable %s %s of %s %s" % (row["package"], row["version"], row["source"], told))
        return lines if offers else lines + ["unstable nothing"]

    def block_fault(self, block, dead):
        """What is wrong with a block, which rests on the dead; None if nothing is."""
        head = STUCK.fullmatch(block[0])
        name, version, arch, package = head.groups()
        if name not in self.living(dead) or vcmp(version, self.left[name]) != 0:
            return "no candidate: " + block[0]
        rows = [r for r in self.may_stand(name, dead) if r["arch"] in (arch, "all")]
        needs, rest = [], block[1:]
        while rest:
            found = self.need_of(rest[0], rows, name, dead, len(needs) + 1)
            if found is None:
                return "no line of a block: %r" % rest[0]
            needs.append(found)
            due = self.behind_nothing(name, arch, found[1], dead) if not found[2] else []
            if rest[1 : 1 + len(due)] != due:
                return "behind %r: due %r, got %r" % (rest[0], due, rest[1 : 1 + len(due)])
            rest = rest[1 + len(due) :]
        if not needs or needs[0][0]["package"] != package:
            return "another package than %s comes first" % package
        row = needs[0][0]
        if not (row["arch"] == arch or arch == ARCHS[0]) or not self.is_due(row, name, dead, arch):
            return "%s isn't watched, or may leave" % package
        return groundless_fault(needs, rows)

    def need_of(self, line, rows, name, dead, number):
        """The row and the clause that a line names, and which lines meet it; None for another line."""
        found = NEED.fullmatch(line)
        if found is None or int(found.group(1)) != number:
            return None
        _, package, version, of, place, text, numbers, more = found.groups()
        coming = self.coming(self.living(dead))
        for row in rows:
            for clause in row["clauses"]:
                if (row["package"], row["version"], row["source"], clause_text(clause)) == (
                    package,
                    version,
                    of,
                    text,
                ) and (place == "comes in") == any(row is r for r in coming):
                    return row, clause, *told_numbers(numbers, more)
        return None

    def stuck_fault(self, lines):
        """What is wrong with the blocks of a text, each resting on those after it; None if nothing is."""
        blocks = []
        for line in lines:
            if STUCK.fullmatch(line):
                blocks.append([])
            if not blocks:
                return "a line of no block: %r" % line
            blocks[-1].append(line)
        names = [STUCK.fullmatch(block[0])[1] for block in blocks]
        faults = [self.block_fault(block, names[place + 1 :]) for place, block in enumerate(blocks)]
        return next((fault for fault in faults if fault), None)
