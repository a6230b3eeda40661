"""What the pages of transitions, waits, days, builds, people and changes have to show, by the office's own texts."""
import collections
import datetime
import os
import re

from office_tools import reports
from texts import anything, column, differences, missing, zip_lists


def kept_out(excuses, update):
    """The sources that something but time keeps out, by the reports of a run."""
    waiting = {change.items[0].source for change in update.changes if change.word is reports.Word.WAIT}
    moved = {item.source for change in update.changes if change.outcome is reports.Outcome.ACCEPTED
             for item in change.items}
    return waiting | {excuse.source for excuse in excuses.excuses
                      if {reason.text for reason in excuse.reasons} - {"too young"}} - moved


class MoreKinds:
    """The pages that are opened, with what is compared."""

    def __init__(self, told):
        self.told = told

    def waits(self, seen):
        """The sources that wait are those of the update. Each that is waited for has one that waits for it."""
        yield from differences("waiting", [item.source for item in self.told.waiting], column(seen, "waiting", 1))
        waiting = " ".join(column(seen, "waiting", 3))
        yield from missing("waited for", column(seen, "waited", 1), waiting)

    def transitions(self, seen):
        """The old packages of each source are in testing, and the new ones in unstable alone."""
        unstable = self.told.service.unstable()
        rows = {name: {(row.package, row.source) for row in suite.rows}
                for name, suite in (("testing", self.told.testing), ("unstable", unstable))}
        for source, packages in zip_lists(column(seen, "transitions", 1), column(seen, "transitions", 2)):
            for old, new in re.findall(r"(\S+) → (\S+)", packages):
                yield from missing("testing", [(old, source)], rows["testing"])
                if new != "gone":
                    yield from missing("unstable", [(new, source)], rows["unstable"] - rows["testing"])

    def transition(self, seen):
        """Each source that is left is in testing or in unstable."""
        known = {*self.told.testing.sources, *(excuse.source for excuse in self.told.excuses.excuses)}
        yield from missing("sources", column(seen, "users", 1), known)

    def days(self, seen):
        """Each source that is too young is counted on the day on which it is old enough."""
        due = collections.Counter()
        for excuse in self.told.excuses.excuses:
            if "too young" in {reason.text for reason in excuse.reasons}:
                due[self.told.excuses.date + datetime.timedelta(excuse.needed - excuse.age)] += 1
        shown = [int(may) + int(more) for may, more in zip(column(seen, "days", 3), column(seen, "days", 4))]
        yield from differences("counts", [count for _, count in sorted(due.items())], shown)
        yield from differences("days", [day.isoformat() for day in sorted(due)],
                               [text.split(", ")[1] for text in column(seen, "days", 1)])

    def builds(self, seen):
        """Each missing build of an excuse is shown."""
        due = sorted([excuse.source, reason.architecture or "everywhere"] for excuse in self.told.excuses.excuses
                     for reason in excuse.reasons if reason.text.startswith(("missing on", "no binaries")))
        yield from differences("builds", due, sorted(zip_lists(column(seen, "missing", 1), column(seen, "missing", 2))))

    def changes(self, is_stuck):
        """The sources that are newly stuck, or newly free, by the reports of the last two runs."""
        def compare(seen):
            stuck = [kept_out(self.told.service.excuses(run), self.told.service.update(run))
                     for run in (self.told.newest - 1, self.told.newest)]
            due = stuck[1] - stuck[0] if is_stuck else stuck[0] - stuck[1]
            yield from differences("changes", sorted(due), column(seen, "changed", 1))
        return compare

    def person(self, seen):
        """Each source of a person is one that doesn't move, with its versions."""
        due = [[excuse.source, excuse.testing or "-", excuse.unstable] for excuse in self.told.unmoved]
        shown = zip_lists(*(column(seen, "excuses", place) for place in (1, 2, 3)))
        yield from missing("sources", shown, due)


def kinds_of(told, pages):
    """The pages that are opened, with what is compared. Of transitions and people one each is opened."""
    kinds = MoreKinds(told)
    found = {"waits.html": kinds.waits, "transitions.html": kinds.transitions, "days.html": kinds.days,
             "missing.html": kinds.builds, "changes.html": kinds.changes(True), "people.html": anything,
             "changes-free.html": kinds.changes(False)}
    for folder, compare in ("transition", kinds.transition), ("people", kinds.person):
        names = [name for name in os.listdir(os.path.join(pages, folder)) if name.endswith(".html")]
        largest = max(names, key=lambda name: os.path.getsize(os.path.join(pages, folder, name)))
        found[f"{folder}/{largest}"] = compare
    return found
