"""What each kind of page has to show, by the office's own texts.

`kinds_of` gives a function for each page that is opened: it takes the open browser, and gives faults.
"""
from selenium.webdriver.common.keys import Keys

from office_tools import reports


class Told:
    """What the office prints after its newest run."""

    def __init__(self, service):
        self.service = service
        self.runs = reports.read_runs(service.good_text("/runs"))
        self.newest = self.runs[-1].number
        self.excuses = reports.read_excuses(service.good_text(f"/excuses/{self.newest}"))
        self.update = reports.read_update(service.good_text(f"/update/{self.newest}"))
        self.testing = reports.read_testing(service.good_text("/testing"))
        self.hints = reports.read_hints(service.good_text("/hints"))
        self.proposed = (service.proposed() or "").splitlines()
        self.moved = [item for change in self.update.changes
                      if change.outcome is reports.Outcome.ACCEPTED and change.word is not reports.Word.REMOVE
                      for item in change.items]
        names = {item.source for item in self.moved}
        self.unmoved = [excuse for excuse in self.excuses.excuses if excuse.source not in names]
        self.gone = [excuse for excuse in self.unmoved if excuse.testing is None
                     and {"no binaries", "removal asked"} <= {reason.text for reason in excuse.reasons}]
        self.standing = [excuse for excuse in self.unmoved if excuse not in self.gone]
        self.waiting = [change.items[0] for change in self.update.changes if change.word is reports.Word.WAIT]
        self.refused = [change for change in self.update.changes if change.hint is not None
                        and change.outcome is not reports.Outcome.ACCEPTED]


def verdict_of(excuse):
    """The word of a source that doesn't move, by the reasons of its excuse."""
    texts = {reason.text for reason in excuse.reasons}
    if "blocked" in texts:
        return "blocked"
    return "waits" if not texts else "young" if texts == {"too young"} else "rejected"


def differences(what, due, shown):
    """A fault where two lists differ, with the first difference."""
    due, shown = list(due), list(shown)
    if due != shown:
        place = next((place for place, pair in enumerate(zip(due, shown)) if pair[0] != pair[1]),
                     min(len(due), len(shown)))
        yield (f"{what}: {len(due)} are due, {len(shown)} are shown; at {place} {due[place:place + 1]} is due, "
               f"{shown[place:place + 1]} is shown")


def missing(what, due, shown):
    """A fault for each text that isn't shown."""
    return [f"{what}: {text!r} isn't shown" for text in due if text not in shown]


def anything(_seen):
    """A page on which nothing is compared."""
    return []


def column(seen, table, place):
    """The texts of a column, without the label that a narrow screen puts before them."""
    return seen.texts(f"table.{table} td:nth-child({place})")


class Kinds:
    """The pages that are opened, with what is compared."""

    def __init__(self, told):
        self.told = told

    def runs(self, seen):
        """Each run has its counts."""
        due = [[f"Run {run.number}", run.date.isoformat(), *map(str, (
            run.excuses, run.candidates, run.accepted, run.groups, run.removed, run.waiting))]
            for run in self.told.runs[::-1]]
        yield from differences("runs", due, zip_lists(*(column(seen, "runs", place) for place in range(1, 9))))

    def front(self, seen):
        """The counts of the first page, and the table of runs."""
        yield from self.runs(seen)
        shown = " ".join(seen.texts("main"))
        for word in "waits", "young", "blocked", "rejected":
            count = sum(verdict_of(excuse) == word for excuse in self.told.standing)
            cells = seen.texts(f"tr:has(.is-{word}) td:last-child")
            yield from differences(f"sources that are {word}", [str(count)], cells)
        for name, count in ("Don't move", len(self.told.standing)), ("refused", len(self.told.refused)):
            yield from missing("counts", [f"{name} {count}"], shown)

    def excuses(self, seen):
        """Each source that doesn't move has its versions, its age, its verdict, and a line for each reason."""
        due = [[excuse.source, excuse.testing or "-", excuse.unstable, verdict_of(excuse)]
               for excuse in self.told.standing]
        yield from differences("sources", due, zip_lists(*(column(seen, "excuses", place) for place in (1, 2, 3, 5))))
        ages = [f"{excuse.age} of {excuse.needed} days" for excuse in self.told.standing]
        yield from differences("ages", ages, [text.split(" enough ")[0] for text in column(seen, "excuses", 4)])
        lines = [len(excuse.reasons) or 1 for excuse in self.told.standing]
        yield from differences("lines", lines, seen.counts("table.excuses td:nth-child(6)", "li"))

    def waits(self, seen):
        """The sources that wait are those of the update."""
        yield from differences("waiting", [item.source for item in self.told.waiting], column(seen, "excuses", 1))

    def gone(self, seen):
        """The sources that left the archive have a table of their own."""
        yield from differences("gone", [excuse.source for excuse in self.told.gone], column(seen, "excuses", 1))

    def testing(self, seen):
        """Each source in testing has its version."""
        first = list(self.told.testing.sources.items())[:len(column(seen, "testing", 1))]
        yield from differences("testing", map(list, first), zip_lists(column(seen, "testing", 1),
                                                                      column(seen, "testing", 2)))

    def hints(self, seen):
        """Each item of a hint in force is shown, each refused hint says so, and each proposed one can be copied."""
        standing = {str(item.number) for item in self.told.hints.items}
        yield from differences("hints", sorted(standing), sorted(column(seen, "standing", 1)))
        items = [f"{item.item}: " + (f"unstable has {item.other}" if item.other else item.standing.value)
                 for item in self.told.hints.items]
        yield from differences("items", items, seen.texts("table.standing td:nth-child(3) li"))
        begins = f"refused by run {self.told.newest}"
        refused = [text for text in column(seen, "standing", 4) if text.startswith(begins)]
        yield from differences("refused hints", [len(self.told.refused)], [len(refused)])
        copied = seen.texts("pre.copy")
        yield from missing("proposed", [f"Kind: hint Hint: {line}" for line in self.told.proposed], " ".join(copied))

    def run(self, seen):
        """What moved in the newest run, by name, and then what waits."""
        due = sorted(item.source for item in self.told.moved) + sorted(item.source for item in self.told.waiting)
        yield from differences("changes", due, column(seen, "changes", 1))
        yield from differences("hints", [f"{change.word.value.capitalize()} hint {change.hint}" for change in
                                         self.told.update.changes if change.hint], column(seen, "hints", 1))

    def source(self, excuse):
        """The page of a source has its versions, and each line by which the office answers why it doesn't move."""
        answer = self.told.service.good_text(f"/why/{excuse.source}").splitlines()
        lines = answer[next(place for place, line in enumerate(answer) if "candidate" in line) + 1:]
        due = [line for line in lines if not line.startswith(("wait ", "easy ", "remove "))]

        def compare(seen):
            yield from missing("versions", [excuse.testing or "not there", excuse.unstable], seen.texts("dd"))
            shown = [text.split(": block ")[0].split(": remove ")[0] for text in seen.texts("ul.told li")]
            yield from missing("answer", [" ".join(line.split()) for line in due], shown)
        return compare

    def names(self, seen):
        """Each source and package of a letter, in order."""
        packages = {row.package for row in self.told.testing.rows}
        every = packages | set(self.told.testing.sources) | {excuse.source for excuse in self.told.excuses.excuses}
        due = sorted(name for name in every if name.startswith("libg"))
        shown = seen.texts("ul.names a")
        yield from differences("names", due[:len(shown)] if seen.texts("ul.parts") else due, shown)


def zip_lists(*columns):
    return [list(row) for row in zip(*columns)]


def kinds_of(told, _pages):
    """The pages that are opened, with what is compared. Of sources one of each verdict is opened, and one that moved.
    """
    kinds = Kinds(told)
    found = {"index.html": kinds.front, "excuses.html": kinds.excuses, "excuses-wait.html": kinds.waits,
             "excuses-gone.html": kinds.gone, "runs.html": kinds.runs, "testing.html": kinds.testing,
             "hints.html": kinds.hints, "names.html": anything, "names-libg.html": kinds.names,
             f"run/{told.newest}.html": kinds.run}
    for word in "waits", "young", "blocked", "rejected":
        excuse = next(excuse for excuse in told.standing if verdict_of(excuse) == word)
        found[f"source/{excuse.source}.html"] = kinds.source(excuse)
    found[f"source/{told.moved[0].source}.html"] = anything
    return found


def search_faults(seen, told, pages):
    """The search finds a source by its name and a package of another name than its source's, and leads to the page."""
    row = next(row for row in told.testing.rows if row.package not in told.testing.sources)
    for name, source in (row.package, row.source), (told.standing[0].source, told.standing[0].source):
        seen.open(f"file://{pages}/runs.html")
        seen.type("#go", name)
        shown = seen.wait_for(".found li")
        yield from missing(f"the search for {name}", [name if name == source else f"{name} of {source}"], shown)
        seen.type("#go", Keys.ENTER)
        seen.wait_for("#history")
        yield from missing(f"the way to {name}", [source], seen.texts("h1")[0].split(" "))
