"""What changed of sources from run to run: which are newly stuck, newly free, or moved; the page of it, and the feeds.
"""
import datetime
import enum
import functools
from dataclasses import dataclass
from typing import Iterator, Mapping, Optional, Sequence

from office_tools.pages import people, views
from office_tools.pages.atom import atom, Entry, Feed
from office_tools.pages.outcomes import outcome_in, What
from office_tools.pages.rows import Column
from office_tools.pages.sections import cell, Kept, line, Section, SectionPage, Table
from office_tools.pages.sentences import outcome_sentence
from office_tools.pages.state import Event
from office_tools.pages.told import Piece

RUNS = 20  # runs of a feed
MOST_ENTRIES = 60  # entries of the feed of a person or of a source
MOST_NAMES = 60  # names in an entry
TOO_YOUNG = "too young"


class Kind(enum.Enum):
    """What changed."""

    STUCK = "newly stuck"
    FREE = "newly free"
    MOVED = "moved"
    OTHER = "changed"


@dataclass(frozen=True)
class Change:
    """What a run changed of a source: its state before, if it was known, and its state from the run on."""

    source: str
    kind: Kind
    before: Optional[Event]
    after: Event


def is_stuck(event: Optional[Event]) -> bool:
    """Whether something but time keeps a source out: a reason, or a package that its move would break."""
    if event is None or not event.unstable:
        return False
    what = outcome_in(event.outcome).what
    if what in (What.ACCEPT, What.REMOVED):
        return False
    return what is What.WAIT or any(reason != TOO_YOUNG for reason in event.reasons.split(", ") if reason) or (
        what is What.REFUSED and not event.reasons)


def kind_of(before: Optional[Event], after: Event) -> Kind:
    """What changed between two events of a source."""
    if outcome_in(after.outcome).what is What.ACCEPT:
        return Kind.FREE if is_stuck(before) else Kind.MOVED
    if is_stuck(before) != is_stuck(after):
        return Kind.STUCK if is_stuck(after) else Kind.FREE
    return Kind.OTHER


def changes_of(events: Mapping[str, Sequence[Event]], first: int) -> Mapping[int, Sequence[Change]]:
    """The changes of each run from one on, by the events of sources in the order of runs."""
    found: dict[int, list[Change]] = {}
    for source, some in sorted(events.items()):
        for before, after in zip((None, *some), some):
            if after.run >= first:
                found.setdefault(after.run, []).append(Change(source, kind_of(before, after), before, after))
    return found


def sentence(event: Optional[Event]) -> str:
    """The state of a source, in words."""
    if event is None:
        return "had no excuse"
    read = outcome_in(event.outcome)
    if read.what is What.ACCEPT:
        return f"moved in run {event.run}" + (f" by easy hint {read.hint}" if read.hint is not None else "")
    outcome = outcome_sentence(read)
    return "; ".join(filter(None, [event.reasons, outcome])) or ("a candidate" if event.unstable else "no excuse")


def change_pages(facts: views.Facts, changes: Mapping[int, Sequence[Change]]) -> Iterator[SectionPage]:
    """The pages of what is newly stuck, and of what is newly free."""
    newest = changes.get(facts.newest.number, ())
    links = facts.links("source/")
    counts = {kind: sum(change.kind is kind for change in newest) for kind in Kind}
    told = [line(f"Run {facts.newest.number} of {facts.date}, beside the run before it: ",
                 Piece(f"{counts[Kind.STUCK]} newly stuck", "changes.html"), ", ",
                 Piece(f"{counts[Kind.FREE]} newly free", "changes-free.html"), "."),
            line("A source is stuck if something but time keeps it out: a bug, a block, a missing build, or a package "
                 "that its move would break.")]
    if len(facts.runs) < 2:
        told = [line("There is no run before this one.")]
    for name, kind, title in ("changes", Kind.STUCK, "Newly stuck"), ("changes-free", Kind.FREE, "Newly free"):
        columns = (Column("Source"), Column("Version"), Column("Before"), Column("Now"), Column("Maintainer"))
        rows = [(cell(Piece(change.source, links.source(change.source))), cell(change.after.unstable or "-"),
                 cell(sentence(change.before)), cell(sentence(change.after)),
                 cell(facts.people[change.source].maintainer if change.source in facts.people else "-"))
                for change in newest if change.kind is kind]
        yield SectionPage(name, f"{title} since the run before", told, (Section(
            "sources", title, () if rows else (line("None."),), table=(
                Table(f"{title} sources", "changed", columns, rows),) if rows else ()),), "feed.xml")


class Feeds:
    """The feeds of an office's pages. `site` is the address of the pages, or empty."""

    def __init__(self, facts: views.Facts, site: str) -> None:
        self.facts, self.site = facts, site
        self.office = repr(facts.runs[0])
        self.days: Mapping[int, datetime.date] = {run.number: run.date for run in facts.runs}

    def feed(self, path: str, title: str, page: str, entries: Sequence[Entry]) -> bytes:
        """A feed of these entries, the newest first."""
        day = entries[0].day if entries else self.facts.runs[0].date
        return atom(Feed(path, title, page, day, entries, self.site, self.office))

    def of_all(self, changes: Mapping[int, Sequence[Change]]) -> bytes:
        """The feed of all sources: an entry for each run."""
        entries = []
        for run in self.facts.runs[:-RUNS - 1:-1]:
            some = changes.get(run.number, ())
            parts = [f"{run.accepted} moved alone, {run.groups} groups, {run.removed} removed, {run.waiting} wait."]
            for kind in Kind.STUCK, Kind.FREE:
                names = [change.source for change in some if change.kind is kind]
                more = f" and {len(names) - MOST_NAMES} more" if len(names) > MOST_NAMES else ""
                parts.append(f"{len(names)} {kind.value}: {', '.join(names[:MOST_NAMES])}{more}." if names
                             else f"None {kind.value}.")
            entries.append(Entry(f"run {run.number}", f"Run {run.number} of {run.date}", run.date,
                                 f"run/{run.number}.html", "\n".join(parts)))
        return self.feed("feed.xml", "Migration to testing", "index.html", entries)

    def of_people(self, changes: Mapping[int, Sequence[Change]]) -> Iterator[Kept]:
        """The feed of each person with a source that changed: an entry for each change."""
        by_source: dict[str, list[Change]] = {}
        for run in sorted(changes, reverse=True):
            for change in changes[run]:
                by_source.setdefault(change.source, []).append(change)
        titles = people.titles(self.facts.people)
        for name, sources in people.by_person(self.facts.people, self.facts.unmoved | by_source.keys()).items():
            found = [change for source, _ in sources for change in by_source.get(source, ())]
            found.sort(key=lambda change: (-change.after.run, change.source))
            path = f"people/{people.page_of(name)}.xml"
            # What a run changed of a source stays, and so does what it was before.
            shown = [self.office, titles[name]] + [
                f"{change.source} {change.after.run}" for change in found[:MOST_ENTRIES]]
            yield Kept(path, shown, functools.partial(self.of_person, path, titles[name], found[:MOST_ENTRIES]))

    def of_person(self, path: str, title: str, found: Sequence[Change]) -> Sequence[tuple[str, bytes]]:
        """The feed of a person."""
        page = path.removesuffix("xml") + "html"
        return [(path, self.feed(path, title, page, [self.entry(change) for change in found]))]

    def entry(self, change: Change) -> Entry:
        """The entry of a change."""
        version = change.after.unstable or change.after.testing
        return Entry(f"{change.source} {change.after.run}",
                     f"{change.source} {version}".strip() + f": {change.kind.value} in run {change.after.run}",
                     self.days[change.after.run], f"source/{change.source}.html",
                     f"Before: {sentence(change.before)}\nNow: {sentence(change.after)}")

    def of_source(self, name: str, events: Sequence[Event]) -> bytes:
        """The feed of a source, by its events, the newest first."""
        entries = [Entry(str(event.run), f"{name} {event.unstable or event.testing}".strip() + f": run {event.run}",
                         self.days[event.run], f"source/{name}.html", sentence(event)) for event in events]
        return self.feed(f"source/{name}.xml", name, f"source/{name}.html", entries[:MOST_ENTRIES])
