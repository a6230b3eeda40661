"""The pages of people: a list of them, and a page and a feed of each whose sources don't move or changed of late."""
import collections
import functools
from typing import Callable, Iterable, Iterator, Mapping, Sequence

from office_tools.pages import people, views
from office_tools.pages.change_pages import Change, Kind, sentence
from office_tools.pages.outcomes import NOTHING, What
from office_tools.pages.rows import Column
from office_tools.pages.sections import cell, Kept, line, Section, SectionPage, Table
from office_tools.pages.told import Links, Piece
from office_tools.pages.verdicts import TITLES, word_of
from office_tools.pages.outcomes import reason_words

MEANINGS = {**TITLES, "refused": "a candidate for which a hint was refused"}
WORDS = tuple(MEANINGS)


def unmoved(facts: views.Facts) -> Mapping[str, str]:
    """The verdict of each source that doesn't move."""
    found = {}
    for name, excuse in facts.excuses.items():
        what = facts.outcomes.get(name, NOTHING)[-1].what
        if what is not What.ACCEPT:
            found[name] = word_of(reason_words(excuse), what)
    return found


class PeoplePages:
    """The list of people, and the page of each of them."""

    def __init__(self, facts: views.Facts, changes: Mapping[int, Sequence[Change]]) -> None:
        self.facts, self.verdicts = facts, unmoved(facts)
        changed = {change.source for some in changes.values() for change in some}
        self.found = people.by_person(facts.people, {*self.verdicts, *changed})
        self.titles = people.titles(facts.people)
        self.newest = {change.source: change for change in changes.get(facts.newest.number, ())
                       if change.kind in (Kind.STUCK, Kind.FREE)}
        self.links = facts.links("../source/")

    def all(self) -> SectionPage:
        """The list of people."""
        return list_page(self.facts, self.found, self.titles, self.verdicts)

    def each(self, digests: Mapping[str, str], written: Callable[[SectionPage], Iterable[tuple[str, bytes]]]
             ) -> Iterator[Kept]:
        """The page of each of them. `digests` are those of the sources' pages, which show all that it shows of each."""
        for name, sources in self.found.items():
            shown = [self.titles[name]]
            for source, is_maintainer in sources:
                if source in self.verdicts:
                    shown += [source, str(is_maintainer), digests[f"source/{source}.html"]]
                if source in self.newest:
                    shown += [source, repr(self.newest[source])]
            yield Kept(f"people/{people.page_of(name)}.html", shown,
                       functools.partial(self.written, name, written))

    def written(self, name: str, written: Callable[[SectionPage], Iterable[tuple[str, bytes]]]
                ) -> Iterable[tuple[str, bytes]]:
        """The files of a person's page."""
        return written(one_page(self.facts, (name, self.titles[name]), self.found[name],
                                (self.verdicts, self.newest), self.links))


def list_page(facts: views.Facts, found: Mapping[str, Sequence[tuple[str, bool]]], titles: Mapping[str, str],
              verdicts: Mapping[str, str]) -> SectionPage:
    """The list of people with sources that don't move, those with the most that need them first."""
    rows = []
    for name, sources in found.items():
        counts = collections.Counter(verdicts[source] for source, _ in sources if source in verdicts)
        if counts:
            rows.append((-counts["rejected"] - counts["waits"], -sum(counts.values()), name, counts))
    columns = (Column("Maintainer or team"), *(Column(word, True) for word in WORDS))
    cells = [(cell(Piece(titles[name], f"people/{people.page_of(name)}.html")), *(cell(counts[word]) for word in WORDS))
             for _, _, name, counts in sorted(rows, key=lambda row: row[:3])]
    unknown = sum(source not in facts.people for source in verdicts)
    told = [line("Those with the most sources that wait or are rejected come first. ",
                 "; ".join(f"{word}: {title}" for word, title in MEANINGS.items()), ".")]
    if unknown:
        told.append(line(f"Of {unknown} of {len(verdicts)} sources that don't move nobody said who maintains them."))
    return SectionPage("people", "Maintainers and teams", told, (Section(
        "all", "All with sources that don't move", () if cells else (line("Nobody is known."),), table=(
            Table("Maintainers and teams, and how many of their sources don't move", "people", columns, cells),)
        if cells else ()),))


def one_page(facts: views.Facts, person: tuple[str, str], sources: Sequence[tuple[str, bool]],
             known: tuple[Mapping[str, str], Mapping[str, Change]], links: Links) -> SectionPage:
    """The page of a person: what doesn't move and why, and what is newly stuck or free."""
    verdicts, newest = known
    page = people.page_of(person[0])
    columns = (Column("Source"), Column("Testing"), Column("Unstable"), Column("Verdict"), Column("Why"),
               Column("It waits for"))
    rows = []
    for name, is_maintainer in sources:
        if name in verdicts:
            excuse, outcomes = facts.excuses[name], facts.outcomes.get(name, NOTHING)
            rows.append((cell(Piece(name, links.source(name)), "" if is_maintainer else " (uploader)"),
                         cell(excuse.testing or "-"), cell(excuse.unstable),
                         cell(Piece(verdicts[name], is_verdict=True)),
                         views.told_of(facts, excuse, outcomes, links),
                         views.wait_lines(facts, facts.waits.by_source.get(name, ()), links, lambda wait: wait.other)))
    items = [line(Piece(name, links.source(name)), f" is {change.kind.value}: {sentence(change.after)}")
             for name, change in ((source, newest[source]) for source, _ in sources if source in newest)]
    sections = (
        Section("changes", "Newly stuck and newly free since the run before",
                () if items else (line("None."),), items=items),
        Section("sources", "Sources that don't move", () if rows else (line("None."),), table=(
            Table("Sources that don't move, and why", "excuses", columns, rows),) if rows else ()))
    return SectionPage(f"people/{page}", person[1], (line("A ", Piece("feed", f"{page}.xml"),
                                                          " has what is newly stuck, newly free and moved."),),
                       sections, f"{page}.xml")
