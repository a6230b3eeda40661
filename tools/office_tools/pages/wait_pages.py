"""The page of what waits for what."""
from typing import Iterator, Sequence

from office_tools.pages import views
from office_tools.pages.outcomes import What
from office_tools.pages.rows import Cell, Column
from office_tools.pages.sections import cell, line, Section, SectionPage, Table
from office_tools.pages.told import Links, Piece

FIRST = 50  # sources that others wait for, as the list of them shows
MOST_WHYS = 3  # reasons in a row of it


def wait_pages(facts: views.Facts) -> Iterator[SectionPage]:
    """The page of what waits for what."""
    links = facts.links("source/")
    names = waiting_names(facts)
    number = facts.newest.number
    told = [line(f"{len(names)} {'source waits' if len(names) == 1 else 'sources wait'} after ",
                 Piece(f"run {number}", f"run/{number}.html"),
                 f" of {facts.date}: each would break a package if it moved alone.")]
    unknown = sum(views.why_of(facts, facts.excuses[name]) is None for name in names)
    if unknown:
        told.append(line(f"The office wasn't asked about {unknown} of them yet. Of those this page names the first "
                         "package that would break, and not what has to be mended."))
    yield SectionPage("waits", "What waits for what", told, (first_of(facts, links), all_of(facts, names, links)))


def waiting_names(facts: views.Facts) -> Sequence[str]:
    """The sources that wait, by name."""
    return sorted(name for name, outcomes in facts.outcomes.items()
                  if outcomes[-1].what is What.WAIT and name in facts.excuses)


def first_of(facts: views.Facts, links: Links) -> Section:
    """The sources that most others wait for."""
    ranked = facts.waits.ranked()
    columns = (Column("Source"), Column("Wait for it", True), Column("In the end", True), Column("Why"),
               Column("How it stands"))
    told = ["Those that most others wait for come first. “In the end” also counts each source that waits for one that "
            "waits for it." if ranked else "No source waits for another one."]
    if len(ranked) > FIRST:
        told.append(f"{len(ranked) - FIRST} more aren't shown here; the list below has them all.")
    rows = [(cell(Piece(name, links.source(name))), waiting_cell(facts, name, links), cell(in_the_end),
             why_cell(facts, name), cell(views.standing_of(facts, name)))
            for name, _, in_the_end in ranked[:FIRST]]
    return Section("first", "What has to be mended first", list(map(line, told)),
                   table=(Table("Sources that others wait for", "waited", columns, rows),) if rows else ())


def waiting_cell(facts: views.Facts, name: str, links: Links) -> Cell:
    """How many sources wait for one, with a link to their list."""
    number = len(facts.waits.waiting.get(name, ()))
    link = links.source(name)
    return cell(Piece(str(number), f"{link}#waited" if number and link else ""))


def why_cell(facts: views.Facts, name: str) -> Cell:
    """Why others wait for a source: the first reasons."""
    whys = list(dict.fromkeys(wait.why for wait in facts.waits.by_other[name]))
    more = [f"and {len(whys) - MOST_WHYS} more"] if len(whys) > MOST_WHYS else []
    return [line(why) for why in whys[:MOST_WHYS] + more]


def all_of(facts: views.Facts, names: Sequence[str], links: Links) -> Section:
    """All sources that wait, and for what."""
    columns = (Column("Source"), Column("Version"), Column("It waits for"), Column("Wait for it", True))
    rows = [(cell(Piece(name, links.source(name))), cell(facts.excuses[name].unstable),
             views.wait_lines(facts, facts.waits.by_source.get(name, ()), links, lambda wait: wait.other),
             waiting_cell(facts, name, links)) for name in names]
    return Section("all", "All that wait", table=(Table("Sources that wait, and for what", "waiting", columns, rows),)
                   if rows else (), told=() if rows else (line("No source waits."),))
