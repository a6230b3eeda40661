"""The page of days: what each run did, how old the waiting sources are, and when those too young may move."""
import collections
import datetime
from typing import Iterator, Mapping, Sequence

from office_tools.pages import plots, views
from office_tools.pages.outcomes import NOTHING, What
from office_tools.pages.rows import Column
from office_tools.pages.sections import cell, line, Section, SectionPage, Table
from office_tools.pages.sentences import old_enough
from office_tools.pages.told import Line, Links, Piece
from office_tools.reports import Excuse, ReasonKind

AGES = (0, 5, 10, 15, 20, 30, 60, 100)  # days at which the columns of ages begin
DAYS_DRAWN = 21  # days of the plot of those that are old enough soon
EVERYWHERE = "everywhere"  # where a source is missing that has no package at all
MOST_NAMES = 40  # names in a row of the calendar
CURVES = (("waiting", "waiting"), ("candidates", "candidates"), ("moved", "moved"))


def day_pages(facts: views.Facts) -> Iterator[SectionPage]:
    """The page of days."""
    yield SectionPage("days", "Trends and calendar", (), (
        runs_section(facts), ages_section(facts), calendar_section(facts)))


def runs_section(facts: views.Facts) -> Section:
    """What each run did, by day. The run by which an office began has too many sources and is left out."""
    runs = facts.runs[1:] if len(facts.runs) > 2 else facts.runs
    values = {"waiting": [run.waiting for run in runs], "candidates": [run.candidates for run in runs],
              "moved": [run.candidates - run.waiting for run in runs]}
    curves = [plots.Curve(name, look, values[name]) for name, look in CURVES]
    labels = [run.date.strftime("%m-%d") for run in runs]
    legend: list[object] = []
    for name, look in CURVES:
        legend += [Piece(f"{name} {values[name][-1]}  ", "", plots.picture(name, (12, 12), (
            f'<rect class="{look}" width="12" height="12"/>',), "key"))]
    told = [line(*legend, "in run ", Piece(str(runs[-1].number), f"run/{runs[-1].number}.html"), "."),
            line("The numbers of ", Piece("all runs", "runs.html"), " are in a table.",
                 " The first run isn't drawn." if len(runs) < len(facts.runs) else "")]
    name = f"Sources that wait, are candidates and moved, by run, from {runs[0].date} to {runs[-1].date}"
    return Section("runs", "Run by run", told, plots.lines(name, labels, curves))


def ages_section(facts: views.Facts) -> Section:
    """How old the sources are that wait."""
    ages = [excuse.age for excuse in facts.newest.excuses.excuses
            if facts.outcomes.get(excuse.source, NOTHING)[-1].what is What.WAIT]
    counts = collections.Counter(max(begin for begin in AGES if begin <= age) for age in ages)
    titles = [f"{begin}–{end - 1}" for begin, end in zip(AGES, AGES[1:])] + [f"{AGES[-1]}+"]
    told = f"{len(ages)} sources wait, of these ages in days." if ages else "No source waits."
    return Section("ages", "Ages of those that wait", (line(told),), plots.columns(
        "Sources that wait, by their age in days", titles, [counts[begin] for begin in AGES]) if ages else "")


def young_by_day(facts: views.Facts) -> Mapping[datetime.date, Sequence[Excuse]]:
    """The sources that are too young, by the day on which each is old enough."""
    found: dict[datetime.date, list[Excuse]] = collections.defaultdict(list)
    for excuse in facts.newest.excuses.excuses:
        if any(reason.kind is ReasonKind.TOO_YOUNG for reason in excuse.reasons):
            found[old_enough(excuse, facts.date)].append(excuse)
    return dict(sorted(found.items()))


def later(date: datetime.date, days: int) -> datetime.date:
    """The day that many days after another one, or the last one that exists."""
    return date + datetime.timedelta(days=min(days, (datetime.date.max - date).days))


def alone(excuses: Sequence[Excuse]) -> Sequence[Excuse]:
    """Those of these sources that their age alone keeps out."""
    return [excuse for excuse in excuses if len(excuse.reasons) == 1]


def glance(facts: views.Facts) -> Line:
    """A sentence on the next days, as `tomorrow 41`."""
    young = young_by_day(facts)
    told = []
    for days, word in (1, "tomorrow"), (2, "the day after"), (3, "in three days"):
        count = len(alone(young.get(later(facts.date, days), ())))
        told.append(f"{word} {count}")
    return line("Old enough to move: ", Piece(", ".join(told), "days.html#calendar"), ".")


def calendar_section(facts: views.Facts) -> Section:
    """When those that are too young are old enough, day by day."""
    young = young_by_day(facts)
    links = facts.links("source/")
    days = [later(facts.date, number) for number in range(1, DAYS_DRAWN + 1)]
    picture = plots.columns(f"Sources that are old enough by day, from {days[0]} to {days[-1]}",
                            [day.strftime("%m-%d") for day in days], [len(alone(young.get(day, ()))) for day in days])
    columns = (Column("Day"), Column("Days left", True), Column("May move", True), Column("Kept out further", True),
               Column("Sources"))
    rows = [(cell(day.strftime("%A, %Y-%m-%d")), cell((day - facts.date).days), cell(len(alone(excuses))),
             cell(len(excuses) - len(alone(excuses))), (names_line(alone(excuses), links),))
            for day, excuses in young.items()]
    told = [glance(facts), line("A source may move on its day if its age alone keeps it out. Others are kept out by "
                                "something else, too.")]
    if not rows:
        return Section("calendar", "When those that are too young may move", (line("No source is too young."),))
    return Section("calendar", "When those that are too young may move", told, picture, table=(
        Table("Sources that are too young, by the day on which each is old enough", "days", columns, rows),))


def names_line(excuses: Sequence[Excuse], links: Links) -> Line:
    """The names of sources, only the first ones if there are many."""
    pieces: list[object] = []
    for place, excuse in enumerate(excuses[:MOST_NAMES]):
        pieces += [", " if place else "", Piece(excuse.source, links.source(excuse.source))]
    if len(excuses) > MOST_NAMES:
        pieces.append(f" and {len(excuses) - MOST_NAMES} more")
    return line(*pieces) if pieces else line("-")


def missing_pages(facts: views.Facts) -> Iterator[SectionPage]:
    """The page of missing builds by architecture."""
    links = facts.links("source/")
    found = [(reason.architecture, excuse) for excuse in facts.newest.excuses.excuses for reason in excuse.reasons
             if reason.kind is ReasonKind.MISSING and reason.architecture]
    unbuilt = [(EVERYWHERE, excuse) for excuse in facts.newest.excuses.excuses
               if any(reason.kind is ReasonKind.NO_BINARIES for reason in excuse.reasons)]
    found = sorted(found + unbuilt, key=lambda pair: (pair[0], -pair[1].age, pair[1].source))
    by_place: dict[str, list[Excuse]] = collections.defaultdict(list)
    for place, excuse in found:
        by_place[place].append(excuse)
    counts = [(cell(place), cell(len(excuses)), cell(sum(map(is_build_alone, excuses))),
               cell(f"{max(excuse.age for excuse in excuses)} days")) for place, excuses in by_place.items()]
    rows = [(cell(Piece(excuse.source, links.source(excuse.source))),
             cell(Piece(place, facts.patterns.logs(excuse.source, "" if place == EVERYWHERE else place))),
             cell(excuse.testing or "-"),
             cell(excuse.unstable), cell(excuse.age), cell(others_of(excuse))) for place, excuse in found]
    told = () if rows else (line("No build is missing."),)
    columns = (Column("Architecture"), Column("Sources", True), Column("Nothing else keeps out", True),
               Column("Oldest", True))
    sections = (
        Section("counts", "Count by architecture", told, table=(
            Table("Sources whose version in unstable isn't built", "by", columns, counts),) if rows else ()),
        Section("sources", "All missing builds", table=(Table(
            "Sources and architectures, the oldest first", "missing",
            (Column("Source"), Column("Missing on"), Column("Testing"), Column("Unstable"), Column("Age in days", True),
             Column("What else keeps it out")), rows),) if rows else ()))
    yield SectionPage("missing", "Missing builds", (line(
        f"What unstable lacks after run {facts.newest.number} of {facts.date}. A source is missing on an architecture "
        "if unstable has packages of it there, and none of its newest version."),), sections if rows else sections[:1])


def is_build_alone(excuse: Excuse) -> bool:
    """Whether nothing but missing builds keeps a source out."""
    return all(reason.kind in (ReasonKind.MISSING, ReasonKind.NO_BINARIES) for reason in excuse.reasons)


def others_of(excuse: Excuse) -> str:
    """The reasons of an excuse that aren't missing builds."""
    return ", ".join(reason.text for reason in excuse.reasons
                     if reason.kind not in (ReasonKind.MISSING, ReasonKind.NO_BINARIES)) or "nothing"
