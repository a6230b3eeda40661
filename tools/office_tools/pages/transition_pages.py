"""The pages of transitions: a list of them, and a page of each."""
import collections
from typing import Iterator, Sequence

from office_tools.pages import plots, views
from office_tools.pages.kept_mail import KeptMail
from office_tools.pages.outcomes import NOTHING, What
from office_tools.pages.rows import Cell, Column
from office_tools.pages.sections import cell, line, Section, SectionPage, Table
from office_tools.pages.state import State
from office_tools.pages.told import Line, Links, Piece
from office_tools.pages.transitions import (GONE, MISSING, NEITHER, NEW, OLD, Reader, suite_of, suite_of_unstable,
                                            Transition, User)

MOST_NAMES = 200  # sources of a level that are named, and of all levels; the table has all
MOST_IN_ALL = 600
WORDS = {OLD: "to rebuild", NEW: "rebuilt", NEITHER: "no need", MISSING: "not built", GONE: "gone from unstable"}


def transition_pages(facts: views.Facts, state: State) -> Iterator[SectionPage]:
    """The list of all transitions, and a page of each."""
    unstable = state.suite("unstable")
    if facts.testing is None or unstable is None or unstable[0] != facts.newest.number:
        told = "What is in unstable wasn't told, so transitions aren't known."
        yield SectionPage("transitions", "Transitions", (line(told),), ())
        return
    names = [name for name, excuse in facts.excuses.items() if excuse.testing is not None
             and facts.outcomes.get(name, NOTHING)[-1].what is not What.ACCEPT]
    mail = KeptMail(state)
    testing = suite_of(facts.testing.sources, list(map(" ".join, facts.testing.rows)))
    found = Reader(testing, suite_of_unstable(unstable[1]), mail).transitions(names)
    yield list_page(facts, found, mail.is_read(facts.newest.number))
    links = facts.links("../source/")
    for transition in found:
        yield one_page(facts, transition, links)


def list_page(facts: views.Facts, found: Sequence[Transition], is_whole: bool) -> SectionPage:
    """The list of all transitions."""
    run = facts.newest.number
    told = [line("After ", Piece(f"run {run}", f"run/{run}.html"), f" of {facts.date}."),
            line("A source is in transition if unstable has packages of it under other names than testing, and sources "
                 "in testing need the old names. A source that needs them is done if it is rebuilt everywhere, and may "
                 "move.")]
    if not is_whole:
        told.append(line("The mail isn't read to its end yet: the next call goes on, and may find more."))
    columns = (Column("Source"), Column("Packages"), Column("Done"), Column("Left, by level"), Column("How it stands"))
    rows = [(cell(Piece(one.source, f"transition/{one.source}.html")),
             [line(text) for text in names_told(one)], cell(progress(one)),
             left_by_level(one), cell(views.standing_of(facts, one.source))) for one in found]
    table = (Table("Transitions, those with the most sources first", "transitions", columns, rows),) if rows else ()
    return SectionPage("transitions", "Transitions", told, (
        Section("all", "All transitions", () if rows else (line("There is none."),), table=table),))


def names_told(one: Transition) -> Sequence[str]:
    """Each old name with its new one, and new ones without an old one."""
    paired = {new for _, new in one.pairs}
    return [f"{old} → {new or 'gone'}" for old, new in one.pairs] + [
        f"new: {name}" for name in one.new if name not in paired and len(one.new) <= 12]


def progress(one: Transition) -> Piece:
    """A bar with its numbers."""
    number, done, moved = len(one.users), one.done, one.moved
    told = f"{done} of {number}"
    return Piece(told, "", plots.bar(f"{told} done, {moved} of them in testing", (
        ("bar-moved", moved), ("bar-done", done - moved), ("bar-left", number - done))))


def left_by_level(one: Transition) -> Cell:
    """How many sources are left on each level."""
    counts = collections.Counter(user.level for user in one.users if not user.is_done)
    return cell(", ".join(f"level {level}: {count}" for level, count in sorted(counts.items())) or "none")


def one_page(facts: views.Facts, one: Transition, links: Links) -> SectionPage:
    """The page of a transition."""
    told = [line(Piece(one.source, links.source(one.source)), f" {one.testing} → {one.unstable}: ",
                 views.standing_of(facts, one.source), "."),
            line("; ".join(names_told(one)), "."),
            line(progress(one), f" sources are done. {one.moved} of them need no old package in testing either.")]
    return SectionPage(f"transition/{one.source}", f"Transition of {one.source}", told, (
        architecture_section(one), left_section(facts, one, links), user_section(facts, one, links)))


def architecture_section(one: Transition) -> Section:
    """How many sources have which state on each architecture."""
    states = (NEW, NEITHER, OLD, MISSING, GONE)
    counts = collections.Counter((architecture, state) for user in one.users
                                 for architecture, state in user.states.items())
    columns = (Column("Architecture"), *(Column(WORDS[state].capitalize(), True) for state in states))
    rows = [(cell(architecture), *(cell(counts[architecture, state]) for state in states))
            for architecture in one.architectures]
    return Section("architectures", "By architecture", table=(
        Table("Sources by architecture, and what their packages in unstable need", "by", columns, rows),))


def left_section(facts: views.Facts, one: Transition, links: Links) -> Section:
    """What is left, level by level: a level can be rebuilt once those before it are."""
    items: list[Line] = []
    shown = 0
    for level in sorted({user.level for user in one.users}):
        left = [user for user in one.users if user.level == level and not user.is_done]
        pieces: list[object] = [f"Level {level}: "]
        most = min(MOST_NAMES, MOST_IN_ALL - shown)
        shown += len(left[:most])
        for place, user in enumerate(left[:most]):
            pieces += [", " if place else "", Piece(user.name, links.source(user.name)), f" ({left_of(user)})"]
        pieces += [f" and {len(left) - most} more"] if len(left) > most else []
        items += [line(*pieces)] if left else []
    waiting = [user for user in one.users if user.is_done and user.name in facts.excuses and not user.is_moved]
    told = [] if items else [line("Nothing has to be rebuilt.")]
    if waiting:
        held = [user for user in waiting if not facts.excuses[user.name].is_candidate]
        told.append(line(f"{len(waiting)} that are done aren't in testing yet; {len(held)} of these are no candidates "
                         "(the table says why)."))
    return Section("left", "What is left, in order", told, items=items)


def left_of(user: User) -> str:
    """What is left of a source, by architecture."""
    if user.needs_upload:
        return "needs a new source version"
    by_state: dict[str, list[str]] = collections.defaultdict(list)
    for architecture, state in sorted(user.states.items()):
        if state not in (NEW, NEITHER):
            by_state[state].append(architecture)
    return "; ".join(f"{WORDS[state]} on {', '.join(names)}" if len(names) < len(user.states) else WORDS[state]
                     for state, names in by_state.items())


def user_section(facts: views.Facts, one: Transition, links: Links) -> Section:
    """All sources that need the packages, those that are left first."""
    upload = "a rebuild alone doesn't move: it needs a new source version"
    columns = (Column("Source"), Column("Level", True), *map(Column, one.architectures), Column("In testing"),
               Column("How it stands"))
    rows = [(cell(Piece(user.name, links.source(user.name))), cell(user.level),
             *(cell(WORDS[user.states[architecture]] if architecture in user.states else "-")
               for architecture in one.architectures),
             cell("done" if user.is_moved else "needs the old one"),
             cell(upload if user.needs_upload else views.standing_of(facts, user.name)))
            for user in sorted(one.users, key=lambda user: (user.is_done, user.level, user.name))]
    return Section("sources", "All sources", table=(
        Table("Sources that need the old or the new packages", "users", columns, rows),))
