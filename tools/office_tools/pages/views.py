"""What the pages show, made of what is kept: the templates print these records and decide nothing."""
import collections
import datetime
import functools
import re
from dataclasses import dataclass, field
from typing import Callable, Mapping, NamedTuple, Optional, Sequence

from office_tools import reports
from office_tools.pages.fetching import HINTS, PROPOSED, hints_named, Newest, sources_in, without_age
from office_tools.pages.hints import pages_of, Refusal, refusals_of
from office_tools.pages.kept_mail import Person
from office_tools.pages.look import Patterns
from office_tools.pages.outcomes import NOTHING, outcome_in, reason_words, SourceOutcome, What
from office_tools.pages.people import page_of
from office_tools.pages.sentences import breaks, old_enough, outcome_sentence, reason_sentence, refused_because
from office_tools.pages.state import Event, Proposal, SentHint, State, Why
from office_tools.pages.told import Line, linked, lines_of, Links, Piece, shortened
from office_tools.pages.verdicts import OUTCOME_WORDS, word_of, words_of
from office_tools.pages.waits import Wait, Waits, waits_of
from office_tools.reports import Excuse, Reason, ReasonKind

HINT_LINES: Mapping[ReasonKind, str] = {
    ReasonKind.TOO_YOUNG: "old enough ", ReasonKind.BLOCKED: "blocked ", ReasonKind.REMOVAL: "removal asked "}
"""How the lines begin that name the hints for a reason."""

BLOCK_ALL = "block-all"
ASKING: Mapping[str, ReasonKind] = {
    "block": ReasonKind.BLOCKED, BLOCK_ALL: ReasonKind.BLOCKED, "remove": ReasonKind.REMOVAL}
"""The reason that a hint of these words gives."""

MOST_WAITING = 100  # sources on the page of one that they wait for
MOST_LINES = 600  # lines of an answer on a page
MOST_EVENTS = 400  # events of a source on its page
NO_GROUP = "No hint: the office found no group that frees it."
NOT_ASKED = "Not asked yet: a later call asks."
NEW_BUG = "new bug "


class Standing(NamedTuple):
    """From which run on a source had a state: its versions, what kept it out, what the run did, whether it moved."""

    run: int
    date: str
    testing: str
    unstable: str
    told: Sequence[Piece]
    has_moved: bool


class Source(NamedTuple):
    """What the page of a source shows.

    `unstable` and `age` are empty where it has no excuse, or moved in the newest run, and `verdict` where it has no
    excuse and neither moved nor was removed. `told` is what keeps it out, and what the newest run did with it if that
    was no move. `lines` are what the office answered about it, the same since run `since`. `ways` lead out of the
    pages. `last` is its last event. `waits` are the sources that it waits for, and `waited` the first of the `waiting`
    ones that wait for it. `people` are its maintainer and uploaders. It has a feed unless nothing happened to it since
    the first run. What is told here stays the same from run to run as long as the source stands the same.
    """

    name: str
    testing: str
    unstable: str
    age: str
    verdict: str
    told: Sequence[Line]
    lines: Sequence[Line]
    since: Optional[int]
    proposal: Sequence[str]
    binaries: Sequence[str]
    ways: Sequence[Piece]
    last: Optional[Event]
    waits: Sequence[Line] = ()
    waited: Sequence[Line] = ()
    waiting: int = 0
    people: Sequence[Piece] = ()
    has_feed: bool = False


class Row(NamedTuple):
    """A source in a list of those that don't move. `words` are its reasons and its outcome, by which a list is cut."""

    name: str
    testing: str
    unstable: str
    age: int
    needed: int
    day: str
    words: Sequence[str]
    verdict: str
    told: Sequence[Line]


@dataclass(frozen=True)
class Facts:
    """All that is kept, read, and what is counted of it once. `standings` are those of sources that were asked for.

    `standing` are the items of the hints in force, and `refusals` the hints that the newest run refused. `proposed` are
    the proposed hints by source, if the office was asked for them.
    """

    newest: Newest
    runs: Sequence[reports.Run]
    testing: Optional[reports.Testing]
    last: Mapping[str, Event]
    whys: Mapping[str, Why]
    hints: Mapping[int, SentHint]
    standing: Sequence[reports.HintItem]
    refusals: Mapping[int, Refusal]
    proposed: Optional[Mapping[str, str]]
    proposals: Mapping[str, Proposal]
    patterns: Patterns
    outcomes: Mapping[str, Sequence[SourceOutcome]]
    excuses: Mapping[str, Excuse]
    binaries: Mapping[str, Sequence[str]]
    packages: Mapping[str, str]
    people: Mapping[str, Person] = field(default_factory=dict)
    standings: dict[str, str] = field(default_factory=dict)

    @property
    def date(self) -> datetime.date:
        """The day of the newest run."""
        return self.newest.excuses.date

    @functools.cached_property
    def names(self) -> frozenset[str]:
        """The sources that have a page."""
        in_testing = self.testing.sources if self.testing else ()
        return frozenset([*in_testing, *self.excuses, *self.last, *self.outcomes])

    @functools.cached_property
    def in_force(self) -> frozenset[int]:
        """The numbers of the hints in force."""
        return frozenset(item.number for item in self.standing)

    @functools.cached_property
    def hint_pages(self) -> Mapping[int, str]:
        """The page of each hint in force."""
        return pages_of(self.in_force)

    @functools.cached_property
    def dates(self) -> Mapping[int, str]:
        """The day of each run."""
        return {run.number: run.date.isoformat() for run in self.runs}

    @functools.cached_property
    def unmoved(self) -> frozenset[str]:
        """The sources with an excuse that didn't move in the newest run."""
        return frozenset(name for name in self.excuses
                         if self.outcomes.get(name, NOTHING)[-1].what is not What.ACCEPT)

    @functools.cached_property
    def waits(self) -> Waits:
        """What the waiting sources of the newest run wait for."""
        waiting: dict[str, tuple[Optional[str], str, str]] = {}
        for name, outcomes in self.outcomes.items():
            offender = outcomes[-1].offender
            if outcomes[-1].what is What.WAIT and offender is not None and name in self.excuses:
                why = why_of(self, self.excuses[name])
                waiting[name] = (why.told if why else None, offender.package, self.packages.get(offender.package, ""))
        return waits_of(waiting)

    @functools.cached_property
    def told_of_now(self) -> frozenset[str]:
        """The sources of which the newest run tells more than that they moved, or whose page names other sources."""
        told = (name for name, outcomes in self.outcomes.items()
                if len(outcomes) > 1 or outcomes[-1].what is not What.ACCEPT)
        return self.unmoved.union(told, self.waits.touched)

    def is_quiet(self, name: str) -> bool:
        """Whether the page of a source shows only what it shows from run to run: where it is, and its past."""
        return name not in self.told_of_now

    def links(self, folder: str) -> Links:
        """Where names lead. `folder` is the way to the folder of the sources' pages, with a slash at its end."""
        above = folder.removesuffix("source/") if folder else "../"
        return Links(lambda name: f"{folder}{name}.html" if name in self.names else "",
                     lambda name: f"{folder}{self.packages[name]}.html" if name in self.packages else "",
                     self.patterns.bug, self.hint_texts,
                     lambda number: f"{above}{self.hint_pages[number]}#hint-{number}")

    @functools.cached_property
    def hint_texts(self) -> Mapping[int, str]:
        """What the hints ask, by their numbers."""
        return {number: hint.text for number, hint in self.hints.items()}

    @functools.cached_property
    def asking(self) -> Mapping[tuple[ReasonKind, str], Sequence[int]]:
        """The hints that keep a source out, by the reason and the source, as they are in force now."""
        found: dict[tuple[ReasonKind, str], list[int]] = {}
        for item in self.standing:
            kind = ASKING.get(item.words)
            if kind and item.is_covered and item.standing is reports.ItemStanding.IN_FORCE:
                source = "" if item.words == BLOCK_ALL else item.item.partition("/")[0]
                found.setdefault((kind, source), []).append(item.number)
        return found


def facts_of(state: State, newest: Newest, patterns: Patterns) -> Facts:
    """All that is kept, read."""
    kept = state.suite("testing")
    testing = reports.read_testing(kept[1]) if kept is not None and kept[0] == newest.number else None
    rows = testing.rows if testing else ()
    hints = state.told(HINTS)
    proposed = state.told(PROPOSED)
    return Facts(newest, state.runs(), testing, state.last_events(), state.whys(), state.hints(),
                 reports.read_hints(hints[1]).items if hints else (),
                 refusals_of(state, newest.number, newest.update),
                 sources_in(proposed[1]) if proposed and proposed[0] == newest.number else None,
                 state.proposals(), patterns,
                 newest.outcomes, {excuse.source: excuse for excuse in newest.excuses.excuses},
                 binaries_of(rows), {row.package: row.source for row in rows})


def binaries_of(rows: Sequence[reports.Row]) -> Mapping[str, Sequence[str]]:
    """The binary packages of each source: each package and version once, with its architectures."""
    found: dict[str, dict[tuple[str, str], str]] = {}
    for architecture, package, version, source in rows:
        of_source = found.get(source)
        if of_source is None:
            of_source = found[source] = {}
        key = package, version
        of_source[key] = f"{of_source[key]}, {architecture}" if key in of_source else architecture
    return {source: [f"{package} {version} ({archs})" for (package, version), archs in sorted(of_source.items())]
            for source, of_source in found.items()}


def why_of(facts: Facts, excuse: Excuse) -> Optional[Why]:
    """What the office answered about a source, if its excuse is the same except the age."""
    why = facts.whys.get(excuse.source)
    return why if why is not None and why.excuse == without_age(excuse) else None


def reason_lines(facts: Facts, excuse: Excuse, links: Links) -> Sequence[Line]:
    """A sentence for each reason, with the bug as a link, and with the hints for it if they are known."""
    why = why_of(facts, excuse)
    lines = why.told.splitlines() if why else None
    return tuple(Line((*reason_pieces(reason, excuse, facts, links), *hint_pieces(facts, reason, excuse, lines, links)))
                 for reason in excuse.reasons)


def reason_pieces(reason: Reason, excuse: Excuse, facts: Facts, links: Links) -> Sequence[Piece]:
    """The sentence of a reason. That of the age has its day, which stays from run to run."""
    if reason.kind is ReasonKind.TOO_YOUNG:
        return (Piece(f"Too young: old enough on {old_enough(excuse, facts.date)}"),)
    sentence = reason_sentence(reason, excuse)
    if reason.bug is not None:
        number = str(reason.bug)
        return (Piece(sentence.removesuffix(number)), Piece("#" + number, links.bug(number)))
    if reason.architecture is not None:
        link = facts.patterns.logs(excuse.source, reason.architecture)
        before, _, behind = sentence.partition(reason.architecture)
        return (Piece(before), Piece(reason.architecture, link), Piece(behind))
    return (Piece(sentence),)


def hint_pieces(facts: Facts, reason: Reason, excuse: Excuse, lines: Optional[Sequence[str]],
                links: Links) -> Sequence[Piece]:
    """The hints for a reason, by number and text: those that the office named, else those in force."""
    beginning = HINT_LINES.get(reason.kind)
    if beginning is None:
        return ()
    if lines is not None:
        numbers = list(hints_named(line for line in lines if line.startswith(beginning)))
    else:
        numbers = [*facts.asking.get((reason.kind, excuse.source), ()), *facts.asking.get((reason.kind, ""), ())]
    found: list[Piece] = []
    for number in numbers:
        hint = facts.hints.get(number, SentHint())
        told = ": ".join(filter(None, [shortened(hint.text, 120), shortened(hint.note, 200)]))
        link = links.hint(number) if number in facts.in_force else ""
        found += [Piece(" ("), Piece(f"hint {number}", link), Piece(f": {told})" if told else ")")]
    return found


def told_of(facts: Facts, excuse: Optional[Excuse], outcomes: Sequence[SourceOutcome], links: Links) -> Sequence[Line]:
    """What keeps a source out, and what the newest run did with it."""
    return (*(reason_lines(facts, excuse, links) if excuse else ()),
            *(outcome_line(outcome, links) for outcome in outcomes if outcome.what is not What.NONE))


def row_of(facts: Facts, excuse: Excuse, links: Links) -> Row:
    """A source in a list of those that don't move."""
    outcomes = facts.outcomes.get(excuse.source, NOTHING)
    what = outcomes[-1].what
    return Row(excuse.source, excuse.testing or "", excuse.unstable, excuse.age, excuse.needed,
               old_enough(excuse, facts.date).isoformat(), words_of(excuse, what),
               word_of(reason_words(excuse), what), told_of(facts, excuse, outcomes, links))


def outcome_line(outcome: SourceOutcome, links: Links) -> Line:
    """What a run did with a source, with the package that would break as a link, and with the text of the hint."""
    names = {outcome.offender.package} if outcome.offender else set()
    pieces = linked(outcome_sentence(outcome), names, links.package)
    wish = links.hints.get(outcome.hint, "") if outcome.hint is not None else ""
    if wish:
        pieces.append(Piece(f" ({shortened(wish, 120)})"))
    return Line(tuple(pieces))


def change_line(change: reports.Change, links: Links) -> Line:
    """What a run did by a hint."""
    if change.outcome is reports.Outcome.ACCEPTED:
        return Line((Piece("accepted"),))
    if change.offender is not None:
        names, link = {change.offender.package}, links.package
    else:
        names, link = {change.items[0].source}, links.source
    return Line(tuple(linked("refused: " + refused_because(change), names, link)))


def moved_sentence(change: reports.Change) -> str:
    """How a source moved, or why it waits, after the word for it."""
    if change.offender is not None:
        return "since its move " + breaks(change.offender)
    return "alone" if change.hint is None else f"in the group of easy hint {change.hint}"


def source_of(facts: Facts, name: str, links: Links) -> Source:
    """What the page of a source shows."""
    outcomes = facts.outcomes.get(name, NOTHING)
    has_moved = outcomes[-1].what is What.ACCEPT
    excuse = None if has_moved else facts.excuses.get(name)
    why = why_of(facts, excuse) if excuse else None
    return Source(
        name, testing_version(facts, name), excuse.unstable if excuse else "",
        age_sentence(excuse, facts.date) if excuse else "", verdict_of(facts, name),
        () if has_moved else told_of(facts, excuse, outcomes, links),
        cut(lines_of(name, why.told, links), f"office-ask why {name}") if why else (),
        why.since if why else None,
        proposal_lines(facts, excuse), facts.binaries.get(name, ()), ways_out(facts, name, excuse),
        facts.last.get(name),
        wait_lines(facts, facts.waits.by_source.get(name, ()), links, lambda wait: wait.other),
        wait_lines(facts, facts.waits.by_other.get(name, ()), links, lambda wait: wait.source)[:MOST_WAITING],
        len(facts.waits.waiting.get(name, ())), people_of(facts, name), has_feed(facts, name))


def quiet_texts(facts: Facts, name: str) -> Sequence[str]:
    """All that the page of a quiet source shows, by which it is known to be as it was."""
    last, person = facts.last.get(name), facts.people.get(name)
    return (name, testing_version(facts, name), *facts.binaries.get(name, ()), "",
            *((str(last.run), *last.standing) if last else ()), "",
            *((person.maintainer, *person.uploaders) if person else ()))


def cut(lines: Sequence[Line], command: str) -> Sequence[Line]:
    """Lines of an answer, the first ones alone where they are many, with the command that prints all of them."""
    more = len(lines) - MOST_LINES
    return lines if more <= 0 else [*lines[:MOST_LINES], Line((Piece(f".. and {more} more lines: {command}"),))]


def verdict_of(facts: Facts, name: str) -> str:
    """The word for how a source stands. One that moved or was removed stands so until unstable has something newer."""
    excuse, what = facts.excuses.get(name), facts.outcomes.get(name, NOTHING)[-1].what
    if excuse is None and what is What.NONE:
        last = facts.last.get(name)
        before = outcome_in(last.outcome).what if last else What.NONE
        return OUTCOME_WORDS[before] if before in (What.ACCEPT, What.REMOVED) else ""
    return word_of(reason_words(excuse) if excuse else (), what)


def ways_out(facts: Facts, name: str, excuse: Optional[Excuse]) -> Sequence[Piece]:
    """Where to find more on a source."""
    version = excuse.unstable if excuse else testing_version(facts, name)
    ways = [Piece("Tracker", facts.patterns.source(name)), Piece("Builds", facts.patterns.logs(name)),
            Piece(f"Changelog of {version}", facts.patterns.changes(name, version) if version else "")]
    return tuple(way for way in ways if way.link)


def has_feed(facts: Facts, name: str) -> bool:
    """Whether a source has a feed: it has an excuse, or something happened to it since the first run."""
    last = facts.last.get(name)
    return name in facts.unmoved or (last is not None and last.run > facts.runs[0].number)


def people_of(facts: Facts, name: str) -> Sequence[Piece]:
    """The maintainer and the uploaders of a source; those with sources that don't move have a page."""
    person = facts.people.get(name)
    names = (person.maintainer, *person.uploaders) if person else ()
    return tuple(Piece(one, f"../people/{page_of(one)}.html" if name in facts.unmoved else "") for one in names)


def wait_lines(facts: Facts, waits: Sequence[Wait], links: Links, named: Callable[[Wait], str]) -> Sequence[Line]:
    """A line for each source at one end of these, by name: what its package needs, and its state."""
    found: dict[str, list[str]] = {}
    for wait in waits:
        found.setdefault(named(wait), []).append(wait.why)
    return [Line((Piece(name, links.source(name)), Piece(f": {'; '.join(whys)}{standing_behind(facts, name, whys)}"))
                 if name else (Piece("; ".join(whys)),)) for name, whys in sorted(found.items())]


def standing_behind(facts: Facts, name: str, whys: Sequence[str]) -> str:
    """How it stands with a source in brackets, unless the last reason tells that."""
    standing = standing_of(facts, name)
    return "" if whys[-1].endswith(f" {standing}") else f" ({standing})"


def standing_of(facts: Facts, name: str) -> str:
    """How it stands with a source, in words that stay from run to run as long as that does."""
    if name not in facts.standings:
        facts.standings[name] = standing_now(facts, name)
    return facts.standings[name]


def standing_now(facts: Facts, name: str) -> str:
    """The same, made."""
    excuse = facts.excuses.get(name)
    what = facts.outcomes.get(name, NOTHING)[-1].what
    if what is What.ACCEPT:
        return "moved"
    if what is What.REMOVED:
        return "removed from testing"
    if excuse is None:
        return "unstable has nothing newer" if testing_version(facts, name) else "not in testing"
    if excuse.is_candidate:
        return f"{excuse.unstable} waits"
    return f"{excuse.unstable} doesn't move: " + ", ".join(
        f"too young until {old_enough(excuse, facts.date)}" if reason.kind is ReasonKind.TOO_YOUNG else reason.text
        for reason in excuse.reasons)


def testing_version(facts: Facts, name: str) -> str:
    """The version in testing, if known."""
    if facts.testing is not None:
        return facts.testing.sources.get(name, "")
    excuse = facts.excuses.get(name)
    return excuse.testing or "" if excuse else ""


def age_sentence(excuse: Excuse, date: datetime.date) -> str:
    """How old a source has to be, by its day, which stays from run to run."""
    is_old = excuse.age >= excuse.needed
    return f"needs {excuse.needed} days: old enough {'since' if is_old else 'on'} {old_enough(excuse, date)}"


def history_of(facts: Facts, events: Sequence[Event]) -> Sequence[Standing]:
    """The state of a source from run to run, the newest first."""
    return [Standing(event.run, facts.dates.get(event.run, ""), event.testing, event.unstable,
                     event_pieces(event, facts), outcome_in(event.outcome).what is What.ACCEPT)
            for event in events[:MOST_EVENTS]]


def event_pieces(event: Event, facts: Facts) -> Sequence[Piece]:
    """What kept a source out, or what a run did with it, with bugs as links."""
    outcome = outcome_sentence(outcome_in(event.outcome))
    text = "; ".join(filter(None, [event.reasons, outcome])) or "No excuse any more"
    if NEW_BUG not in text:
        return (Piece(text),)
    parts = re.split(rf"(?<={NEW_BUG})(\d+)", text)
    return [Piece(part, facts.patterns.bug(part) if place % 2 else "") for place, part in enumerate(parts)]


def proposal_of(facts: Facts, excuse: Excuse) -> Optional[Proposal]:
    """What the office proposed for a source, if its excuse is the same except the age."""
    proposal = facts.proposals.get(excuse.source)
    return proposal if proposal is not None and proposal.excuse == without_age(excuse) else None


def proposal_lines(facts: Facts, excuse: Optional[Excuse]) -> Sequence[str]:
    """What the office proposes for a source that waits.

    That is the hint of its group, else what it answered for this source alone: the hints that it needs, and what shows
    that no group frees it.
    """
    is_waiting = excuse is not None and facts.outcomes.get(excuse.source, NOTHING)[-1].what is What.WAIT
    if excuse is None or facts.proposed is None or not is_waiting:
        return ()
    if excuse.source in facts.proposed:
        return (shortened(facts.proposed[excuse.source]),)
    proposal = proposal_of(facts, excuse)
    if proposal is None:
        return (NOT_ASKED,)
    told = [Line((Piece(shortened(line)),)) for line in proposal.told.splitlines()]
    return tuple(line.pieces[0].text for line in cut(told, f"office-ask propose {excuse.source}")) or (NO_GROUP,)


def offenders_of(facts: Facts, links: Links) -> Sequence[tuple[int, Piece, str]]:
    """The packages that sources wait for, those with the most sources first: how many, the package, and where."""
    counts = collections.Counter(outcomes[-1].offender for outcomes in facts.outcomes.values()
                                 if outcomes[-1].what is What.WAIT)
    ranked = sorted(counts.items(), key=lambda item: (-item[1], str(item[0])))
    return [(count, Piece(offender.package, links.package(offender.package)), offender.architecture)
            for offender, count in ranked if offender is not None]
