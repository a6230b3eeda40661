"""Asks an office for what isn't kept yet: each run once, testing and answers about sources once a run."""
import datetime
import functools
import time
from dataclasses import dataclass
from typing import Collection, Iterable, Mapping, Optional, Sequence

from office_tools import reports
from office_tools.counts import FORM
from office_tools.faults import Fault, tell
from office_tools.pages.offices import finished_in, NAME, Office
from office_tools.pages.outcomes import NOTHING, outcome_in, outcome_text, outcomes_of, SourceOutcome, What
from office_tools.pages.state import Event, KeptRun, Proposal, SentHint, State, Why
from office_tools.pages.told import behind_excuse
from office_tools.reports import Excuse

AT_ONCE = 100  # answers about sources that are kept at once
HINTS, PROPOSED, NEXT_HINT = "hints", "proposed", "next hint"  # what is kept as it was told
TURNS = 3  # how often testing is asked for, if a run is finished between two questions


@dataclass(frozen=True)
class Newest:
    """A run, such as the newest one. Its reports are read once they are looked at."""

    kept: KeptRun

    @property
    def number(self) -> int:
        """The run's number."""
        return self.kept.run.number

    @functools.cached_property
    def excuses(self) -> reports.Excuses:
        """Its excuses."""
        return reports.read_excuses(self.kept.excuses, f"excuses {self.number}")

    @functools.cached_property
    def update(self) -> reports.Update:
        """Its update."""
        return reports.read_update(self.kept.update, f"update {self.number}")

    @functools.cached_property
    def outcomes(self) -> Mapping[str, Sequence[SourceOutcome]]:
        """What it did with each source that its update names."""
        return outcomes_of(self.update)


def fetch(office: Office, state: State) -> Optional[Newest]:
    """Fetches and keeps the reports that aren't kept yet, and returns the newest run; None if no run is finished."""
    for _ in range(TURNS):
        newest = fetch_runs(office, state)
        if newest is None:
            return None
        if fetch_testing(office, state, newest.number):
            fetch_told(office, state, newest.number)
            fetch_hints(office, state)
            fetch_unstable(office, state, newest.number)
            return newest
    raise Fault(f"a run was finished between two questions, {TURNS} times in a row")


def fetch_runs(office: Office, state: State) -> Optional[Newest]:
    """Keeps each run that the office has and that isn't kept; gives the newest one, if there is one."""
    told = {run.number: run for run in office.runs()}
    if not told:
        return None
    first = min(told)
    other = next((run.number for run in state.runs() if run.number >= first and told.get(run.number) != run), None)
    if other is not None:
        tell(NAME, f"run {other} isn't the one that was kept: it and all later ones are fetched again")
        state.drop_from(other)
    kept = {run.number for run in state.runs()}
    newest: Optional[Newest] = None
    for number in sorted(set(told) - kept):
        newest = fetch_run(office, state, told[number])
    greatest = max(kept | set(told))
    return newest if newest is not None and newest.number == greatest else Newest(state.run(greatest))


def fetch_run(office: Office, state: State, run: reports.Run) -> Newest:
    """Keeps a run with its events, and gives it."""
    now = datetime.datetime.now(datetime.timezone.utc).strftime("%Y-%m-%dT%H:%M:%SZ")
    kept = KeptRun(run, now, office.report(run.number, "excuses"), office.report(run.number, "update"))
    read = Newest(kept)
    if (read.excuses.run, read.excuses.date, read.update.run) != (run.number, run.date, run.number):
        raise Fault(f"the office returned the reports of another run instead of run {run.number}")
    events = events_of(read, state.last_events())
    state.add(kept, events, {change.hint for change in read.update.changes if change.hint is not None})
    return read


def events_of(read: Newest, last: Mapping[str, Event]) -> Mapping[str, Event]:
    """An event of each source whose state differs from that in its last event."""
    outcomes = read.outcomes
    excuses = {excuse.source: excuse for excuse in read.excuses.excuses}
    # If a source neither moved nor is named any more, that is an event, too.
    open_ones = (source for source, event in last.items() if event.standing != GONE and not has_moved(event))
    found = {}
    for source in dict.fromkeys([*excuses, *outcomes, *open_ones]):
        event = event_of(read.number, excuses.get(source), outcomes.get(source, NOTHING)[-1])
        before = last.get(source)
        if before is None or before.standing != event.standing:
            found[source] = event
    return found


def event_of(run: int, excuse: Optional[Excuse], outcome: SourceOutcome) -> Event:
    """The state of a source in a run."""
    told = outcome_text(outcome)
    if excuse is None:
        return Event(run, "", "", "", told)
    reasons = ", ".join(reason.text for reason in excuse.reasons)
    return Event(run, excuse.testing or "-", excuse.unstable, reasons, told)


GONE = event_of(0, None, NOTHING[-1]).standing


def has_moved(event: Event) -> bool:
    """Whether the source is where the event has it: it moved, or was removed."""
    return outcome_in(event.outcome).what in (What.ACCEPT, What.REMOVED)


def fetch_testing(office: Office, state: State, newest: int) -> bool:
    """Keeps what is in testing after the newest run; returns whether the office gave that of this run, or can't."""
    kept = state.suite("testing")
    if kept is not None and kept[0] == newest:
        return True
    told = office.testing()
    if told is None:
        return True
    finished = finished_in(told)
    if finished == newest:
        state.keep_testing(newest, told)
    return finished == newest


def fetch_told(office: Office, state: State, newest: int) -> None:
    """Keeps the hints in force as they are now, and what is proposed after the newest run, if available."""
    hints = office.hints()
    if hints is not None:
        state.keep_told(HINTS, newest, hints)
        read = reports.read_hints(hints)
        state.ask_hints({item.number for item in read.items})
        label = office.next_hint(read.sender) if read.sender else None
        state.keep_told(NEXT_HINT, newest, f"{label.sender} {label.number}" if label else "")
    proposed = state.told(PROPOSED)
    if proposed is None or proposed[0] != newest:
        told = office.proposed()
        if told is not None:
            state.keep_told(PROPOSED, newest, told)


def without_age(excuse: Excuse) -> str:
    """What an excuse says except its age, which changes from day to day."""
    return " ".join([excuse.testing or "-", excuse.unstable, str(excuse.needed),
                     *(reason.text for reason in excuse.reasons)])


def fetch_unstable(office: Office, state: State, newest: int) -> None:
    """Keeps what is in unstable, once a run. An answer after a later run waits for the next call."""
    kept = state.suite("unstable")
    if kept is not None and kept[0] == newest:
        return
    told = office.unstable()
    if told is not None and told.startswith(f"unstable {newest}\n"):
        state.keep_suite("unstable", newest, told)


def sources_to_ask(newest: Newest, whys: Mapping[str, Why]) -> Sequence[str]:
    """The sources of the newest run that don't move and weren't asked about after it.

    First come those whose excuse is another than it was when they were asked about. Of the others the answer may be the
    same still: those that were asked about longest ago come first. Of each sort those that wait come first, since only
    the office knows what holds them.
    """
    outcomes = newest.outcomes
    ranked = []
    for excuse in newest.excuses.excuses:
        outcome = outcomes.get(excuse.source, NOTHING)[-1]
        why = whys.get(excuse.source)
        if outcome.what is What.ACCEPT or (why is not None and why.run == newest.number):
            continue
        asked = why.run if why is not None and why.excuse == without_age(excuse) else 0
        ranked.append((asked, outcome.what is not What.WAIT, excuse.source))
    return [source for _, _, source in sorted(ranked)]


def fetch_answers(office: Office, state: State, newest: Newest, seconds: float) -> Collection[str]:
    """Asks about sources for at most that many seconds, and for the named hints, and returns these sources.

    The next call asks about the rest.
    """
    if state.asked() == newest.number:
        return set()
    excuses = {excuse.source: without_age(excuse) for excuse in newest.excuses.excuses}
    names: set[str] = set()
    found: dict[str, Why] = {}
    before = state.whys()
    end = time.monotonic() + seconds
    for source, told in office.why(sources_to_ask(newest, before), end):
        # If a run was finished meanwhile, the answer is on that one, which the next call fetches.
        if not told.startswith(f"why {newest.number} "):
            break
        last = before.get(source)
        is_same = last is not None and behind_excuse(source, last.told) == behind_excuse(source, told)
        since = last.since if last is not None and is_same else newest.number
        found[source] = Why(newest.number, since, excuses[source], told)
        names.add(source)
        if len(found) == AT_ONCE:
            keep_answers(state, found)
            found = {}
    keep_answers(state, found)
    fetch_hints(office, state)
    names |= fetch_proposals(office, state, newest, end)
    if not sources_to_ask(newest, state.whys()) and not proposals_to_ask(state, newest):
        state.keep_asked(newest.number)
    return names


def proposals_to_ask(state: State, newest: Newest) -> Sequence[Excuse]:
    """The sources that wait, that no hint of the newest run names, and for which nothing was asked after that run.

    Those for which the office was asked longest ago come first.
    """
    proposed = state.told(PROPOSED)
    if proposed is None:
        return ()
    grouped, outcomes = sources_in(proposed[1]), newest.outcomes
    asked = {source: proposal.run for source, proposal in state.proposals().items()}
    waiting = [excuse for excuse in newest.excuses.excuses
               if excuse.source not in grouped and outcomes.get(excuse.source, NOTHING)[-1].what is What.WAIT
               and asked.get(excuse.source) != newest.number]
    return sorted(waiting, key=lambda excuse: asked.get(excuse.source, 0))


def fetch_proposals(office: Office, state: State, newest: Newest, until: float) -> set[str]:
    """Asks until that time what is proposed for sources that wait and that no hint of the newest run names."""
    kept = state.proposals()
    found: dict[str, Proposal] = {}
    for excuse in proposals_to_ask(state, newest):
        if time.monotonic() >= until:
            break
        told = office.proposed(excuse.source)
        if told is None:
            break
        found[excuse.source] = Proposal(newest.number, without_age(excuse), told)
    state.keep_proposals(found)
    return {source for source, proposal in found.items()
            if source not in kept or (kept[source].excuse, kept[source].told) != (proposal.excuse, proposal.told)}


def sources_in(proposed: str) -> Mapping[str, str]:
    """The hint of each source in one of these hints, given one a line."""
    return {item.partition("/")[0]: line for line in proposed.splitlines() for item in line.split(" ")[1:]}


def keep_answers(state: State, whys: Mapping[str, Why]) -> None:
    """Keeps answers, and which hints they name."""
    if whys:
        state.keep_whys(whys, {number for why in whys.values() for number in hints_named(why.told.splitlines())})


def fetch_hints(office: Office, state: State) -> None:
    """Asks for each hint that is wanted, once."""
    found = {number: office.hint(number) or SentHint() for number in state.wanted_hints()}
    if found:
        state.keep_hints(found)


def hints_named(lines: Iterable[str]) -> Iterable[int]:
    """The numbers of the hints that the lines of an answer name as messages."""
    for line in lines:
        words = line.split(" ")
        if len(words) > 3 and words[-3] == "by" and FORM.fullmatch(words[-1]) and line.startswith(
                ("blocked ", "removal asked ", "old enough ")):
            yield int(words[-1])
