"""The hints in force as the pages show them: the state of each, what runs did with it, and which may be taken back."""
import collections
import itertools
from dataclasses import dataclass
from typing import Iterable, Mapping, Optional, Sequence

from office_tools import messages, reports
from office_tools.counts import FORM
from office_tools.messages import Label
from office_tools.pages.fetching import NEXT_HINT, PROPOSED
from office_tools.pages.sentences import refused_because
from office_tools.pages.state import SentHint, State
from office_tools.pages.told import Links, Piece, shortened
from office_tools.reports import Change, HintItem, ItemStanding, Outcome, Update

MOST_ITEMS = 20  # items of one hint that are shown
MOST_NOTED = 500  # characters of a hint's comment that are shown
MOST_COPIED = 50_000  # characters of messages that a page shows; a file has all of them
A_PAGE = 100  # hints of a page
STALE_RUNS = 3  # a hint that so many runs in a row refused may be taken back
REFUSED = (Outcome.UNINSTALLABLE, Outcome.NO_CANDIDATE)


@dataclass(frozen=True)
class Refusal:
    """What the newest run refused a hint for, and since which run each one refuses it."""

    because: str
    run: int
    since: int

    @property
    def runs(self) -> int:
        """How many runs in a row refused it."""
        return self.run - self.since + 1

    @property
    def sentence(self) -> str:
        """What became of it."""
        since = f", and by each run since run {self.since}" if self.since < self.run else ""
        return f"refused by run {self.run}{since}: {self.because}"


@dataclass(frozen=True)
class ShownItem:
    """An item of a hint: the source, the rest of what the hint says of it, and its state."""

    source: Piece
    rest: str
    state: str


@dataclass(frozen=True)
class ShownHint:
    """A hint in force. `more` counts the items that aren't shown, by their state."""

    number: int
    words: str
    is_covered: bool
    items: Sequence[ShownItem]
    more: Mapping[str, int]
    note: str
    refusal: Optional[Refusal]
    stale: str


@dataclass(frozen=True)
class Copy:
    """A text that is ready to be copied: what it is for, and the message, or its line if no number is known."""

    title: str
    text: str


def pages_of(numbers: Iterable[int]) -> Mapping[int, str]:
    """The page of each hint in force: they are cut into pages of equal numbers of hints."""
    return {number: f"hints-{place // A_PAGE + 1}.html" if place >= A_PAGE else "hints.html"
            for place, number in enumerate(sorted(numbers))}


def first_copies(copies: Sequence[Copy]) -> Sequence[Copy]:
    """As many of these texts as a page shows."""
    sizes = itertools.accumulate(len(copy.text) for copy in copies)
    return [copy for copy, size in zip(copies, sizes) if size <= MOST_COPIED]


def refused_in(update: Update) -> Mapping[int, Change]:
    """The hints that a run refused."""
    return {change.hint: change for change in update.changes
            if change.hint is not None and change.outcome in REFUSED}


def refusals_of(state: State, newest: int, update: Update) -> Mapping[int, Refusal]:
    """The hints that the newest run refused. Earlier runs are read as long as they refused one of them, too."""
    refused = refused_in(update)
    since = dict.fromkeys(refused, newest)
    kept = {run.number for run in state.runs()}
    left, run = set(refused), newest - 1
    while left and run in kept:
        left &= set(refused_in(reports.read_update(state.run(run).update)))
        since.update(dict.fromkeys(left, run))
        run -= 1
    return {number: Refusal(refused_because(change), newest, since[number]) for number, change in refused.items()}


def state_of(item: HintItem) -> str:
    """The state of an item."""
    return f"unstable has {item.other}" if item.other else item.standing.value


def stale_because(items: Sequence[HintItem], refusal: Optional[Refusal]) -> str:
    """Why a hint may be taken back; empty if it may still ask something."""
    if refusal is not None and refusal.runs >= STALE_RUNS:
        return f"{refusal.runs} runs in a row refused it: {refusal.because}"
    standings = {item.standing for item in items}
    if ItemStanding.IN_FORCE in standings:
        return ""
    if standings == {ItemStanding.MOVED}:
        return "all that it names has moved"
    if standings == {ItemStanding.NO_SOURCE}:
        return "unstable has nothing that it names"
    return "nothing that it names is as it says: " + ", ".join(sorted({state_of(item) for item in items})[:3])


def shown_hints(items: Sequence[HintItem], sent: Mapping[int, SentHint], refusals: Mapping[int, Refusal],
                links: Links) -> Sequence[ShownHint]:
    """The hints in force, by their numbers."""
    by_number: dict[int, list[HintItem]] = {}
    for item in items:
        by_number.setdefault(item.number, []).append(item)
    return [ShownHint(number, of[0].words, of[0].is_covered, [shown_item(item, links) for item in of[:MOST_ITEMS]],
                      collections.Counter(map(state_of, of[MOST_ITEMS:])),
                      shortened(sent.get(number, SentHint()).note, MOST_NOTED),
                      refusals.get(number), stale_because(of, refusals.get(number)))
            for number, of in sorted(by_number.items())]


def shown_item(item: HintItem, links: Links) -> ShownItem:
    """An item, with the source as a link."""
    source, slash, version = item.item.partition("/")
    return ShownItem(Piece(source, links.source(source)), slash + version, state_of(item))


def proposed_lines(state: State, newest: int) -> Optional[Sequence[str]]:
    """The hints that the office proposes after the newest run; None if it wasn't asked."""
    told = state.told(PROPOSED)
    return told[1].splitlines() if told is not None and told[0] == newest else None


def next_label(state: State) -> Optional[Label]:
    """The sender of hints and its next number, if they are known."""
    told = state.told(NEXT_HINT)
    sender, _, number = told[1].partition(" ") if told else ("", "", "")
    return Label(sender, int(number)) if FORM.fullmatch(number) else None


def proposed_copies(lines: Sequence[str], label: Optional[Label]) -> Sequence[Copy]:
    """The messages of proposed hints, the first one under that number."""
    return [Copy("", messages.hint(behind(label, place), line).decode() if label else f"Kind: hint\nHint: {line}\n")
            for place, line in enumerate(lines)]


def unhint_copies(stale: Sequence[ShownHint], label: Optional[Label]) -> Sequence[Copy]:
    """The messages that take stale hints back, the first one under that number."""
    return [Copy(f"Hint {hint.number}: {hint.stale}", messages.unhint(behind(label, place), hint.number).decode()
                 if label else f"Kind: unhint\nCancels: {hint.number}\n") for place, hint in enumerate(stale)]


def behind(label: Label, place: int) -> Label:
    """The label of a message that many after another one."""
    return Label(label.sender, label.number + place)
