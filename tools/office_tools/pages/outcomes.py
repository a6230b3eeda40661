"""What a run did with each source, and the words by which its reasons are counted."""
import enum
import functools
import json
from dataclasses import dataclass
from typing import Iterable, Mapping, Optional, Sequence, Union

from office_tools import reports
from office_tools.faults import Fault
from office_tools.pages.state import UNREADABLE
from office_tools.reports import Change, Excuse, Offender, ReasonKind, Update, Word

REASON_WORDS: Mapping[ReasonKind, str] = {
    ReasonKind.TOO_YOUNG: "age",
    ReasonKind.NEW_BUG: "buggy",
    ReasonKind.NO_BINARIES: "no-binaries",
    ReasonKind.MISSING: "missingbuild",
    ReasonKind.BLOCKED: "block",
    ReasonKind.REMOVAL: "remove"}
"""A word for each kind of reason, by which scripts count."""


class What(enum.Enum):
    """What became of a source in a run."""

    ACCEPT = "accept"
    WAIT = "wait"
    REFUSED = "refused"
    REMOVED = "removed"
    NONE = "none"


@dataclass(frozen=True)
class SourceOutcome:
    """What became of a source.

    `hint` is the number of the hint by which it moved, was removed, or was refused; `word` is `easy` or `remove` where
    it was refused; `offender` is the package that its move or removal would leave uninstallable.
    """

    what: What
    hint: Optional[int] = None
    word: Optional[Word] = None
    offender: Optional[Offender] = None

    def as_json(self) -> Mapping[str, Union[str, int]]:
        """The outcome for a script."""
        told: dict[str, Union[str, int]] = {"what": self.what.value}
        if self.hint is not None:
            told["hint"] = self.hint
        if self.word is not None:
            told["kind"] = self.word.value
            told["because"] = "uninstallable" if self.offender else "not a candidate"
        if self.offender is not None:
            told |= {"arch": self.offender.architecture, "package": self.offender.package}
        return told


@functools.lru_cache(maxsize=None)
def outcome_text(outcome: SourceOutcome) -> str:
    """The text of what `as_json` writes."""
    return json.dumps(outcome.as_json())


@functools.lru_cache(maxsize=None)
def outcome_in(told: str) -> SourceOutcome:
    """The outcome that `as_json` wrote, from its text."""
    try:
        part = json.loads(told)
        if any(type(value) is not (int if name == "hint" else str) for name, value in part.items()):
            raise ValueError(told)
        offender = Offender(part["arch"], part["package"]) if "package" in part else None
        kind = Word(part["kind"]) if "kind" in part else None
        return SourceOutcome(What(part["what"]), part.get("hint"), kind, offender)
    except (AttributeError, KeyError, TypeError, ValueError, RecursionError) as fault:
        raise Fault(UNREADABLE) from fault


NOTHING = (SourceOutcome(What.NONE),)
"""What became of a source that no line of an update names."""


def outcome_of_change(change: Change) -> SourceOutcome:
    """What a line of an update says of each source that it names."""
    if change.outcome is reports.Outcome.ACCEPTED:
        what = What.REMOVED if change.word is Word.REMOVE else What.ACCEPT
        return SourceOutcome(what, change.hint)
    if change.outcome is reports.Outcome.WAITS:
        return SourceOutcome(What.WAIT, offender=change.offender)
    return SourceOutcome(What.REFUSED, change.hint, change.word, change.offender)


def outcomes_of(update: Update) -> Mapping[str, Sequence[SourceOutcome]]:
    """What each line of an update says of the sources that it names. Of several lines the last decides."""
    found: dict[str, list[SourceOutcome]] = {}
    for change in update.changes:
        outcome = outcome_of_change(change)
        for item in change.items:
            found.setdefault(item.source, []).append(outcome)
    return found


def reason_words(excuse: Excuse) -> Sequence[str]:
    """The words of an excuse's reasons in their order, each once."""
    return tuple(dict.fromkeys(REASON_WORDS[reason.kind] for reason in excuse.reasons))


def counted(words: Iterable[Sequence[str]]) -> Mapping[str, int]:
    """How many sources have each reason."""
    counts = dict.fromkeys(REASON_WORDS.values(), 0)
    for of_source in words:
        for word in of_source:
            counts[word] += 1
    return counts


def run_of(excuses: reports.Excuses, update: Update) -> reports.Run:
    """The line of a run in the list of runs, counted from its two reports."""
    done = [change for change in update.changes if change.outcome is reports.Outcome.ACCEPTED]
    return reports.Run(
        excuses.run, excuses.date, len(excuses.excuses), sum(excuse.is_candidate for excuse in excuses.excuses),
        sum(change.word is Word.ACCEPT for change in done), sum(change.word is Word.EASY for change in done),
        sum(change.word is Word.REMOVE for change in done), sum(change.word is Word.WAIT for change in update.changes))
