"""Sentences for what the reports say in words of the office."""
import datetime
from typing import Mapping, Sequence

from office_tools.pages.outcomes import SourceOutcome, What
from office_tools.reports import Change, Excuse, Offender, Reason, ReasonKind, Word

REASON_TITLES: Mapping[str, str] = {
    "age": "too young",
    "buggy": "new release-critical bug",
    "no-binaries": "no binary package of this version",
    "missingbuild": "missing on an architecture",
    "block": "blocked by a hint",
    "remove": "a hint asks for its removal"}

OUTCOME_TITLES: Mapping[str, str] = {
    "wait": "waits, since its move would break a package",
    "refused": "a hint for it was refused",
    "removed": "removed from testing",
    "none": "nothing was tried"}

LIST_TITLES: Mapping[str, str] = {
    **REASON_TITLES, **OUTCOME_TITLES, "young": "too young, and nothing else", "rejected": "something to mend",
    "gone": "taken out of the archive"}
"""What the lists of sources that don't move are called."""


def reason_sentence(reason: Reason, excuse: Excuse) -> str:
    """What a reason says, for people."""
    if reason.kind is ReasonKind.TOO_YOUNG:
        return f"Too young, only {excuse.age} of {excuse.needed} days old"
    if reason.kind is ReasonKind.NEW_BUG:
        return f"New release-critical bug: {reason.bug}"
    if reason.kind is ReasonKind.NO_BINARIES:
        return "No binary package of this version is built"
    if reason.kind is ReasonKind.MISSING:
        return f"Missing on {reason.architecture}: no binary package of this version is built there"
    if reason.kind is ReasonKind.BLOCKED:
        return "Blocked by a hint"
    return "A hint asks for its removal"


def excuse_sentences(excuse: Excuse) -> Sequence[str]:
    """The sentences of an excuse: its age, and each reason."""
    told = [reason_sentence(reason, excuse) for reason in excuse.reasons]
    if any(reason.kind is ReasonKind.TOO_YOUNG for reason in excuse.reasons):
        return told
    return [f"{excuse.age} days old (needed {excuse.needed} days)", *told]


def breaks(offender: Offender) -> str:
    """What speaks against a change."""
    return f"would leave {offender.package} uninstallable on {offender.architecture}"


def refused_because(change: Change) -> str:
    """Why a run refused a hint."""
    if change.offender is not None:
        return "it " + breaks(change.offender)
    item = change.items[0]
    return f"{item.source} {item.version} isn't a candidate"


def outcome_sentence(outcome: SourceOutcome) -> str:
    """What a run did with a source; empty if its update doesn't name it."""
    if outcome.what is What.NONE:
        return ""
    if outcome.what is What.WAIT and outcome.offender:
        return "Waits: its move " + breaks(outcome.offender)
    if outcome.what is What.REMOVED:
        return f"Remove hint {outcome.hint}: accepted"
    if outcome.what is What.ACCEPT:
        return "Migrated in this run" if outcome.hint is None else f"Easy hint {outcome.hint}: accepted"
    because = breaks(outcome.offender) if outcome.offender else "not a candidate"
    word = Word.REMOVE if outcome.word is Word.REMOVE else Word.EASY
    return f"{word.value.capitalize()} hint {outcome.hint}: refused, {because}"


def old_enough(excuse: Excuse, date: datetime.date) -> datetime.date:
    """The day on which a source has the age that it needs, if the days needed stay."""
    days = excuse.needed - excuse.age
    try:
        return date + datetime.timedelta(days=days)
    except OverflowError:
        return datetime.date.max if days > 0 else datetime.date.min
