"""Verdicts: the words of the JSON, and the one word by which the pages give the state of a source."""
from typing import Collection, Mapping, Sequence

from office_tools.pages.outcomes import reason_words, What
from office_tools.reports import Excuse, ReasonKind

PASS = "PASS"
APPROVAL = "REJECTED_NEEDS_APPROVAL"
TEMPORARILY = "REJECTED_TEMPORARILY"
PERMANENTLY = "REJECTED_PERMANENTLY"

WORDS: Mapping[str, str] = {TEMPORARILY: "young", APPROVAL: "blocked", PERMANENTLY: "rejected"}
"""The word of a source that isn't a candidate, by the JSON's verdict."""

OUTCOME_WORDS: Mapping[What, str] = {
    What.ACCEPT: "moved", What.REMOVED: "removed", What.WAIT: "waits", What.REFUSED: "refused", What.NONE: "ready"}
"""The word of a candidate, and of a source that moved or was removed, by the JSON's outcome."""

TITLES: Mapping[str, str] = {
    "waits": "a candidate, but its move would break a package",
    "young": "time alone keeps it out",
    "blocked": "the release team keeps it out",
    "rejected": "its maintainer has something to mend"}
"""What the words of sources that don't move say, in the order of the overview."""

LISTS: Mapping[str, str] = {"waits": "wait", "young": "young", "blocked": "block", "rejected": "rejected"}
"""The word of the list that has the sources of a verdict."""


GONE = "gone"  # the list of the sources that were taken out of the archive


def verdict(words: Collection[str]) -> str:
    """What keeps a source out: nothing, the release team, time alone, or what its maintainer has to mend."""
    if not words:
        return PASS
    if "block" in words:
        return APPROVAL
    return TEMPORARILY if set(words) == {"age"} else PERMANENTLY


def word_of(words: Sequence[str], what: What) -> str:
    """The one word for the state of a source, from its reasons' words and from what the run did with it."""
    if what in (What.ACCEPT, What.REMOVED) or not words:
        return OUTCOME_WORDS[what]
    return WORDS[verdict(words)]


def is_gone(excuse: Excuse) -> bool:
    """Whether a source was taken out of the archive: it has no package, isn't in testing, and its removal is asked."""
    kinds = {reason.kind for reason in excuse.reasons}
    return excuse.testing is None and {ReasonKind.NO_BINARIES, ReasonKind.REMOVAL} <= kinds


def words_of(excuse: Excuse, what: What) -> Sequence[str]:
    """The words by which lists are cut: those of its reasons, of its outcome, and of its verdict.

    A source that was taken out of the archive is in a list of its own alone.
    """
    if is_gone(excuse):
        return (GONE,)
    reasons = reason_words(excuse)
    return tuple(dict.fromkeys([*reasons, what.value, word_of(reasons, what)]))
