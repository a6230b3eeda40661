"""What has to be mended so that waiting sources move: the last line of what the office shows of each."""
from dataclasses import dataclass
from typing import Optional, Sequence

from office_tools.pages.outcomes import NOTHING, What
from office_tools.pages.told import Links, Piece, STEP
from office_tools.pages.views import Facts, proposal_of, why_of

NEEDS = " needs "


@dataclass(frozen=True)
class Mend:
    """A package, its source, and the clause of its dependencies that nothing meets."""

    package: str
    source: str
    clause: str


@dataclass(frozen=True)
class ToMend:
    """What has to be mended, and the sources that wait for it."""

    package: str
    source: Piece
    clause: str
    waiting: Sequence[Piece]


@dataclass(frozen=True)
class Mending:
    """What has to be mended, that with the most waiting sources first.

    `grouped` counts the waiting sources that a proposed group frees, `unknown` those without an answer of the office.
    """

    ranked: Sequence[ToMend]
    grouped: int
    unknown: int


def mend_in(told: str) -> Optional[Mend]:
    """What the last numbered line says that nothing meets: further up each line needs one of the lines below."""
    for text in reversed(told.splitlines()):
        step = STEP.fullmatch(text)
        if step:
            package = step[2].split(" ")[0]
            return Mend(package, step[3], step[4].partition(NEEDS)[2].removesuffix(": "))
    return None


def mend_of(facts: Facts, source: str) -> Optional[Mend]:
    """What has to be mended for a waiting source.

    What shows that no group frees it comes first, then what shows that it can't move alone.
    """
    excuse = facts.excuses[source]
    proposal, why = proposal_of(facts, excuse), why_of(facts, excuse)
    return (mend_in(proposal.told) if proposal else None) or (mend_in(why.told) if why else None)


def mending_of(facts: Facts, links: Links) -> Mending:
    """What has to be mended for all sources that wait."""
    found: dict[Mend, list[str]] = {}
    grouped = unknown = 0
    for source in facts.excuses:
        if facts.outcomes.get(source, NOTHING)[-1].what is not What.WAIT:
            continue
        mend = mend_of(facts, source)
        if source in (facts.proposed or ()):
            grouped += 1
        elif mend is None:
            unknown += 1
        else:
            found.setdefault(mend, []).append(source)
    ranked = sorted(found.items(), key=lambda item: (-len(item[1]), item[0].source, item[0].package, item[0].clause))
    return Mending([ToMend(mend.package, Piece(mend.source, links.source(mend.source)), mend.clause,
                           [Piece(name, links.source(name)) for name in names]) for mend, names in ranked],
                   grouped, unknown)
