"""Hints that a running office tries: what they would change in a next run over all mail."""
import datetime
import http.client
import re
from dataclasses import dataclass
from typing import Sequence

from office_tools.faults import Exit, Fault
from office_tools.messages import Label
from office_tools.service import Service

HEAD = re.compile(r"try ([0-9]{1,9}) ([0-9]{4}-[0-9]{2}-[0-9]{2}) (\S+) ([0-9]{1,9}) (.*)")
CHANGE = re.compile(r"[-+](excuse|update|testing) ")  # a line of excuses, update or testing that comes or goes
REFUSAL = re.compile(r"\+update ((?:easy|remove) [0-9]{1,9} refuse .*)")


@dataclass(frozen=True)
class Trial:
    """What the office says of hints that aren't mailed.

    `first` is the label that the first of them would have, `heads` the lines that name them, `lines` all others.
    """

    first: Label
    heads: Sequence[str]
    lines: Sequence[str]

    @property
    def doubts(self) -> Sequence[str]:
        """Why the hints are most likely no good: the run refuses one, or decides the same without them."""
        refused = [found[1] for found in map(REFUSAL.fullmatch, self.lines) if found]
        if not any(map(CHANGE.match, self.lines)):
            return ["the next run would decide the same without it"]
        return [f"the next run would say: {line}" for line in refused]


def lines_of(hints: Sequence[str]) -> bytes:
    """The body that tries hints. A single one has no line end: so a service takes a group of any size."""
    return (hints[0] if len(hints) == 1 else "".join(hint + "\n" for hint in hints)).encode()


def trial(service: Service, hints: Sequence[str], day: datetime.date) -> Trial:
    """Tries hints, each of one line, in the next run on a day. A hint that is refused is a `Fault` of status 3."""
    path = f"/try/{day.isoformat()}"
    reply = service.post(path, lines_of(hints))
    if reply.status == http.client.BAD_REQUEST and reply.text.startswith("'"):
        raise Fault(reply.text, Exit.REFUSED)
    lines = service.body(path, reply).decode(errors="backslashreplace").splitlines()
    head = HEAD.fullmatch(lines[0]) if lines else None
    if head is None:
        raise service.strange(path)
    return Trial(Label(head[3], int(head[4])), lines[:len(hints)], lines[len(hints):])
