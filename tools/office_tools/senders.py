"""The senders that these tools send as, and those of a running office.

Which one orders runs its next order says, the role of each one what the office answers to messages that it looks at and
doesn't keep.
"""
import datetime
from typing import Callable, Mapping, Sequence

from office_tools import messages
from office_tools.letters import GREATEST
from office_tools.messages import Label, Role, Severity, Urgency, label_of
from office_tools.service import Service
from office_tools.setups import Setup

UPLOADS, BUILDS, BUGS, HINTS, RUNS = "ftp", "bd", "bts", "rt", "clock"


def runs_sender(service: Service) -> str:
    """The sender of orders."""
    label = label_of(service.order(datetime.date(1970, 1, 1)))
    if label is None:
        raise service.strange("/order/1970-01-01")
    return label.sender


def in_turn(service: Service, senders: Sequence[str]) -> Sequence[str]:
    """The senders, that of orders first: so a ready run's mail is all present when its sender's turn comes."""
    runs = runs_sender(service)
    return sorted(senders, key=lambda sender: sender != runs)


ANY_BINARY = {"Package": "aa", "Version": "1", "Architecture": "all"}

SENT_BY: Mapping[Role, Callable[[Label], bytes]] = {
    Role.UPLOAD: lambda label: messages.upload(label, "aa", "1", Urgency.LOW, "1970-01-01"),
    Role.BUILD: lambda label: messages.build(label, [messages.binary(ANY_BINARY)]),
    Role.BUGS: lambda label: messages.bug(label, 1, "aa", Severity.WISHLIST),
    Role.RELEASE: lambda label: messages.hint(label, "block aa"),
    Role.RUNS: lambda label: messages.run(label, "1970-01-01", {})}
"""A message that a sender of this role alone may send."""


def has_role(service: Service, sender: str, role: Role) -> bool:
    """Whether a sender has a role: the office refuses what it may not send as `WrongRole`."""
    return service.verdict(SENT_BY[role](Label(sender, GREATEST))) != "refused WrongRole"


def sender_of(service: Service, role: Role) -> str:
    """The first sender of a role, found without mailing anything."""
    found = next((sender for sender in service.kept() if has_role(service, sender, role)), None)
    if found is None:
        raise service.strange("/lint")
    return found


def setup_of(service: Service) -> Setup:
    """The senders and their roles, in the setup's order. No route names the architectures: the setup here has none."""
    senders: dict[str, Role] = {}
    for sender in service.kept():
        role = next((role for role in SENT_BY if has_role(service, sender, role)), None)
        if role is None:
            raise service.strange("/lint")
        senders[sender] = role
    return Setup((), senders)
