"""The setup of an office: the architectures that it decides for, and who may send it mail."""
from dataclasses import dataclass
from typing import Mapping, Sequence

from office_tools.faults import Exit, Fault, ending
from office_tools.files import read_bytes
from office_tools.messages import Paragraph, Role, composed, paragraphs


@dataclass(frozen=True)
class Setup:
    """The architectures in listed order, and each sender's role, in the setup's order."""

    architectures: Sequence[str]
    senders: Mapping[str, Role]

    def senders_of(self, role: Role) -> Sequence[str]:
        """The senders of a role, in the setup's order."""
        return [sender for sender, has in self.senders.items() if has is role]

    def sender_of(self, role: Role) -> str:
        """The first sender of a role. Each of the roles bugs, release and runs has exactly one."""
        found = self.senders_of(role)
        if not found:
            raise Fault(f"the setup has no sender of the role {role.value}")
        return found[0]


def parse(text: bytes) -> Setup:
    """The setup that a text states. What only the office would refuse, such as a bad name, is taken as it is."""
    first, *others = list(paragraphs(text)) or [Paragraph(1, ())]
    senders: dict[str, Role] = {}
    for paragraph in others:
        senders[needed(paragraph, "Sender")] = role_of(needed(paragraph, "Role"))
    return Setup(needed(first, "Architectures").split(), senders)


def read_setup(path: str) -> Setup:
    """The setup that a file states; `-` is standard input."""
    text = read_bytes(path)
    with ending(Exit.NEGATIVE, f"{path}: "):
        return parse(text)


def needed(paragraph: Paragraph, name: str) -> str:
    """The value of a field that has to be there."""
    value = paragraph.value(name)
    if value is None:
        raise Fault(f"line {paragraph.line}: the setup's paragraph has no field {name}")
    return value


def role_of(word: str) -> Role:
    """The role that a word names."""
    try:
        return Role(word)
    except ValueError as fault:
        raise Fault(f"the setup has a role that there isn't: {word!r}") from fault


def written(setup: Setup) -> bytes:
    """The text of a setup."""
    parts = [composed([("Architectures", " ".join(setup.architectures))])]
    parts += [composed([("Sender", sender), ("Role", role.value)]) for sender, role in setup.senders.items()]
    return b"\n".join(parts)
