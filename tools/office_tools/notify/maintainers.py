"""Who maintains a source: by the message that uploaded it, or by a file Sources of an archive."""
import re
from dataclasses import dataclass
from email.errors import MessageError
from email.headerregistry import Address
from typing import Mapping, Optional, Sequence

import apt_pkg

from office_tools.faults import Exit, naming
from office_tools.messages import ParagraphFault, paragraphs
from office_tools.service import Service

UPLOAD = re.compile(r"(?m)^upload (\S+) ([0-9]{1,9}) ")
MAINTAINER = re.compile(r"([^<>]*?)\s*<([^<>\s]+@[^<>\s]+)>")


def address_of(value: str) -> Optional[Address]:
    """The address in a field `Maintainer` (Debian Policy 5.6.2), or None if there is none that mail can go to."""
    value = " ".join(value.split())
    found = MAINTAINER.fullmatch(value)
    name, place = (found[1].strip('" '), found[2]) if found else ("", value)
    try:
        address = Address(name, addr_spec=place)
        return address if address.domain and address.username and place.isascii() else None
    except (MessageError, ValueError, IndexError):
        return None


def read_sources(paths: Sequence[str]) -> Mapping[str, str]:
    """The field `Maintainer` of each source of files Sources, which may be compressed as apt knows it."""
    found: dict[str, str] = {}
    for path in paths:
        with naming(path, Exit.NEGATIVE, apt_pkg.Error, ValueError), apt_pkg.TagFile(path) as paragraphs_of:
            for part in paragraphs_of:
                found[part.get("Package", "")] = part.get("Maintainer", "")
    return found


@dataclass
class Maintainers:
    """The maintainers of the sources of a running office."""

    service: Service
    sources: Mapping[str, str]

    def of(self, source: str) -> Optional[Address]:
        """The address for a source. The upload's own field comes before the file's."""
        for value in (self.uploaded(source), self.sources.get(source)):
            address = address_of(value) if value else None
            if address is not None:
                return address
        return None

    def uploaded(self, source: str) -> Optional[str]:
        """The field `Maintainer` of the message that gave unstable's version."""
        reply = self.service.get(f"/why/{source}")
        found = UPLOAD.search(reply.text) if reply.is_good else None
        text = self.service.kept_text(found[1], int(found[2])) if found else None
        try:
            first = next(paragraphs(text), None) if text else None
        except ParagraphFault:
            return None
        return first.value("Maintainer") if first else None
