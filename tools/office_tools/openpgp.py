"""Whether an input is one signed message of OpenPGP alone (RFC 9580, sections 4, 6, 7 and 10.3).

gpgv checks the first message of an input and passes over what follows. So what follows is looked for here. No signature
is checked, and no text is taken from here.
"""
import base64
import binascii
import bz2
import re
import zlib
from dataclasses import dataclass
from typing import Iterator, Union

MARKER, PADDING = 10, 21
COMPRESSED, ONE_PASS, LITERAL, SIGNATURE = 8, 4, 11, 2
LONGEST = 4194304  # bytes of what is compressed; a message has far less
DEEPEST = 4  # how often compressed packets may stand in each other

BEGIN = re.compile(rb"^-----BEGIN PGP ([A-Z0-9 ,/]+)-----[ \t\r]*$", re.MULTILINE)
END = re.compile(rb"^-----END PGP [A-Z0-9 ,/]+-----[ \t\r]*$", re.MULTILINE)
CLEAR = [b"SIGNED MESSAGE", b"SIGNATURE"]


class Bad(Exception):
    """An input that isn't one message alone."""


@dataclass(frozen=True)
class Packet:
    """A packet: its kind, its body, and what follows it."""

    tag: int
    body: memoryview
    rest: memoryview


def is_one_message(data: bytes) -> bool:
    """Whether an input is one signed message: in armour, clear-signed, or of bytes as they are."""
    try:
        if data[:1] >= b"\x80":
            check(memoryview(data), DEEPEST)
        else:
            check_armour(data)
    except Bad:
        return False
    return True


def check_armour(data: bytes) -> None:
    """Looks at an input in armour; text round it is let be, unless another message could be in it."""
    kinds = [found[1] for found in BEGIN.finditer(data)]
    ends = list(END.finditer(data))
    if kinds not in (CLEAR, [b"MESSAGE"]) or not ends or max(data[ends[-1].end():], default=0) >= 0x80:
        raise Bad
    if kinds != CLEAR:
        begin = BEGIN.search(data)
        check(memoryview(dearmoured(data[begin.end() if begin else 0:ends[0].start()])), DEEPEST)


def dearmoured(part: bytes) -> bytes:
    """The bytes between the lines of an armour: after its fields and an empty line, without its checksum."""
    lines = [line.strip() for line in part.strip(b"\r\n \t").split(b"\n")]
    if any(b":" in line for line in lines):
        lines = lines[lines.index(b"") + 1 if b"" in lines else len(lines):]
    try:
        return base64.b64decode(b"".join(line for line in lines if not line.startswith(b"=")), validate=True)
    except binascii.Error as fault:
        raise Bad from fault


def check(data: memoryview, depth: int) -> None:
    """Looks at the packets of a message: one that is compressed, or a text with its signatures round it."""
    found: list[int] = []
    for packet in packets(data):
        if packet.tag == COMPRESSED and not found and depth:
            check(memoryview(decompressed(packet)), depth - 1)
        elif packet.tag not in (ONE_PASS, LITERAL, SIGNATURE):
            raise Bad
        found.append(packet.tag)
    if found == [COMPRESSED]:
        return
    before = found.index(LITERAL) if LITERAL in found else len(found)
    after = len(found) - before - 1
    one_pass = [ONE_PASS] * before + [LITERAL] + [SIGNATURE] * before
    older = [SIGNATURE] * before + [LITERAL]
    if not before or found != (one_pass if after > 0 else older):
        raise Bad


def packets(data: memoryview) -> Iterator[Packet]:
    """The packets of an input, except those that say nothing. The input isn't copied, as it may have many packets."""
    while data:
        packet = first(data)
        data = packet.rest
        if packet.tag not in (MARKER, PADDING):
            yield packet


def first(data: memoryview) -> Packet:
    """The first packet of an input."""
    head = data[0]
    if not head & 0x80:
        raise Bad
    if head & 0x40:
        body, rest = new_body(data[1:])
        return Packet(head & 0x3F, body, rest)
    tag, size = (head >> 2) & 0x0F, head & 0x03
    if size == 3:  # it has no length, and takes all that follows
        return Packet(tag, data[1:], data[len(data):])
    octets = 1 << size
    end = 1 + octets + int.from_bytes(data[1:1 + octets], "big")
    if len(data) < max(end, 1 + octets):
        raise Bad
    return Packet(tag, data[1 + octets:end], data[end:])


def new_body(data: memoryview) -> tuple[memoryview, memoryview]:
    """The body of a packet in the newer form, which may come in parts, and what follows it."""
    parts: list[memoryview] = []
    while data:
        head = data[0]
        is_part = 224 <= head < 255
        if head < 192:
            start, size = 1, head
        elif head < 224:
            start, size = 2, ((head - 192) << 8) + int.from_bytes(data[1:2], "big") + 192
        elif is_part:
            start, size = 1, 1 << (head & 0x1F)
        else:
            start, size = 5, int.from_bytes(data[1:5], "big")
        if len(data) < start + size:
            raise Bad
        parts.append(data[start:start + size])
        data = data[start + size:]
        if not is_part:
            return memoryview(b"".join(parts)), data
    raise Bad


def decompressed(packet: Packet) -> bytes:
    """What is compressed in a packet; bytes after the end of what is compressed are bad."""
    kind, data = packet.body[:1], packet.body[1:]
    if kind == b"\0":
        return bytes(data)
    stream: Union[bz2.BZ2Decompressor, "zlib._Decompress"]
    if kind == b"\x03":
        stream = bz2.BZ2Decompressor()
    elif kind in (b"\x01", b"\x02"):
        stream = zlib.decompressobj(-zlib.MAX_WBITS if kind == b"\x01" else zlib.MAX_WBITS)
    else:
        raise Bad
    try:
        found = stream.decompress(data, LONGEST)
    except (zlib.error, OSError, ValueError) as fault:
        raise Bad from fault
    if not stream.eof or stream.unused_data:
        raise Bad
    return found
