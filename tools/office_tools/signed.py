"""office-signed: posts a signed message as the sender whose key signed it."""
import argparse
import functools
import os
import resource
import signal
import subprocess
import sys
import tempfile
from dataclasses import dataclass
from pathlib import Path
from typing import Sequence

from office_tools import bags, processes
from office_tools.faults import Exit, Fault, ending
from office_tools.files import digest_of, read_bytes, write_whole
from office_tools.messages import label_of, paragraphs
from office_tools.openpgp import is_one_message
from office_tools.service import is_held, service_at

LONGEST = 1048576  # bytes of a signed message that are read


@dataclass(frozen=True)
class Opened:
    """The senders whose keys signed a message, and the text that was signed."""

    senders: Sequence[str]
    text: bytes

    @property
    def sender(self) -> str:
        """Whose message it is: of the sender that it states if that one signed it, else of the first who did."""
        label = label_of(self.text)
        return label.sender if label is not None and label.sender in self.senders else self.senders[0]


def opened(signed: bytes, keys: Path) -> Opened:
    """Who signed a message: the keys of a sender are in SENDER.gpg of `keys`. Each of its signatures has to be good.

    If a key is unknown, a `Fault` says what gpgv says.
    """
    rings = [key.resolve() for key in sorted(keys.glob("*.gpg"))]
    with tempfile.TemporaryDirectory() as folder:
        letter = Path(folder, "signed")
        letter.write_bytes(signed)
        text = checked(letter, rings) if rings else None
        senders = [ring.stem for ring in rings if text is not None and is_signed_by(letter, ring)]
    if text is None or not senders:
        raise Fault("no key fits", Exit.NEGATIVE)
    if not is_one_message(signed):
        raise Fault("it isn't one signed message alone: send each on its own", Exit.REFUSED)
    return Opened(senders, text)


def checked(letter: Path, rings: Sequence[Path]) -> bytes:
    """The text that keys of these keyrings signed. A longer text than a message has is refused."""
    output = letter.with_name("text")
    ran = gpgv([*(word for ring in rings for word in ("--keyring", str(ring))), "--output", str(output), str(letter)])
    if ran.returncode == -signal.SIGXFSZ:
        raise Fault(f"no key fits\nthe text has more than {bags.LONGEST} bytes", Exit.NEGATIVE)
    if ran.returncode:
        raise Fault(f"no key fits\n{processes.text(ran.stderr).strip()}", Exit.NEGATIVE)
    return read_bytes(str(output))


def is_signed_by(letter: Path, ring: Path) -> bool:
    """Whether a key of a keyring made a good signature."""
    told = gpgv(["--status-fd", "1", "--keyring", str(ring), str(letter)]).stdout
    return any(line.startswith(b"[GNUPG:] GOODSIG ") for line in told.splitlines())


def gpgv(words: Sequence[str]) -> "subprocess.CompletedProcess[bytes]":
    """Runs gpgv with these words."""
    # No file grows over what a message may have, so that a small letter can't fill the disk.
    limited = functools.partial(resource.setrlimit, resource.RLIMIT_FSIZE, (bags.LONGEST, bags.LONGEST))
    return processes.ended(["gpgv", "-q", *words], preexec_fn=limited)


def look_at(found: Opened, office: str) -> None:
    """A text that is for another office is a `Fault`. Whether it is its key's sender's is for the office to say."""
    with ending(Exit.REFUSED):
        first = next(paragraphs(found.text), None)
    named = first.value("Office") if first else None
    if named != office:
        raise Fault(f"it is for {named or 'no named office'}, and not for {office}", Exit.REFUSED)


def parser() -> argparse.ArgumentParser:
    """The command's words."""
    words = argparse.ArgumentParser(
        prog="office-signed",
        description="Posts the signed message on standard input as the sender whose key signed it.",
        epilog="Status 0: it is held. 1: no key fits. 2: the words are wrong. 3: it isn't one message alone, or it is "
               "for another office, or from another sender than the key's, or the office refused it. 4: no office "
               "answers, or the signed message couldn't be kept.")
    words.add_argument("keys", metavar="KEYS", type=Path,
                       help="the folder of the keyrings: SENDER.gpg has the keys of SENDER")
    words.add_argument("office", metavar="OFFICE",
                       help="the office's name, which the message states in its field Office")
    words.add_argument("url", metavar="URL", help="the service")
    words.add_argument("--keep", metavar="FOLDER", type=Path,
                       help="the folder that keeps what was signed (signed, next to KEYS)")
    return words


def main(words: Sequence[str]) -> int:
    """Checks the message, posts its text, and keeps what was signed."""
    asked = parser().parse_args(words)
    if not asked.keys.is_dir():
        raise Fault(f"{asked.keys}: there is no such folder", Exit.USAGE)
    service = service_at(asked.url)
    signed = sys.stdin.buffer.read(LONGEST + 1)
    if len(signed) > LONGEST:
        raise Fault(f"it has more than {LONGEST} bytes", Exit.REFUSED)
    found = opened(signed, asked.keys)
    look_at(found, asked.office)
    reply = service.mailed(found.text, found.sender)
    print(reply)
    if not is_held(reply):
        return Exit.REFUSED
    keep = asked.keep or asked.keys.resolve().parent / "signed"
    kept = os.path.join(keep, f"{found.sender}-{digest_of(found.text)}")
    with ending(Exit.FAILED):
        write_whole(kept, signed)
    return 0
