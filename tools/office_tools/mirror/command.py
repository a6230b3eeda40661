"""office-mirror: brings the mail of one office to others."""
import argparse
import sys
from typing import Optional, Sequence

from office_tools.faults import Exit, Fault, tell
from office_tools.mirror import held as memory
from office_tools.mirror.turn import Turn
from office_tools.service import Service, service_at

NAME = "office-mirror"
BAG = "-"


def parser() -> argparse.ArgumentParser:
    """The command's words."""
    words = argparse.ArgumentParser(
        prog=NAME, description="Brings to each office TO all mail that the office FROM keeps.",
        epilog="Status 0: each TO holds all of it. 1: one keeps another text of some number, which it prints. 2: the "
               "words are wrong. 3: one refused something else. 4: an office didn't answer, or the bag isn't whole. "
               "The greatest one of all TO counts.")
    words.add_argument("--state", metavar="FOLDER", help="remembers what each TO held, so that it isn't sent again")
    words.add_argument("--all", action="store_true", help="forgets what FOLDER remembers, and sends all of it again")
    words.add_argument("source", metavar="FROM", help="the URL of an office")
    words.add_argument("targets", metavar="TO", nargs="+", help="the URL of another one, or - for a bag")
    return words


def turn(source: Service, target: str, state: Optional[str], is_all: bool) -> Exit:
    """Brings all mail to one office, or into the bag, and prints how much was sent."""
    if target == BAG:
        done = Turn(lambda what: tell(NAME, what))
        done.to_bag(source, sys.stdout.buffer)
        tell(NAME, f"{done.sent} messages in the bag")
        return done.status
    other = service_at(target)
    path = memory.place_of(state, source.url, other.url) if state else None
    held = memory.read(path) if path and not is_all else {}
    done = Turn(lambda what: tell(NAME, what), lambda: memory.write(path, held) if path else None)
    try:
        done.to_office(source, other, held)
    finally:
        if path:
            memory.write(path, held)
        tell(NAME, f"{other.url}: sent {done.sent}")
    return done.status


def main(words: Sequence[str]) -> int:
    """Brings the mail to each office in turn; one that doesn't answer keeps no other one from its mail."""
    asked = parser().parse_args(words)
    source = service_at(asked.source)
    status: int = Exit.DONE
    for target in asked.targets:
        try:
            status = max(status, turn(source, target, asked.state, asked.all))
        except Fault as fault:
            tell(NAME, fault.cause)
            status = max(status, fault.status)
    return status
