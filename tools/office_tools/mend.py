"""office-mend: puts another text in place of a message of a bag, or takes a slip of a feed back."""
import argparse
import sys
from typing import Iterator, Sequence

from office_tools import bags, counts
from office_tools.faults import Exit, Fault, ending
from office_tools.files import read_bytes
from office_tools.messages import Label, label_of
from office_tools.undo import command as undo
from office_tools.undo.selection import slip

USAGE = """office-mend SENDER NUMBER FILE < BAG > BAG
       office-mend --undo SLIP [--undo SLIP ..] --conf SETUP --db STORE [--url URL] [--cache PATH ..] [--yes]"""


def mended(bag: bytes, label: Label, text: bytes) -> Iterator[bytes]:
    """The messages of a bag, with this text in place of that message."""
    found = False
    with ending(Exit.REFUSED, "standard input: "):
        for message in bags.messages_in(bag):
            is_meant = label_of(message) == label
            found = found or is_meant
            yield text if is_meant else message
    if not found:
        raise Fault(f"standard input: the bag has no message {label.sender} {label.number}", Exit.NEGATIVE)


def parser() -> argparse.ArgumentParser:
    """The command's words."""
    words = argparse.ArgumentParser(
        prog="office-mend", usage=USAGE,
        description="Prints the bag on standard input with another text in place of a message. With --undo it "
                    "makes an office without the drops and removal hints of a feed, prints how its runs and its "
                    "testing differ, and puts its store in place of the old one.",
        epilog="Status 0: the bag was printed, or the stores were exchanged. 1: there is no such message, or nothing "
               "was changed since nobody said so. 2: the words are wrong. 3: it is no whole bag, or the text is "
               "another message's, or the office without it would not finish all runs. 4: the program office failed, "
               "or the store is open.")
    words.add_argument("message", metavar="SENDER NUMBER FILE", nargs="*",
                       help="the sender of the message, its number, and the text that takes its place: a message of "
                            "the same sender and number")
    words.add_argument("--undo", metavar="SLIP", action="append", type=slip, default=[],
                       help="take back the drops and removal hints that the run of this number was the first to see, "
                            "or the runs of this day; or SENDER/N or SENDER/N-M: these messages; may be repeated")
    undo.add_words(words)
    return words


def main(words: Sequence[str]) -> int:
    """Prints the mended bag, or takes slips back."""
    known = parser()
    asked = known.parse_args(words)
    if asked.undo:
        if asked.message or not asked.conf or not asked.db:
            known.error("--undo needs --conf and --db, and no other message")
        return undo.main(asked)
    if len(asked.message) != 3 or not counts.FORM.fullmatch(asked.message[1]):
        known.error("name a message by SENDER NUMBER, and the FILE of its new text")
    sender, number, path = asked.message
    label = Label(sender, int(number))
    text = read_bytes(path)
    stated = label_of(text)
    if stated != label:
        told = f"{stated.sender} {stated.number}" if stated else "no message"
        raise Fault(f"{path}: it is {told}, and not {label.sender} {label.number}", Exit.REFUSED)
    sys.stdout.buffer.write(bags.bag_of(mended(sys.stdin.buffer.read(), label, text)))
    return 0
