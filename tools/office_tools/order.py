"""office-order: the next order of a running office, over all mail that it keeps without a gap."""
import argparse
import datetime
import sys
from typing import Iterator, Mapping, Sequence

from office_tools.days import day, today
from office_tools.faults import Exit, Fault
from office_tools.messages import label_of, paragraphs
from office_tools.service import DEFAULT_URL, Kept, Service, is_held, service_at


def parser() -> argparse.ArgumentParser:
    """The command's words."""
    words = argparse.ArgumentParser(
        prog="office-order",
        description="Prints the next order of a running office, over all mail that it keeps without a gap.",
        epilog="Status 0: it was printed, or with --send held. 2: the words are wrong. 3: refused, by the office or "
               "since the day or a gap isn't allowed. 4: no office answers.")
    words.add_argument("day", nargs="?", type=day, default=today(), metavar="DAY",
                       help="the day of the run, as 2025-03-20 (today by the system's clock, in UTC)")
    words.add_argument("--url", metavar="URL", default=DEFAULT_URL, help=f"the service ({DEFAULT_URL})")
    words.add_argument("--send", action="store_true", help="mails the order, and prints the reply in its place")
    words.add_argument("--force", action="store_true",
                       help="send an order of a day after today, or before the last order's")
    words.add_argument("--gap", action="append", default=[], metavar="SENDER",
                       help="send an order although mail of this sender is missing; may be repeated")
    return words


def main(words: Sequence[str]) -> int:
    """Prints the order, or mails it."""
    asked = parser().parse_args(words)
    service = service_at(asked.url)
    text = service.order(asked.day)
    if not asked.send:
        sys.stdout.write(text.decode())
        return 0
    check_gaps(service.kept(), asked.gap)
    if not asked.force:
        check_day(service, text, asked.day)
    reply = service.mailed(text)
    print(reply)
    return Exit.DONE if is_held(reply) else Exit.REFUSED


def check_gaps(kept: Mapping[str, Kept], allowed: Sequence[str]) -> None:
    """Refuses an order over a gap: kept mail of a sender that follows missing mail."""
    unknown = [sender for sender in allowed if sender not in kept]
    if unknown:
        raise Fault(f"--gap {unknown[0]}: the office has no such sender", Exit.USAGE)
    for sender, count in kept.items():
        if count.greatest != count.unbroken and sender not in allowed:
            raise Fault(f"{sender} {count.unbroken + 1} is missing, and {sender} {count.greatest} is kept: send what "
                        f"is missing, or allow the gap by --gap {sender}", Exit.REFUSED)


def check_day(service: Service, text: bytes, asked: datetime.date) -> None:
    """Refuses a day after today, or before the last order's."""
    if asked > today():
        raise Fault(f"{asked} is after today, and no later run could have an earlier day: --force sends it",
                    Exit.REFUSED)
    last = max(ordered(service, text), default=asked)
    if asked < last:
        raise Fault(f"{asked} is before {last}, the day of the last order: the run would have that day. --force sends "
                    "it", Exit.REFUSED)


def ordered(service: Service, text: bytes) -> Iterator[datetime.date]:
    """The date of the last finished run, and the days of the orders that wait."""
    runs = service.runs()
    if runs:
        yield runs[-1].date
    label = label_of(text)
    if label is None:
        raise service.strange("/order")
    for number in range(len(runs) + 1, label.number):
        order = service.kept_text(label.sender, number)
        if order is not None:
            yield datetime.date.fromisoformat(next(paragraphs(order)).value("Day") or "")
