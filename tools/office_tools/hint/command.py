"""office-hint: mails hints of the release team to a running office, and takes them back."""
import argparse
import functools
import getpass
import re
import sys
from typing import Iterator, Optional, Sequence

from office_tools.days import day, today
from office_tools.faults import Exit, Fault
from office_tools.hint import back
from office_tools.hint.team import TURNS, Letter, Signature, Team, hint
from office_tools.service import DEFAULT_URL, service_at
from office_tools.trials import Trial, trial

SECONDS = 600.0


tell = functools.partial(print, flush=True)
"""Prints a line at once."""


def login() -> Optional[str]:
    """The name of the user, if the system knows one."""
    try:
        return getpass.getuser()
    except (OSError, KeyError):
        return None


def parser() -> argparse.ArgumentParser:
    """The command's words."""
    words = argparse.ArgumentParser(
        prog="office-hint",
        description="Tries hints in the next run of a running office, shows what they would change, asks, and mails "
                    "them under the release team's next numbers.",
        epilog="Status 0: all is mailed. 1: nothing was mailed, or not all. 2: the words are wrong. 3: the office "
               "refuses it. 4: no office answers.")
    words.add_argument("--url", metavar="URL", default=DEFAULT_URL, help=f"the service ({DEFAULT_URL})")
    words.add_argument("--by", metavar="NAME", default=login(), help="who asks (the user's login)")
    words.add_argument("--comment", metavar="TEXT", help="why, such as the number of a bug")
    words.add_argument("--day", metavar="DAY", type=day, default=today(),
                       help="the day of the next run (today by the system's clock, in UTC)")
    words.add_argument("--yes", action="store_true", help="mails without a question what has no warning")
    words.add_argument("--force", action="store_true", help="with --yes: mails what has warnings, too")
    kinds = words.add_mutually_exclusive_group()
    kinds.add_argument("--take-back", action="store_true",
                       help="each HINT is one in force, an item of one, or its number, which is taken back")
    kinds.add_argument("--tidy", action="store_true", help="takes back each hint that has moved or is overtaken")
    words.add_argument("hints", metavar="HINT", nargs="*", help="such as 'unblock webd/1.24-1'")
    return words


def agrees(asked: argparse.Namespace, is_warned: bool) -> bool:
    """Whether it shall be mailed: by --yes, or by an answer at a terminal."""
    if asked.yes:
        return bool(asked.force) or not is_warned
    if not sys.stdin.isatty():
        raise Fault("nothing is mailed: answer at a terminal, or say --yes", Exit.NEGATIVE)
    try:
        return input("mail it? [y/N] ").strip().lower() in ("y", "yes")
    except EOFError:
        return False


def unnumbered(found: Trial, count: int) -> Sequence[str]:
    """The lines of a trial of that many hints, each numbered by its place."""
    first = found.first

    def place(match: re.Match[str]) -> str:
        number = int(match[2]) - first.number
        return f"{match[1]} #{number}" if 0 <= number < count else match[0]

    form = re.compile(rf"\b(easy|remove|{re.escape(first.sender)}) ([0-9]{{1,9}})\b")
    return [form.sub(place, line) for line in found.lines]


class Mailing:
    """Hints that are shown and then mailed."""

    def __init__(self, team: Team, letters: Sequence[Letter], asked: argparse.Namespace) -> None:
        self.team = team
        self.left = list(letters)
        self.asked = asked
        self.shown: Optional[Sequence[str]] = None

    def is_wanted(self) -> bool:
        """Shows what the hints that are left would change, and asks, unless that was shown before."""
        found = trial(self.team.service, [letter.value for letter in self.left], self.asked.day)
        warned = [*self.team.slips(self.left, self.asked.day), *found.doubts]
        now = [*unnumbered(found, len(self.left)), *warned]
        if now == self.shown:
            return True
        self.shown = now
        for line in [*found.heads, *found.lines, *(f"warning: {words}" for words in warned)]:
            tell(line)
        return agrees(self.asked, bool(warned))

    def mail(self) -> bool:
        """Mails those that are left: whether all are held. Others may take a number meanwhile."""
        while self.left:
            if not self.team.mail(self.left[0]):
                return False
            self.left.pop(0)
            self.shown = None
        return True

    def run(self) -> int:
        """Shows, asks and mails, again with the next number if another message took it: the status."""
        for _ in range(TURNS):
            if not self.is_wanted():
                return Exit.NEGATIVE
            if self.mail():
                return 0
        raise Fault(f"{TURNS} numbers in a row were taken by others", Exit.REFUSED)


def ask_for(team: Team, asked: argparse.Namespace) -> int:
    """Mails hints."""
    signature = Signature(asked.by, asked.comment)
    letters = [hint(wish, signature) for wish in asked.hints]
    refusal = team.refusal(letters)
    if refusal:
        raise Fault(refusal, Exit.REFUSED)
    return Mailing(team, letters, asked).run()


def chosen(team: Team, asked: argparse.Namespace) -> Iterator[back.TakenBack]:
    """The hints that are taken back, each once."""
    standing = team.service.hints()
    if asked.tidy:
        yield from back.over(standing)
        return
    taken: set[int] = set()
    for wish in asked.hints:
        found = [item for item in back.asked_for(standing, wish) if item.number not in taken]
        if not found:
            raise Fault(f"no hint in force asks {wish!r}", Exit.NEGATIVE)
        taken.update(item.number for item in found)
        yield from found


def take_back(team: Team, asked: argparse.Namespace) -> int:
    """Takes hints back."""
    found = list(chosen(team, asked))
    for taken in found:
        tell(f"{team.sender} {taken.number} is taken back: {taken.told}")
    if not found:
        tell("nothing is over")
        return 0
    if not agrees(asked, False):
        return Exit.NEGATIVE
    for taken in found:
        team.mail_all(back.letters_for(team, taken, Signature(asked.by, asked.comment)))
    return 0


def main(words: Sequence[str]) -> int:
    """Mails hints, or takes some back."""
    known = parser()
    asked = known.parse_args(words)
    if bool(asked.hints) == asked.tidy:
        known.error("--tidy takes no HINT" if asked.tidy else "name a HINT")
    if asked.force and not asked.yes:
        known.error("--force needs --yes")
    if any(not wish.strip() for wish in asked.hints):
        known.error("a HINT is empty")
    team = Team(service_at(asked.url, seconds=SECONDS), tell)
    return take_back(team, asked) if asked.tidy or asked.take_back else ask_for(team, asked)
