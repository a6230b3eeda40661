"""The steps of a day: other commands, run one after the other, and what each of them said."""
import functools
import os
import shutil
import sys
from dataclasses import dataclass, field
from typing import Callable, Optional, Sequence

from office_tools import processes
from office_tools.day.settings import Settings
from office_tools.faults import Exit, Fault
from office_tools.feed import mailbox
from office_tools.service import service_at


@dataclass(frozen=True)
class Ran:
    """A step that was run: its name, its status as those of this command, and the lines that it printed."""

    name: str
    status: int
    out: Sequence[str]
    err: Sequence[str]


@dataclass
class Steps:
    """Runs the steps until one of them doesn't let the next one begin."""

    settings: Settings
    day: Optional[str]
    watch: Callable[[Ran], None]
    done: list[Ran] = field(default_factory=list)

    def run(self, has_testing: bool) -> int:
        """The whole day: the status.

        The testing so far is applied first, so that the next pull can't take away what an order saw. Before that the
        office has to have all mail that it had.
        """
        plan: list[Callable[[], Ran]] = [self.check, *([self.apply] if has_testing else [])]
        plan += [self.pull] if self.settings.pull else []
        plan += [self.feed, *self.bugs_and_tests(), self.look, self.apply, self.backup]
        for step in plan:
            ran = step()
            self.done.append(ran)
            self.watch(ran)
            if ran.status > Exit.NEGATIVE:
                return ran.status
        return max(ran.status for ran in self.last)

    @property
    def last(self) -> Sequence[Ran]:
        """The steps that were done. One that was done twice counts as it ended."""
        return list({ran.name: ran for ran in self.done}.values())

    @property
    def cache(self) -> str:
        """The folder of office-feed, which has all mail."""
        words = self.settings.feed
        if "--cache" in words[:-1]:
            return words[list(words).index("--cache") + 1]
        return os.path.join(self.settings.state, "feed")

    def check(self) -> Ran:
        """Looks whether the office still has all mail that it had: its store may have been restored."""
        service = service_at(self.settings.url)
        try:
            mailbox.check_office(service, service.kept(), mailbox.Folder(self.cache).read(), self.cache)
        except Fault as fault:
            return Ran("mail", max(fault.status, Exit.REFUSED), [], [fault.cause])
        return Ran("mail", Exit.DONE, [], [])

    def backup(self) -> Ran:
        """Brings the mail of this day into that folder, too, so that it is a backup of all mail."""
        service = service_at(self.settings.url)
        try:
            mailbox.fetch(service, mailbox.folder_for(self.cache, service))
        except Fault as fault:
            return Ran("mail", Exit.FAILED, [], [fault.cause])
        return Ran("mail", Exit.DONE, [], [])

    def apply(self) -> Ran:
        """Makes the archive's testing what the office's is."""
        return self.command("apply", [*self.office(), *self.more("apply"), *self.settings.apply])

    def pull(self) -> Ran:
        """Makes the suite that the order sees what unstable is. Any status but 0 is a failure."""
        ran = executed("pull", self.settings.pull)
        return ran if ran.status == Exit.DONE else Ran(ran.name, Exit.FAILED, ran.out, [
            *ran.err, f"{self.settings.pull[0]} ended with status {ran.status}"])

    def feed(self) -> Ran:
        """Sends what is new, and orders nothing."""
        cache = [] if "--cache" in self.settings.feed else ["--cache", self.cache]
        return self.command("feed", [*self.office(), *self.days(), "--no-order", *cache, *self.settings.feed,
                                     *self.more("feed")])

    def bugs_and_tests(self) -> Sequence[Callable[[], Ran]]:
        """Mails bugs and results of tests, if the settings have some and this day leaves them in.

        That is behind the feed, since a bug states versions that unstable has, and before the order, which covers it.
        """
        known = {"bugs": self.settings.bugs, "tests": self.settings.tests}
        return [functools.partial(self.command, name, [*self.office(), *words, *self.more(name)])
                for name, words in known.items() if words and name not in self.settings.left_out]

    def look(self) -> Ran:
        """Blocks what can't be installed, and orders the run, and the one of proposed groups."""
        proposing = ["--propose"] if self.settings.propose else []
        return self.command("look", [*self.office(), *self.days(), "--conf", self.settings.setup, "--cache",
                                     os.path.join(self.settings.state, "look"), "--order", *proposing,
                                     *self.more("look"), *self.settings.look])

    def office(self) -> Sequence[str]:
        """The words that name the office."""
        return ["--url", self.settings.url]

    def days(self) -> Sequence[str]:
        """The words that name the day."""
        return ["--day", self.day] if self.day else []

    def more(self, name: str) -> Sequence[str]:
        """Further words of a step."""
        return self.settings.more.get(name, [])

    def command(self, name: str, words: Sequence[str]) -> Ran:
        """Runs a command of this package."""
        whole = f"office-{name}"
        own = os.path.join(os.path.dirname(os.path.abspath(sys.argv[0])), whole)
        ran = executed(name, [own if os.path.exists(own) else shutil.which(whole) or whole, *words])
        told = [line.removeprefix(f"{whole}: ") for line in ran.err]
        return Ran(name, ran.status if Exit.DONE <= ran.status <= Exit.FAILED else Exit.FAILED, ran.out, told)


def executed(name: str, words: Sequence[str]) -> Ran:
    """Runs a command to its end."""
    ran = processes.ended(words)
    return Ran(name, ran.returncode, processes.text(ran.stdout).splitlines(), processes.text(ran.stderr).splitlines())
