"""The program `office` itself: its commands are run, and asked for each verdict."""
import os
import subprocess
from dataclasses import dataclass
from typing import Callable, Mapping, Sequence

from office_tools import bags, processes, reports
from office_tools.faults import Exit, Fault
from office_tools.service import Kept, Report, kept_in

SECONDS = 3600


def name() -> str:
    """The program's name: `office`, or what the environment's OFFICE states."""
    return os.environ.get("OFFICE") or "office"


def run(words: Sequence[str], given: bytes = b"") -> subprocess.CompletedProcess[bytes]:
    """Runs the program with these words; a `Fault` says that it is missing or has no end."""
    return processes.ended([name(), *words], given, timeout=SECONDS)


def output(words: Sequence[str], given: bytes = b"") -> bytes:
    """What a command prints that ends with status 0; else its last sentence is the `Fault`."""
    ran = run(words, given)
    if ran.returncode:
        told = processes.text(ran.stderr).strip().split("\n")[-1]
        raise Fault(told or f"{name()} {words[0]}: status {ran.returncode}", Exit.FAILED)
    return ran.stdout


def testing_in(told: str) -> reports.Testing:
    """The testing at the end of what a replay prints."""
    return reports.read_testing(told[told.rfind("\ntesting ") + 1:], f"{name()} replay")


def replies(setup: str, texts: Sequence[bytes]) -> Sequence[str]:
    """What an office in memory answers to these messages, one after the other: `held ..` or `refused ..`."""
    told = output(["replay", "--conf", setup], bags.bag_of(texts))
    found = processes.text(told).split("\n")[:len(texts)]
    for reply in found:
        if not reply.startswith(("held ", "refused ")) or reply in ("refused NoMemory", "refused Store"):
            raise Fault(f"{name()} replay: {reply}", Exit.FAILED)
    return found


@dataclass(frozen=True)
class Store:
    """A store that no office has open, and the file of the office's setup."""

    setup: str
    path: str

    @property
    def words(self) -> Sequence[str]:
        """The options that name both."""
        return ["--conf", self.setup, "--db", self.path]

    def told(self, *words: str) -> str:
        """What a command prints of it."""
        return output([*words, *self.words]).decode()

    def report(self, read: Callable[[str, str], Report], *words: str) -> Report:
        """What a command prints of it, by the reader of such texts."""
        return read(self.told(*words), f"{name()} {' '.join(words)}")

    def exported(self) -> Sequence[bytes]:
        """All messages that it keeps."""
        return list(bags.messages_in(output(["export", *self.words])))

    def kept(self) -> Mapping[str, Kept]:
        """What it keeps of each sender."""
        return kept_in(self.told("mail"))

    def testing(self) -> reports.Testing:
        """What is in testing in it."""
        return self.report(reports.read_testing, "report", "testing")

    def unstable(self) -> reports.Unstable:
        """What the next run sees of unstable in it if its order covers all mail without a gap."""
        return self.report(reports.read_unstable, "report", "unstable")

    def hints(self) -> reports.Hints:
        """The hints in force in it."""
        return self.report(reports.read_hints, "hints")


def proposed(setup: str, bag: bytes, day: str) -> tuple[Sequence[str], Sequence[str]]:
    """The hints for groups that an office with this mail proposes for a run of that day over all of it.

    With them come the notes on groups that it leaves out.
    """
    ran = run(["propose", "--all", "--day", day, "--conf", setup], bag)
    told = processes.text(ran.stderr).splitlines()
    if ran.returncode not in (0, 1):
        raise Fault(told[-1] if told else f"{name()} propose: status {ran.returncode}", Exit.FAILED)
    return ran.stdout.decode().splitlines(), [line for line in told if not line.startswith("office: run ")]
