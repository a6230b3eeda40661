"""The programs that decide over lists of an archive: office-plan(1) and office-sync(1). What they print is proved."""
import contextlib
import os
import re
from dataclasses import dataclass
from typing import Sequence

from office_tools import processes
from office_tools.faults import Exit, Fault

SECONDS = 3600
SOURCE = "source"
MOST = 1_000_000_000  # that may leave, as the programs take it

BAD_LINE = re.compile("line ([0-9]+): ")


@dataclass(frozen=True)
class Program:
    """A program over three lists, each with a line NAME VERSION ARCHITECTURE for each package and each source."""

    name: str

    @property
    def path(self) -> str:
        """Its name, or what the environment states, as OFFICE_PLAN for office-plan."""
        return os.environ.get(self.name.upper().replace("-", "_")) or self.name

    def lines(self, lists: Sequence[Sequence[str]], words: Sequence[str]) -> Sequence[str]:
        """What it prints of lists, or why it decides nothing. The lists are files in memory: none is left behind."""
        with contextlib.ExitStack() as stack:
            files = [stack.enter_context(open(os.memfd_create("list"), "wb")) for _ in lists]
            for file, lines in zip(files, lists):
                file.write("".join(f"{line}\n" for line in lines).encode())
                file.flush()
            numbers = [file.fileno() for file in files]
            paths = [f"/proc/self/fd/{number}" for number in numbers]
            ran = processes.ended([self.path, *paths, *words], timeout=SECONDS, pass_fds=numbers)
        if ran.returncode == 0 or (ran.returncode == Exit.REFUSED and ran.stdout):
            return ran.stdout.decode().split("\n")[:-1]
        told = processes.text(ran.stderr).strip().split("\n")[-1] or f"status {ran.returncode}"
        cause = cause_in(told.removeprefix(f"{self.name}: "), paths, lists)
        raise self.fault(cause, Exit.REFUSED if ran.returncode == Exit.REFUSED else Exit.FAILED)

    def fault(self, cause: str, status: Exit = Exit.FAILED) -> Fault:
        """A fault of the program."""
        return Fault(f"{self.path}: {cause}", status)


def cause_in(told: str, paths: Sequence[str], lists: Sequence[Sequence[str]]) -> str:
    """What a program says of a file, with the line in place of its number."""
    path, _, cause = told.partition(": ")
    found = BAD_LINE.match(cause)
    if path not in paths:
        return told
    return f"{lists[paths.index(path)][int(found[1]) - 1]!r}: {cause[found.end():]}" if found else cause
