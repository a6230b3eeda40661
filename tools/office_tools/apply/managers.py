"""What a manager of an archive has to be able to do, and how its commands are run."""
import abc
from typing import Iterator, Sequence

from office_tools import processes
from office_tools.apply.contents import Contents, Indexes
from office_tools.apply.published import shows
from office_tools.faults import Exit, Fault

BATCH = 200  # sources or rows in one command of a manager
LONGEST = 500  # characters of what a manager tells


class Manager(abc.ABC):
    """An archive manager with two suites: `origin_name`, which packages come from, and `testing_name`."""

    indexes: Indexes
    origin_name: str
    testing_name: str

    @abc.abstractmethod
    def architectures(self) -> Sequence[str]:
        """The architectures of testing, without `all`; a missing suite is refused."""

    @abc.abstractmethod
    def listed(self, suite: str) -> Contents:
        """What a suite has by the manager's own tables."""

    def testing(self) -> Contents:
        """What testing has."""
        return self.listed(self.testing_name)

    def origin(self) -> Contents:
        """What the suite has that packages come from."""
        return self.listed(self.origin_name)

    @abc.abstractmethod
    def copy(self, come: Contents) -> None:
        """Copies these sources and rows into testing, and nothing else."""

    @abc.abstractmethod
    def remove(self, go: Contents) -> None:
        """Takes these sources and rows out of testing, the sources first."""

    @abc.abstractmethod
    def published_folders(self) -> Sequence[str]:
        """The folders dists/SUITE by which testing and the other suite are published."""

    def is_published(self, have: Contents) -> bool:
        """Whether clients see that testing has this, and all files of its indexes fit each other."""
        return shows(self.published_folders()[0], have, self.indexes)

    @abc.abstractmethod
    def publish(self) -> None:
        """Publishes testing as it is."""


def run(words: Sequence[str]) -> str:
    """What a command of a manager prints. If it fails, the end of its output is the `Fault`."""
    ran = processes.ended(words)
    if ran.returncode:
        told = " ".join(line.strip() for line in processes.text(ran.stderr or ran.stdout).splitlines()
                        if line != "There have been errors!").strip()
        raise Fault(f"{words[0]}: {told[-LONGEST:] or f'status {ran.returncode}'}", Exit.FAILED)
    return processes.text(ran.stdout)


def parts(items: Sequence[str]) -> Iterator[Sequence[str]]:
    """Many words in parts that one command takes."""
    for start in range(0, len(items), BATCH):
        yield items[start:start + BATCH]
