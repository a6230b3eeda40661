"""What doesn't move, and for how many days."""
import contextlib
import datetime
import json
import re
from dataclasses import dataclass, field
from typing import Iterator, Mapping, Sequence

from office_tools import reports
from office_tools.day.steps import Ran
from office_tools.faults import Exit
from office_tools.files import read_bytes, write_whole

MEMORY = "memory.json"
COUNTED = re.compile(r"for ([0-9]{1,9}) days?: (.*)")
HELD = "held back: "


@dataclass(frozen=True)
class Line:
    """A line that a person should see, and for how many days it has held."""

    days: int
    text: str

    def __str__(self) -> str:
        return f"for {self.days} day{'' if self.days == 1 else 's'}: {self.text}" if self.days else self.text


@dataclass
class Memory:
    """Each line of the last day, after its step, with the day on which it was first seen. It can be lost any time."""

    path: str
    today: datetime.date
    since: dict[str, str] = field(default_factory=dict)
    now: dict[str, str] = field(default_factory=dict)

    def read(self) -> None:
        """Reads what is remembered. A file that isn't whole counts as none."""
        with contextlib.suppress(Exception):
            found = json.loads(read_bytes(self.path))
            self.since = {str(text): datetime.date.fromisoformat(day).isoformat() for text, day in found.items()}

    def line(self, step: str, text: str) -> Line:
        """A line of a step, with its days: those that it states, or those since it was first seen."""
        counted = COUNTED.fullmatch(text)
        if counted:
            return Line(int(counted[1]), f"{step}: {counted[2]}")
        whole = f"{step}: {text}"
        first = self.now.setdefault(whole, self.since.get(whole, self.today.isoformat()))
        return Line(max((self.today - datetime.date.fromisoformat(first)).days, 0), whole)

    def write(self, steps: Sequence[str]) -> None:
        """Keeps the lines of this day, and those of before of all steps but these, which were done."""
        left = {text: day for text, day in self.since.items() if text.partition(":")[0] not in steps}
        write_whole(self.path, json.dumps({**left, **self.now}, sort_keys=True, indent=1).encode())


def standing(done: Sequence[Ran], kept: Memory) -> Sequence[Line]:
    """The lines of the steps that a person should see, the oldest first."""
    found = dict.fromkeys(kept.line(ran.name, text) for ran in done for text in lines_of(ran))
    return sorted(found, key=lambda line: -line.days)


def lines_of(ran: Ran) -> Iterator[str]:
    """Those of a step: what isn't well; of office-apply what is held back, and of what is refused the last line."""
    if ran.status == Exit.NEGATIVE:
        yield from (line for line in ran.err if ran.name != "apply" or line.startswith(HELD))
    elif ran.status > Exit.NEGATIVE:
        yield from ran.err[-1:] or [f"it ended with status {ran.status}"]


def waiting(excuses: reports.Excuses, update: reports.Update, patience: int) -> Iterator[Line]:
    """The sources that have waited for this many days more than their urgency needs, and what keeps each."""
    waits: Mapping[str, str] = {item.source: change.line.split(" ", 3)[3] for change in update.changes
                                if change.outcome is reports.Outcome.WAITS for item in change.items}
    for excuse in excuses.excuses:
        late = excuse.age - excuse.needed
        why = ", ".join(reason.text for reason in excuse.reasons) or waits.get(excuse.source)
        if late >= patience and why:
            yield Line(late, f"{excuse.source} {excuse.unstable} waits: {why}")
