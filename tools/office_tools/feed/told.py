"""The lines on what the command leaves out or what doesn't move, each with the day since which it is so."""
import datetime
from dataclasses import dataclass, field

from office_tools import faults
from office_tools.from_packages import told
from office_tools.from_packages.told import Weight

NAME = "office-feed"
SHOWN = 20  # lines of what stands still that are printed again each day


@dataclass
class Lines:
    """The lines of a turn, and the day on which each was first printed, by what the folder remembers.

    A line that is new is printed at once. One that was printed before comes at the end, with its days, if a person
    should still see it; else it is only counted.
    """

    day: datetime.date
    since: dict[str, str] = field(default_factory=dict)
    is_full: bool = False
    now: dict[str, Weight] = field(default_factory=dict)

    def take_over(self) -> None:
        """Takes the lines of all modules that the command uses, those that it shares with others, too."""
        told.NAME = NAME
        told.listener = self.take

    def take(self, what: str, weight: Weight) -> None:
        """Takes a line."""
        if what not in self.now and (self.is_full or what not in self.since):
            told.printed(what, weight)
        self.now[what] = weight

    def days(self, what: str) -> int:
        """For how many days a line has been printed."""
        return max((self.day - datetime.date.fromisoformat(self.since.get(what, self.day.isoformat()))).days, 0)

    def left(self) -> dict[str, str]:
        """The day since which each line of this turn is printed: what is remembered for the next one."""
        return {what: self.since.get(what, self.day.isoformat()) for what in self.now}

    @property
    def is_standing(self) -> bool:
        """Whether there is a line that a person should see."""
        return any(weight is Weight.STANDS or weight is Weight.ONCE and what not in self.since
                   for what, weight in self.now.items())

    def finish(self) -> None:
        """Prints what was printed before: what doesn't move with its days, the oldest first, and how much else."""
        known = [what for what in self.now if what in self.since and not self.is_full]
        standing = sorted((what for what in known if self.now[what] is Weight.STANDS), key=self.days, reverse=True)
        for what in standing[:SHOWN]:
            days = self.days(what)
            faults.tell(NAME, f"for {days} day{'' if days == 1 else 's'}: {told.escaped(what)}")
        if len(standing) > SHOWN:
            faults.tell(NAME, f"and {len(standing) - SHOWN} more lines of before that still hold (--all-lines)")
        if len(known) > len(standing):
            faults.tell(NAME, f"{len(known) - len(standing)} lines of before aren't repeated (--all-lines)")
