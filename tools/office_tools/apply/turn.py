"""One turn of office-apply: testing becomes what the office wants, as far as the archive has it, or stays as it is."""
from dataclasses import dataclass, field
from typing import Callable, Mapping, Sequence

from office_tools import reports
from office_tools.apply.contents import Contents, Item, Target, check_taken, target, wanted
from office_tools.apply.holding import Evidence, Held, Holding, incomplete, without_source
from office_tools.apply.managers import Manager
from office_tools.apply.plans import Plan, Terms, lacking, named, plan_to
from office_tools.faults import Exit, Fault, ending


@dataclass(frozen=True)
class Work:
    """What testing is to have, what it has, what can be copied into it, and the sources that are held back."""

    goal: Target
    have: Contents
    origin: Contents
    held: Mapping[str, str] = field(default_factory=dict)

    def over(self, have: Contents) -> "Work":
        """The same over what testing has now."""
        return Work(target(self.goal.want, have), have, self.origin, self.held)

    @property
    def held_back(self) -> str:
        """How many sources are held back, if any are."""
        return f"; held back {len(self.held)} sources" if self.held else ""


@dataclass(frozen=True)
class Turn:
    """A manager of an archive, the office's testing, how a line is printed, and what is allowed."""

    manager: Manager
    testing: reports.Testing
    show: Callable[[str], None]
    tell: Callable[[str], None]
    terms: Terms = Terms()
    evidence: Evidence = field(default_factory=Evidence)

    def compare(self) -> int:
        """Shows what would change: status 0 if nothing would."""
        work = self.work()
        plan = plan_to(work.goal, work.have)
        for line in plan.lines("would come", "would go"):
            self.show(line)
        self.terms.plan(work.goal, work.have, work.origin)
        if plan.is_empty and not self.manager.is_published(work.have):
            self.show("would be published: testing as it is")
            return Exit.NEGATIVE
        self.show(f"testing {self.testing.finished}: {counts(work.goal.want)}; would come {counts(plan.come)}; "
                  f"would go {counts(plan.go)}{work.held_back}")
        return Exit.NEGATIVE if work.held or not plan.is_empty else Exit.DONE

    def apply(self) -> int:
        """Makes testing what the office wants: status 0 if it then is, 1 if something is held back.

        The plan is made again after all is copied, and again after all is removed: then it has to be empty.
        """
        work = self.work()
        first = plan = self.terms.plan(work.goal, work.have, work.origin)
        if not plan.come.is_empty:
            self.manager.copy(plan.come)
            work, plan = self.again(work)
            self.check_came(plan.come)
        if not plan.go.is_empty:
            self.manager.remove(plan.go)
            work, plan = self.again(work)
        if not plan.is_empty:
            for line in plan.lines():
                self.show(line)
            self.tell("testing isn't published: it isn't what the office wants")
            return Exit.NEGATIVE
        self.publish(work.have)
        for line in first.lines("came", "went"):
            self.show(line)
        self.show(f"testing {self.testing.finished}: {counts(work.goal.want)}; came {counts(first.come)}; "
                  f"went {counts(first.go)}{work.held_back}")
        return Exit.NEGATIVE if work.held else Exit.DONE

    def again(self, work: Work) -> tuple[Work, Plan]:
        """The plan over what testing has now. What is refused now wasn't before: something else changed testing."""
        found = work.over(self.manager.testing())
        with ending(Exit.FAILED, "testing isn't published: "):
            return found, self.terms.plan(found.goal, found.have, found.origin)

    def publish(self, have: Contents) -> None:
        """Publishes testing, if clients see something else."""
        if not self.manager.is_published(have):
            self.manager.publish()
            if not self.manager.is_published(have):
                raise Fault("testing is published, but its indexes are incomplete or not in the expected place",
                            Exit.FAILED)

    def work(self) -> Work:
        """What testing is made, and of what. What is held back, has no source or is left alone is printed."""
        want = wanted(self.testing, self.manager.architectures(), self.manager.indexes)
        have = self.manager.testing()
        check_taken(want, have)
        goal, origin, held = target(want, have), Contents(), Held(want)
        if not lacking(goal, have, origin).is_empty:
            origin = self.manager.origin()
            held = self.held_back(goal, have, origin)
            check_taken(held.want, have)
            goal = target(held.want, have)
        tell_alone(goal, self.tell)
        return Work(goal, have, origin, held.why)

    def held_back(self, goal: Target, have: Contents, origin: Contents) -> Held:
        """What the office wants without what can't be copied, and without what needs that."""
        for kind, count in sorted(origin.other_kinds.items()):
            self.tell(f"left out: {count} packages of the kind {kind}: the office decides about none of them")
        lacks = lacking(goal, have, origin)
        bare = without_source(lacks, goal.want, have, origin)
        if bare:
            names = named([" ".join(source) for source in sorted(bare)])
            self.tell(f"no version of these sources is in the archive, and their packages come without: {names}")
        want = goal.want.made_of(goal.want.items - bare)
        absent = incomplete(Contents(lacks.sources - bare, lacks.rows), want)
        found = Holding(want, have, self.evidence).held_with(absent) if absent else Held(want)
        for name, why in found.why.items():
            version = self.testing.sources.get(name, "")
            self.tell(f"held back: {name}{' ' if version else ''}{version}: {why}")
        return found

    def check_came(self, lacks: Contents) -> None:
        """Ends the turn, before anything is taken out, if something that was copied is missing."""
        lines = list(lacks.lines())
        for line in lines:
            self.tell(f"the manager didn't copy {line}")
        if lines:
            raise Fault("nothing is taken out of testing, and nothing is published", Exit.FAILED)


def tell_alone(goal: Target, tell: Callable[[str], None]) -> None:
    """Reports what is left alone."""
    alone: Mapping[str, Sequence[Item]] = {
        "sources of which testing has no package, or packages that stay": goal.idle,
        "older packages of all, with which packages that stay were built": goal.older,
        "versions that no package may have": goal.odd}
    for what, items in alone.items():
        names = list(dict.fromkeys(f"{item.name} {item.version}" for item in items))
        if names:
            tell(f"left alone: {what}: {named(names)}")


def counts(contents: Contents) -> str:
    """How many sources and rows there are; a row of `all` counts once for each index."""
    return f"{len(contents.sources)} sources, {len(contents.rows)} packages"
