"""A simulated archive that the office runs: its days, what is done on each, and what is checked after it."""
import os
import re
import shlex
import shutil
import subprocess
from dataclasses import dataclass, field
from typing import Iterator, Optional, Sequence

import clients
import quick
from judge import Books, Testing
from loop import MANAGERS, archived
from packages import BOTH
from stage import COMMANDS, Failed, Office, Stage, command, run
from world import Bug, Come, Cut, Event, Hint, Leave, Unhint, World, day_text, shown

REBUILT = re.compile(r"\+b[0-9]+$")
BACK = re.compile(r"\+back[0-9]+(?:\.(.*))?$")
LEAVING = "+gone"
BESIDE = "smooth-"
PATIENCE = 3  # days that a source may wait for no known reason: a group may need a run more
NAMED = re.compile(r"['`](office[- ][^'`]+)['`]")
ALLOWED = re.compile(r"^office-day: (feed|look|apply): .*(?:allow (?:it|the gap) by (--[a-z-]+(?: [a-z0-9-]+)?)"
                     r"|unless (--[a-z-]+(?: [0-9]+)?) allows it)", re.MULTILINE)
HELD = re.compile(r"^office-day: stands still: (?:for [0-9]+ days?: )?apply: held back: ([a-z0-9+.-]+)", re.MULTILINE)
TROUBLE = re.compile(r"Traceback|Segmentation|core dumped|panicked")


@dataclass(frozen=True)
class Ran:
    """How a command ended, and what it printed."""

    name: str
    status: int
    out: str
    err: str

    @staticmethod
    def of(name: str, ran: "subprocess.CompletedProcess[str]") -> "Ran":
        """That of a process."""
        return Ran(name, ran.returncode, ran.stdout, ran.stderr)

    def behind(self, first: "Ran") -> "Ran":
        """Both, one after the other."""
        return Ran(self.name, max(first.status, self.status), first.out + self.out, first.err + self.err)


def due(lines: set[str]) -> set[str]:
    """What the archive has for the lines of the office's testing, by the marks of docs/ARCHIVE.md."""
    found = set()
    for line in lines:
        name, version, own = line.split()
        if own != "source" or not name.startswith(BESIDE):
            found.add(f"{name} {real(version, own == 'source')} {own}")
    return found


def real(version: str, is_source: bool) -> str:
    """The archive's version for one that may have a mark."""
    version = version.removesuffix(LEAVING)
    back = BACK.search(version)
    if back and back[1]:
        version = back[1].replace("+c", ":").replace("+m", "-").replace("+p", "+")
    elif back:
        version = version[:back.start()]
    return REBUILT.sub("", version) if is_source else version


@dataclass
class Simulation:
    """An archive, an office, and the test's own books. `number` is the day."""

    stage: Stage
    world: World
    setup: str = ""
    number: int = 0
    books: Books = field(default_factory=Books)
    testing: Testing = field(default_factory=Testing)
    hints: dict[str, int] = field(default_factory=dict)  # the numbers of hints, by their titles
    lacks: dict[str, int] = field(default_factory=dict)
    """The sources that the archive lacks as an order saw them, each with the last day of that."""
    sourceless: set[str] = field(default_factory=set)  # packages whose source the archive never had
    has_disk: bool = False
    is_loud: bool = False  # prints each event
    problems: list[str] = field(default_factory=list)
    told: list[str] = field(default_factory=list)
    faults: int = 0
    by_hand: int = 0
    said: str = ""  # by the day's command at last

    @property
    def today(self) -> str:
        """The date."""
        return day_text(self.number)

    @property
    def is_reprepro(self) -> bool:
        """Whether reprepro manages the archive."""
        return not self.stage.archive.has_versions

    def problem(self, text: str) -> None:
        """Notes what isn't as it is due."""
        self.problems.append(f"day {self.number}: {text}")
        print(f"  problem: {text}", flush=True)

    def note(self, text: str) -> None:
        """Notes what is shown in the day's line."""
        self.told.append(text)

    # What people of the archive do

    def do(self, event: Event) -> None:
        """Does what an event says, and enters it into the books."""
        if self.is_loud:
            print(f"  {shown(event)}", flush=True)
        if isinstance(event, Come):
            self.books.come(event.upload, self.today)
            self.stage.takes([event.upload])
        elif isinstance(event, Leave):
            self.books.leave(event.source)
            self.stage.archive.drop_source(event.source)
        elif isinstance(event, Cut):
            self.books.cut(event.package)
            self.stage.archive.drop_package(event.package)
        elif isinstance(event, Bug):
            self.books.bugs[event.number] = event
            lines = [f"Bug: {event.number}", f"Source: {event.source}", f"Severity: {event.severity}"]
            lines += [f"{name}: {value}" for name, value in (("Found", event.found), ("Fixed", event.fixed)) if value]
            self.stage.office.post("bts", "bug", *lines)
        elif isinstance(event, Hint):
            self.hints[event.title] = self.stage.office.service.kept()["rt"].unbroken + 1
            self.books.hints[event.title] = event.words
            self.stage.office.post("rt", "hint", f"Hint: {event.words}")
        elif isinstance(event, Unhint):
            self.books.hints.pop(event.title)
            self.stage.office.post("rt", "unhint", f"Cancels: {self.hints[event.title]}")

    # The day's command

    def day(self, may_be: Sequence[int] = (0, 1), clock: str = "", more: Sequence[str] = ()) -> Ran:
        """Runs the day's command, and looks at how it ends. With a `clock` that is the system's date."""
        words = ["--conf", settings(self.stage, self.setup), *([] if clock else ["--day", self.today]), *more]
        ran = ran_by("office-day", *words, clock=clock)
        self.said = ran.err
        if ran.status <= 1 and not clock:
            self.books.seen(self.today)
        self.look_at(ran, may_be)
        return ran

    def started(self) -> "subprocess.Popen[bytes]":
        """Starts the day's command as the head of a group of processes."""
        path = os.path.join(os.environ.get("COMMANDS", COMMANDS), "office-day")
        return subprocess.Popen([path, "--conf", settings(self.stage, self.setup), "--day", self.today],
                                stdin=subprocess.DEVNULL, stdout=subprocess.DEVNULL, stderr=subprocess.DEVNULL,
                                start_new_session=True)

    def obey(self, ran: Ran) -> None:
        """A person does what a refusal says: runs the command that it names, or the day's with what it allows."""
        named, allowed = NAMED.search(ran.err), ALLOWED.search(ran.err)
        self.by_hand += 1
        self.note("(by hand)")
        if named:
            folder = os.environ.get("COMMANDS", COMMANDS)
            self.look_at(Ran.of("by hand", run("sh", "-c", named[1], may_fail=True,
                                               PATH=f"{folder}:{os.environ['PATH']}")), (0, 1))
        elif allowed:
            step, word = allowed[1], allowed[2] or allowed[3]
            self.day(more=[f"--{step}={word.replace(' ', '=')}"])
        else:
            self.problem(f"a refusal names no way:\n{ran.err[-1500:]}")

    def look_at(self, ran: Ran, may_be: Sequence[int]) -> None:
        """A command ends with one of these statuses; with a sentence where that isn't 0, and never by a traceback."""
        told = ran.out + ran.err
        if TROUBLE.search(told) or ran.status < 0 or ran.status >= 128:
            self.problem(f"{ran.name}: status {ran.status}\n{told[-1500:]}")
        elif ran.status not in may_be:
            self.problem(f"status {ran.status} in place of {list(may_be)}:\n{told[-1500:]}")
        elif ran.status > 1 and not re.search(r"^office(-[a-z]+)?: .{10,}", ran.err, re.MULTILINE):
            self.problem(f"status {ran.status} without a sentence:\n{told[-1500:]}")

    # What is looked at in the evening

    def evening(self, is_whole: bool = True) -> None:
        """Looks at what is published. If a day was refused, it is what it was before."""
        lines = archived(self.stage.archive)
        new = Testing.of(lines)
        if is_whole:
            self.same_as_office(lines)
            self.is_run()
        for text in (*self.books.moved(self.testing, new, self.today), *self.books.rows_lost(self.testing, new)):
            self.problem(text)
        changed = {name for (name, own), version in new.rows.items() if self.testing.rows.get((name, own)) != version}
        self.clean(None if self.number % 6 == 0 else changed)
        self.testing = new
        self.waits()

    def published(self) -> Testing:
        """What is published now."""
        return Testing.of(archived(self.stage.archive))

    def same_as_office(self, lines: set[str]) -> None:
        """What is published is the office's testing, but for what the archive lacks: that alone is held back."""
        want = due(self.stage.office.rows())
        held = {source for source, last in self.lacks.items() if self.number <= last}
        told = set(HELD.findall(self.said))
        if told != held:
            self.problem(f"held back is {sorted(told)}, and {sorted(held)} is due\n{self.said[-1500:]}")
        differ = {line for line in want ^ lines if not self.is_excused(line, held)}
        if differ:
            self.problem(f"published and the office's differ: {sorted(differ)[:6]}, missing "
                         f"{len(want - lines)}, too much {len(lines - want)}\n{self.said[-1500:]}")

    def is_excused(self, line: str, held: set[str]) -> bool:
        """Whether a line may differ: it is of a source that is held back, or a source that the archive never had."""
        name, _, own = line.split()
        source = self.books.rows.get((name, own), (name,))[0]
        return source in held or own == "source" and name in self.sourceless

    def is_run(self) -> None:
        """A run of the day is finished, so testing isn't frozen."""
        service = self.stage.office.service
        last = service.good_text("/runs").splitlines()[-1].split()
        _, ready, _, finished = service.good_text("/status").split()
        if last[2] != self.today or ready != finished:
            self.problem(f"the last finished run is of {last[2]}; ready {ready}, finished {finished}")

    def clean(self, names: Optional[set[str]]) -> None:
        """Clients can install what is published."""
        try:
            clients.look(self.stage.archive, self.stage.folder, names)
        except Failed as failed:
            self.problem(str(failed)[-1500:])

    def waits(self) -> None:
        """No source waits for long without a reason that the books know."""
        found = dict(self.books.behind(self.testing, self.today))
        unexplained = {source for source, reason in found.items() if not reason}
        self.books.waits = {source: self.books.waits.get(source, 0) + 1 for source in unexplained}
        for source, days in self.books.waits.items():
            if days == PATIENCE + 1:
                why = self.stage.office.service.get(f"/why/{source}").text.splitlines()[:9]
                came = [f"{arrival.version} {arrival.urgency} {arrival.day}" for arrival in self.books.arrivals[source]]
                self.problem(f"source {source} {self.books.unstable[source]} waits since {days} days without a reason: "
                             f"{'; '.join(why)}; it came as {', '.join(came[-4:])}")


def ran_by(name: str, *words: str, clock: str = "") -> Ran:
    """A command under test."""
    if not clock:
        return Ran.of(name, command(name, *words, may_fail=True))
    path = os.path.join(os.environ.get("COMMANDS", COMMANDS), name)
    return Ran.of(name, run("faketime", clock + " 06:00:00", path, *words, may_fail=True))


def settings(stage: Stage, setup: str) -> str:
    """Writes the settings of the day's command, and gives their file."""
    line = stage.archive.line
    lines = (f"deb [trusted=yes arch={','.join(BOTH)}] {line}", f"deb-src [trusted=yes] {line}")
    feed = ["--rebuilds", "--changes", os.path.join(stage.folder, "changes"), "--cache",
            os.path.join(stage.folder, "cache"), *(word for line in lines for word in ("--apt", line))]
    fields = {"Url": stage.url or stage.office.url, "Setup": setup, "State": os.path.join(stage.folder, "state"),
              "Pull": shlex.join(stage.archive.pull_words()), "Feed": shlex.join(feed),
              "Apply": shlex.join(stage.archive.apply_words()),
              **({"Bugs": shlex.join(stage.bugs)} if stage.bugs else {})}
    path = os.path.join(stage.folder, "day.conf")
    with open(path, "w", encoding="utf-8") as file:
        file.write("".join(f"{name}: {value}\n" for name, value in fields.items()))
    return path


def clear(folder: str) -> None:
    """Removes the copies of a database's log that a program which was ended left."""
    for name in os.listdir(folder):
        if name.startswith("store.db-"):
            os.unlink(os.path.join(folder, name))


def begun(program: str, folder: str, manager: str, world: World) -> Simulation:
    """The first day: testing has all that unstable has, and an office is made of it."""
    os.environ["OFFICE"] = program
    stage = Stage(Office(program, folder), MANAGERS[manager](folder), folder, os.path.join(folder, "built"),
                  maker=quick.write)
    found = Simulation(stage, world)
    uploads = [event.upload for event in world.first()]
    for upload in uploads:
        found.books.come(upload, day_text(0))
    found.books.seen(day_text(0))
    stage.begins(uploads)
    stage.line = stage.archive.ready()
    stage.archive.copy_all()
    testing = stage.archive.published("testing")
    files = [os.path.join(testing, "main", f"binary-{architecture}", "Packages") for architecture in BOTH]
    adopted = os.path.join(folder, "adopted")
    run(os.path.join(os.environ.get("COMMANDS", COMMANDS), "office-adopt"), "--day", day_text(0), "--spare", "8",
        "--sources", os.path.join(testing, "main/source/Sources.gz"), adopted, *files, OFFICE=program)
    found.setup = os.path.join(adopted, "setup.conf")
    with open(os.path.join(adopted, "bag"), encoding="utf-8") as bag:
        run(program, "replay", "--conf", found.setup, "--db", stage.office.store, given=bag.read())
    stage.office.start(found.setup)
    found.testing = Testing.of(archived(stage.archive))
    return found


def saved(folder: str, *names: str) -> Iterator[tuple[str, str]]:
    """The files and folders of these names, each with the place of its copy."""
    for name in names:
        yield os.path.join(folder, name), os.path.join(folder, "saved", name)


def save(folder: str, *names: str) -> None:
    """Copies files and folders aside."""
    for path, copy in saved(folder, *names):
        shutil.rmtree(copy, ignore_errors=True)
        os.makedirs(os.path.dirname(copy), exist_ok=True)
        run("cp", "-a", "-T", path, copy)


def put_back(folder: str, *names: str) -> None:
    """Puts the copies back."""
    for path, copy in saved(folder, *names):
        if os.path.isdir(path):
            shutil.rmtree(path)
        run("cp", "-a", "-T", copy, path)
