"""The faults of a month: each begins on a morning, and continues after each `yield` on the next one.

After a `yield` the day's command is run as on any other day, and testing is checked. So what was done wrong has to be
right again by that command alone, or by what a person does here, as a sentence says. `SKIP` is a day without it.
"""
import dataclasses
import os
import shutil
import signal
import sqlite3
from typing import Callable, Iterator, Mapping, Optional, Sequence

import quick
from judge import names_in
from loop import archived
from packages import BOTH, Package, Upload
from simulation import Ran, Simulation, clear, put_back, ran_by, save
from spy import Spy
from stage import Failed
from world import Bug, Come, Hint, Kept, Leave, Unhint, day_text

SKIP, OVER = "skip", "over"
Steps = Iterator[Optional[str]]
Trouble = Callable[[Simulation], Steps]


def settled(month: Simulation, wanted: Callable[[Kept], bool] = lambda kept: True) -> Kept:
    """A source that testing has as unstable has it, and that nothing else needs or touches from here on.

    It needs no library: a transition would keep its next version out, or upload one of its own.
    """
    libraries = tuple(kept.name for kept in month.world.sources.values() if kept.soname)

    def fits(kept: Kept) -> bool:
        is_needed = any(month.world.needs(package.name) - {kept.name} for package in kept.packages)
        is_open = any(bug.source == kept.name for bug in month.books.bugs.values()) or any(
            kept.name in words for words in month.books.hints.values())
        needs_library = any(name.startswith(libraries) for package in kept.packages
                            for name in names_in(package.depends))
        return not is_needed and not is_open and not needs_library and not kept.is_late and not kept.soname \
            and not kept.rebuilds and wanted(kept) and month.testing.sources.get(kept.name) == kept.version \
            and not any(package.is_all for package in kept.packages)

    kept = month.world.pick(fits)
    if kept is None:
        kept = fresh(month, f"extra{month.number}")
    month.world.untouched.add(kept.name)
    return kept


def fresh(month: Simulation, name: str, needed: str = "") -> Kept:
    """A new source, which moves at once."""
    kept = Kept(name, packages=[Package(name, needed)])
    month.world.sources[name] = kept
    month.world.untouched.add(name)
    comes(month, kept, "critical")
    month.day()
    month.evening()
    return kept


def comes(month: Simulation, kept: Kept, urgency: str, **more: object) -> Upload:
    """A source is uploaded as it is."""
    upload = month.world.upload(kept, urgency, **more)  # type: ignore[arg-type]
    month.world.enter(upload)
    month.do(Come(upload))
    return upload


def renewed(month: Simulation, kept: Kept, urgency: str, **more: object) -> Upload:
    """The next version of a source is uploaded."""
    return comes(month, month.world.renewed(kept), urgency, **more)


def refused(month: Simulation, may_be: Sequence[int] = (3,), clock: str = "") -> Ran:
    """The day's command is refused, and what is published stays."""
    before = archived(month.stage.archive)
    ran = month.day(may_be, clock)
    differ = sorted(archived(month.stage.archive) ^ before)
    if ran.status > 1 and differ:
        month.problem(f"a refused day changed what is published: {differ[:9]}")
    return ran


def accepted(month: Simulation) -> None:
    """The day's command up to its order: what came is decided, and isn't applied yet."""
    month.look_at(ran_by("office-apply", *month.stage.apply_words()), (0, 1))
    month.stage.line = month.stage.archive.ready()
    month.look_at(ran_by("office-feed", *month.stage.feed_words(month.today, "--propose")), (0, 1))
    month.books.seen(month.today)


def withdraw(month: Simulation, kept: Kept, before: Kept) -> None:
    """The last upload of a source is withdrawn."""
    month.stage.archive.withdraw(kept.name, kept.version)
    month.books.arrivals[kept.name].pop()
    month.books.come(month.world.upload(before, "medium"), month.today)
    month.books.arrivals[kept.name].pop()


# What is wrong in the archive

def withdrawn(month: Simulation) -> Steps:
    """An upload is withdrawn on the next day. It may not move, and all else continues."""
    kept = settled(month)
    before = dataclasses.replace(kept)
    renewed(month, kept, "medium")
    yield None
    withdraw(month, kept, before)
    month.books.held[kept.name] = before.version
    for _ in range(6):
        yield None
    renewed(month, kept, "high")
    month.world.untouched.discard(kept.name)


def withdrawn_late(month: Simulation) -> Steps:
    """An upload is accepted, and withdrawn before it is applied. It alone is held back until the next version moves.
    """
    kept = settled(month)
    before = dataclasses.replace(kept)
    renewed(month, kept, "critical")
    accepted(month)
    withdraw(month, kept, before)
    month.stage.archive.ready()
    month.lacks[kept.name] = month.number + 1
    month.books.held[kept.name] = before.version
    yield None
    yield None
    renewed(month, kept, "critical")
    yield None
    if month.published().sources.get(kept.name) != kept.version:
        month.problem(f"{kept.name} {kept.version} isn't published, which came behind a withdrawn version")
    month.world.untouched.discard(kept.name)


def short_index(month: Simulation) -> Steps:
    """A slip takes a third of unstable away. The archive is put back from its copy after a refused day."""
    save(month.stage.folder, month.stage.archive.place)
    month.stage.archive.slip("app")
    refused(month)
    put_back(month.stage.folder, month.stage.archive.place)
    month.stage.archive.export()
    yield None


def needed_gone(month: Simulation) -> Steps:
    """One package goes by a slip that all of testing needs."""
    save(month.stage.folder, month.stage.archive.place)
    month.stage.archive.slip("libbase")
    refused(month)
    put_back(month.stage.folder, month.stage.archive.place)
    month.stage.archive.export()
    yield None


def conflict(month: Simulation) -> Steps:
    """Two new sources need each other, and one of them excludes what the other needs. A mended version moves."""
    names = [f"pair-{letter}{month.number}" for letter in "ab"]
    first = Kept(names[0], packages=[Package(names[0], f"{names[1]}, base")])
    second = Kept(names[1], packages=[Package(names[1], names[0], conflicts="base")])
    for kept in (first, second):
        comes(month, kept, "critical")
        month.books.held[kept.name] = kept.version
    yield None
    yield None
    second.packages = [Package(names[1], names[0])]
    renewed(month, second, "critical")
    month.books.held.pop(first.name)


def own_date(month: Simulation) -> Steps:
    """An upload was prepared a month ago, and its .changes says so. It came today."""
    kept = settled(month)
    renewed(month, kept, "medium", day=day_text(month.number - 30))
    month.world.untouched.discard(kept.name)
    yield None


def replaced(month: Simulation) -> Steps:
    """A critical upload is replaced on the same day by one of low urgency. The greater urgency counts."""
    kept = settled(month)
    renewed(month, kept, "critical")
    renewed(month, kept, "low")
    yield None
    if month.testing.sources.get(kept.name) != kept.version:
        month.problem(f"{kept.name} {kept.version} isn't in testing, which replaced a critical upload")
    month.world.untouched.discard(kept.name)


def came_back(month: Simulation) -> Steps:
    """A source leaves, and comes back some days later as it was. Nothing is printed about it again and again."""
    kept = fresh(month, f"gone{month.number}")
    yield None
    files = month.stage.built
    month.do(Leave(kept.name))
    yield None
    yield None
    upload = Upload(kept.name, kept.version, day_text(month.number - 3), kept.packages, "critical")
    month.stage.archive.incoming(upload, os.path.join(files, upload.name))
    month.books.come(upload, month.today)
    yield None
    yield None
    month.day()
    told = numbers(month)
    month.day()
    more = {sender: (told[sender], number) for sender, number in numbers(month).items()
            if sender in ("ftp", "bd", "again1", "again2") and number != told[sender]}
    if more:
        month.problem(f"the same is told again: {more}")
    renewed(month, kept, "critical")
    month.world.untouched.discard(kept.name)


def without_source(month: Simulation) -> Steps:
    """A package comes without its source. It moves, and nothing gets stuck."""
    name = f"vendor{month.number}"
    paths = []
    for own in BOTH:
        upload = Upload(name, "1.0", month.today, [Package(name)], "medium", (own,), is_later=True)
        paths += [os.path.join(folder, file) for folder in [quick.write(upload, month.stage.built)]
                  for file in os.listdir(folder) if file.endswith(".deb")]
    month.stage.archive.add(*paths)
    month.sourceless.add(name)
    for _ in range(7):
        yield None
    if month.testing.rows.get((name, "amd64")) != "1.0":
        month.problem(f"{name}, which has no source, isn't in testing behind seven days")


def chain(month: Simulation) -> Steps:
    """Five sources that need one another leave at once: testing loses all of them in a day."""
    names = [f"chain{number}" for number in range(5)]
    for name, needed in zip(names, ["", *names]):
        kept = Kept(name, packages=[Package(name, needed)])
        month.world.sources[name] = kept
        month.world.untouched.add(name)
        comes(month, kept, "critical")
    yield None
    yield None
    for name in names:
        month.do(Leave(name))
        month.world.forget(name)
    yield None
    left = [name for name in names if name in month.testing.sources]
    if left:
        month.problem(f"sources of a chain that is gone are in testing: {left}")


def truncated(month: Simulation) -> Steps:
    """The archive's indexes are cut short. A person publishes them again."""
    month.stage.archive.ready()
    folder = os.path.join(month.stage.archive.ordered(), "main/binary-amd64")
    for name in os.listdir(folder):
        if name.startswith("Packages"):
            os.truncate(os.path.join(folder, name), os.path.getsize(os.path.join(folder, name)) // 2)
    month.day((0, 1, 3, 4))
    month.stage.archive.export()
    yield None


def put_back_old(month: Simulation) -> Steps:
    """The archive is put back from the copy of the morning, and the day's uploads come once more."""
    save(month.stage.folder, month.stage.archive.place)
    kept = settled(month)
    upload = renewed(month, kept, "medium")
    month.day()
    put_back(month.stage.folder, month.stage.archive.place)
    ran = month.day((0, 1, 3))
    if ran.status == 3:
        month.obey(ran)
    month.stage.takes([upload])
    month.stage.archive.ready()
    month.stage.archive.export()
    month.world.untouched.discard(kept.name)
    yield None


# What is wrong with orders and mail

def missed_apply(month: Simulation) -> Steps:
    """What was ordered isn't applied that day, and on the next there is a newer version. Nothing is lost."""
    kept = settled(month)
    first = renewed(month, kept, "critical")
    accepted(month)
    yield SKIP
    renewed(month, kept, "low")
    month.day()
    seen = month.published().sources.get(kept.name)
    if seen != first.version:
        month.problem(f"{kept.name} {first.version} was decided and isn't published: {seen}")
    month.world.untouched.discard(kept.name)
    yield None


def by_hand(month: Simulation) -> Steps:
    """A person gives an age and orders at noon; then a newer version comes."""
    kept = settled(month)
    first = renewed(month, kept, "low")
    yield None
    month.do(Hint(f"noon{month.number}", f"age-days 0 {kept.name}/{first.version}"))
    ordered(month)
    renewed(month, kept, "low")
    month.world.untouched.discard(kept.name)
    yield None


def ordered(month: Simulation) -> None:
    """A person orders a run."""
    month.look_at(ran_by("office-order", "--url", month.stage.office.url, "--send", month.today), (0, 1))


def two_orders(month: Simulation) -> Steps:
    """Two orders by hand for one day."""
    ordered(month)
    ordered(month)
    yield None


def third_rebuild(month: Simulation) -> Steps:
    """A source is rebuilt three times on one architecture alone. Testing gets the last one."""
    kept = settled(month)
    name = kept.packages[0].name
    for _ in range(3):
        kept.rebuilds += 1
        comes(month, kept, "medium", architectures=BOTH[1:])
        yield None
    version = month.testing.rows.get((name, BOTH[1]), "")
    if not version.endswith("+b3"):
        month.problem(f"{name} +b3 of {BOTH[1]} isn't in testing: {version}")
    kept.rebuilds = 3
    month.world.untouched.discard(kept.name)


def hasty(month: Simulation) -> Steps:
    """A rebuild is blocked, and then comes a new version: it has to wait as long as any other."""
    kept = settled(month)
    month.do(Hint("hasty", f"block {kept.name}"))
    kept.rebuilds += 1
    comes(month, kept, "medium")
    yield None
    renewed(month, kept, "medium")
    month.do(Unhint("hasty"))
    month.world.untouched.discard(kept.name)
    yield None


def bad_hint(month: Simulation) -> Steps:
    """A malformed hint by mail is refused, and takes no number."""
    service = month.stage.office.service
    number = service.kept()["rt"].unbroken + 1
    reply = service.post("/mail", f"From: rt\nNumber: {number}\nKind: hint\nHint: easy lone 1.0-1\n".encode())
    if reply.is_good or service.kept()["rt"].unbroken != number - 1:
        month.problem(f"a malformed hint was taken: {reply.text}")
    yield None


def gap(month: Simulation) -> Steps:
    """A message of the bug tracker is late: no order covers what follows it without a word, and then it comes."""
    kept = settled(month)
    renewed(month, kept, "critical")
    month.world.bugs += 1
    bug = Bug(month.world.bugs, kept.name, "serious", kept.version)
    month.books.bugs[bug.number] = bug
    number = month.stage.office.service.kept()["bts"].unbroken + 1
    text = (f"From: bts\nNumber: {number + 1}\nKind: bug\nBug: {bug.number}\nSource: {bug.source}\n"
            f"Severity: {bug.severity}\nFound: {bug.found}\n")
    month.stage.office.service.post("/mail", text.encode())
    refused(month)
    month.stage.office.service.post("/mail", f"From: bts\nNumber: {number}\nKind: none\n".encode())
    yield None
    month.do(dataclasses.replace(bug, severity="normal"))
    month.world.untouched.discard(kept.name)


def listed(month: Simulation) -> Steps:
    """A bug tracker lists a bug that nobody mails. It holds its source up until the list has it no more."""
    kept = settled(month)
    renewed(month, kept, "critical")
    month.stage.bugs = [os.path.join(month.stage.folder, f"bugs-{suite}") for suite in ("unstable", "testing")]
    write_lists(month, f"src:{kept.name} 7001\nsrc:base 7002\n", "src:base 7002\n")
    month.books.held[kept.name] = kept.version
    yield None
    write_lists(month, "src:base 7002\n", "src:base 7002\n")
    del month.books.held[kept.name]
    yield None
    if month.published().sources.get(kept.name) != kept.version:
        month.problem(f"{kept.name} {kept.version} isn't published, whose bug is in no list any more")
    month.world.untouched.discard(kept.name)


def write_lists(month: Simulation, *texts: str) -> None:
    """The tracker lists bugs of unstable and of testing."""
    for path, text in zip(month.stage.bugs, texts):
        with open(path, "w", encoding="utf-8") as file:
            file.write(text)


def undecided(month: Simulation) -> Steps:
    """The service was ended after an order, before it decided; then a bug leaves the lists.

    The day's command has that run finished as it was ordered. After that it mails the bug, and orders one more run,
    which moves the source.
    """
    kept = settled(month)
    renewed(month, kept, "critical")
    month.stage.bugs = [os.path.join(month.stage.folder, f"bugs-{suite}") for suite in ("unstable", "testing")]
    write_lists(month, f"src:{kept.name} 7003\nsrc:base 7002\n", "src:base 7002\n")
    month.day()
    cut = cut_off(month)
    write_lists(month, "src:base 7002\n", "src:base 7002\n")
    yield None
    accepted = f"accept {kept.name} {kept.version}"
    runs = [number for number in (cut, cut + 1) if accepted in month.stage.office.update(number)]
    if runs != [cut + 1] or month.published().sources.get(kept.name) != kept.version:
        month.problem(f"{accepted} is in the runs {runs}, and has to be in {cut + 1} alone, the one after that cut off")
    month.world.untouched.discard(kept.name)


def cut_off(month: Simulation) -> int:
    """Leaves an order in the store that no run was made for: the number of that run."""
    office = month.stage.office
    text = office.service.good_text(f"/order/{month.today}")
    kept = office.service.kept()
    number = kept["clock"].unbroken + 1
    office.stop(signal.SIGKILL)
    with sqlite3.connect(office.store) as store:
        store.execute("insert into mail (sender, number, body) values (?, ?, ?)",
                      (list(kept).index("clock"), number, text.encode()))
    store.close()
    office.start(month.setup)
    return number


# What is wrong with the machine

def twice(month: Simulation) -> Steps:
    """The day's command is run again, and publishes nothing else. Hints that are done are taken back, once."""
    month.day()
    before = month.stage.digest()
    month.day()
    if before != month.stage.digest():
        month.problem("a second day's command changed what is published")
    told = numbers(month)
    month.day()
    if told != numbers(month):
        month.problem(f"a third day's command told more: {told}, {numbers(month)}")
    yield None


def numbers(month: Simulation) -> Mapping[str, int]:
    """How much mail each sender has."""
    return {sender: kept.greatest for sender, kept in month.stage.office.service.kept().items()}


def nothing_run(month: Simulation) -> Steps:
    """Nothing runs for three days."""
    for _ in range(3):
        yield SKIP
    yield None


def killed_feed(month: Simulation) -> Steps:
    """The day's command is ended by force, at a message that it posts; by turns before and after that."""
    spy = Spy(month.stage.office.url)
    month.stage.url = spy.url
    try:
        for number in range(1, 4):
            process = month.started()
            spy.arm(-process.pid, number, number % 2 == 0)
            process.wait(120)
            spy.process = None
    finally:
        month.stage.url = ""
        spy.close()
    spy.check()
    yield None


def killed_service(month: Simulation) -> Steps:
    """The service is ended by force while the day's command posts. It starts again, and so does the command."""
    office = month.stage.office
    spy = Spy(office.url)
    month.stage.url = spy.url
    try:
        for number in (1, 2):
            if office.process is not None:
                spy.arm(office.process.pid, number, number % 2 == 0)
            month.day((0, 1, 3, 4))
            spy.process = None
            office.stop(signal.SIGKILL)
            office.start(month.setup)
    finally:
        month.stage.url = ""
        spy.close()
    yield None


WRAPPER = """#!/bin/sh
number=$(($(cat "{folder}/counted" 2>/dev/null || echo 0) + 1))
echo "$number" > "{folder}/counted"
[ "$number" = "{at}" ] || exec /usr/bin/{manager} "$@"
/usr/bin/{manager} "$@" &
sleep 0.0{delay}
kill -9 $!
{more}
exit 137
"""


def killed_manager(month: Simulation) -> Steps:
    """The archive's manager is ended by force in the middle; by turns the command that started it, too."""
    manager = "reprepro" if month.is_reprepro else "aptly"
    folder = os.path.join(month.stage.folder, "wrappers")
    os.makedirs(folder, exist_ok=True)
    path = os.environ["PATH"]
    for turn in range(4):
        at, delay = month.world.random.randint(3, 9), month.world.random.randint(1, 9)
        with open(os.path.join(folder, manager), "w", encoding="utf-8") as file:
            file.write(WRAPPER.format(folder=folder, at=at, delay=delay, manager=manager,
                                      more='kill -9 "$PPID"' if turn % 2 else ""))
        os.chmod(os.path.join(folder, manager), 0o755)
        if os.path.exists(os.path.join(folder, "counted")):
            os.unlink(os.path.join(folder, "counted"))
        os.environ["PATH"] = f"{folder}:{path}"
        try:
            process = month.started()
            process.wait(300)
        finally:
            os.environ["PATH"] = path
        unlocked(month)
    yield None


def unlocked(month: Simulation) -> None:
    """If reprepro left its lock, the day's command continues, or says which file a person removes."""
    lock = os.path.join(month.stage.archive.base, "db/lockfile")
    if not month.is_reprepro or not os.path.exists(lock):
        return
    ran = month.day((0, 1, 3, 4))
    if ran.status > 1:
        if "lockfile" not in ran.err:
            month.problem(f"a left lock isn't told: {ran.err[-500:]}")
        month.by_hand += 1
        os.unlink(lock)


def left_lock(month: Simulation) -> Steps:
    """reprepro's lock was left."""
    if month.is_reprepro:
        with open(os.path.join(month.stage.archive.base, "db/lockfile"), "w", encoding="utf-8"):
            pass
        unlocked(month)
    yield None


def full_disk(month: Simulation) -> Steps:
    """The disk is full, at several points. With room again all is right."""
    fill = os.path.join(month.stage.folder, "fill")
    for room in (0, 12, 48) if month.has_disk else ():
        state = os.statvfs(month.stage.folder)
        with open(fill, "wb") as file:
            left = max(0, state.f_bavail * state.f_frsize - room * 1024)
            while left:
                left -= os.write(file.fileno(), b"\0" * min(left, 1 << 20))
        month.day((0, 1, 3, 4))
        os.unlink(fill)
        unlocked(month)
    yield None


def clock_back(month: Simulation) -> Steps:
    """The system's clock is twenty days back, and later forty days ahead. Both days are refused.

    An index that is of a later day by that clock, as aptly's is, which has its own, is a fault to apt before that.
    """
    if shutil.which("faketime"):
        for days in (-20, 40):
            ran = refused(month, (3, 4), day_text(month.number + days))
            if ran.status == 4 and "is not valid yet" not in ran.err:
                month.problem(f"a wrong clock isn't told:\n{ran.err[-1500:]}")
    else:
        month.note("(no faketime)")
    yield None


def restored(month: Simulation) -> Steps:
    """The store of three days ago is put back. Its missing mail comes back by the command that the refusal names.

    That is mail up to the last feed. So the day's command is run before: later mail is in no bag.
    """
    office = month.stage.office
    office.stop()
    save(month.stage.folder, "store.db")
    office.start(month.setup)
    kept = settled(month)
    renewed(month, kept, "medium")
    yield None
    month.world.bugs += 1
    bug = Bug(month.world.bugs, kept.name, "serious", kept.version)
    month.do(bug)
    yield None
    month.day()
    office.stop()
    clear(month.stage.folder)
    put_back(month.stage.folder, "store.db")
    office.start(month.setup)
    month.obey(refused(month))
    yield None
    for _ in range(5):
        yield None
    month.do(dataclasses.replace(bug, severity="normal"))
    month.world.untouched.discard(kept.name)


# Files that nobody can read

def bad_changes(month: Simulation) -> Steps:
    """Files .changes that are none lie in the folder from here on."""
    folder = os.path.join(month.stage.folder, "changes")
    kept = settled(month)
    far = (f"Source: {kept.name}\nVersion: 99\nArchitecture: source\nUrgency: low\n"
           "Date: Sat, 01 Mar 99999999999999999999 10:00:00 +0100\n")
    texts = {"byte": b"\x81", "empty": b"", "far": far.encode()}
    for name, text in texts.items():
        with open(os.path.join(folder, f"bad-{name}.changes"), "wb") as file:
            file.write(text)
    os.makedirs(os.path.join(folder, "folder.changes"), exist_ok=True)
    month.world.untouched.discard(kept.name)
    yield None


def strange_field(month: Simulation) -> Steps:
    """A package has a field whose name isn't UTF-8. A person takes it out, where the day is refused for it."""
    name = f"strange{month.number}"
    control = f"Package: {name}\nVersion: 1\nArchitecture: all\nMaintainer: A <a@example.org>\nSection: misc\n" \
        "Priority: optional\n"
    path = os.path.join(month.stage.folder, f"{name}_1_all.deb")
    with open(path, "wb") as file:
        file.write(quick.deb(control.encode() + b"X-\xc3: y\nDescription: tiny\n"))
    try:
        month.stage.archive.add(path)
    except Failed:
        month.note("(the archive refuses it)")
        return
    month.sourceless.add(name)
    ran = month.day((0, 1, 3))
    if ran.status == 3:
        month.by_hand += 1
        month.stage.archive.drop_package(name)
    yield None


def strange_blank(month: Simulation) -> Steps:
    """A package has a no-break space in a relation. It is left out, and all else moves; so does a mended version."""
    name = f"blank{month.number}"
    kept = Kept(name, packages=[Package(name, "base\u00a0(>= 1)")])
    try:
        comes(month, kept, "critical")
    except Failed:
        month.books.leave(name)
        month.note("(the archive refuses it)")
        return
    month.books.held[name] = kept.version
    yield None
    kept.packages = [Package(name, "base")]
    renewed(month, kept, "critical")
    yield None


USUAL: Mapping[int, Sequence[Trouble]] = {
    2: [withdrawn, bad_changes], 3: [without_source, twice], 4: [conflict], 5: [third_rebuild], 6: [short_index],
    7: [listed], 8: [killed_feed, chain], 9: [by_hand], 10: [withdrawn_late, two_orders], 11: [restored],
    13: [killed_manager], 14: [missed_apply, own_date, bad_hint], 15: [undecided], 16: [came_back, left_lock],
    17: [put_back_old], 18: [strange_blank, strange_field], 19: [killed_service, hasty], 20: [needed_gone, gap],
    21: [nothing_run], 24: [clock_back, truncated], 25: [full_disk]}
BRIEF: Mapping[int, Sequence[Trouble]] = {
    1: [withdrawn, bad_changes], 2: [restored, conflict], 3: [short_index], 4: [listed, replaced],
    5: [killed_feed, strange_blank], 6: [gap]}
"""On which days which faults begin, in a long month and in a short one."""
