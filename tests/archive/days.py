"""The days of the tests: what comes to unstable and goes, what is sent by hand, and what each run has to do.

The lines of the updates are worked out by hand from docs/RULES.md, part 12; an upload is as old as its first feed. Each
of the ways of docs/ARCHIVE.md is one of these days.
"""
from dataclasses import dataclass
from typing import Optional, Sequence

from packages import FOO_2, FOO_3, TWELVE, Package, Upload

Letter = tuple[str, ...]  # a sender, the kind, and the further lines of a message


@dataclass(frozen=True)
class Day:
    """A day: `gone` are sources, `less` binary packages, on an architecture or on all, that leave unstable.

    `words` are further ones of office-feed. Its run leaves something to be sent, where it isn't settled: sources that
    have to leave testing next, or hints that are done. `status` is that of office-feed: 1 if it uses its last spare.
    """

    title: str
    day: str
    update: Sequence[str]
    uploads: Sequence[Upload] = ()
    gone: Sequence[str] = ()
    less: Sequence[tuple[str, Optional[str]]] = ()
    mail: Sequence[Letter] = ()
    is_settled: bool = True
    words: Sequence[str] = ()
    status: int = 0


def upload(source: str, version: str, day: str) -> Letter:
    """An upload that is sent by hand."""
    return ("hand", "upload", f"Source: {source}", f"Version: {version}", "Urgency: critical", f"Day: {day}")


def row(name: str, version: str, architecture: str, source: str, depends: str = "") -> str:
    """A paragraph of a build that is sent by hand."""
    fields = [("Package", name), ("Version", version), ("Architecture", architecture), ("Source", source),
              ("Depends", depends)]
    return "\n" + "\n".join(f"{field}: {value}" for field, value in fields if value)


def hint(words: str) -> Letter:
    """A hint."""
    return ("rt", "hint", f"Hint: {words}")


def unhint(number: int) -> Letter:
    """What takes a hint back."""
    return ("rt", "unhint", f"Cancels: {number}")


WAITING = [f"wait {name} {version} uninstallable amd64 {package}" for name, version, package in (
    ("app1", "1.0-1", "app1"), ("base", "12-1", "base"), ("cyca", "1-1", "cyca"), ("cycb", "1-1", "cycb"),
    ("guide", "5-1", "guide-doc"), ("libbase", "3-1", "libbase1"), ("mailer", "5-2", "mailer"),
    ("postie", "1:0.4-1", "postie"), ("tool", "1-1", "tool"))]

DUO_WAITS = "wait duo 1-1 uninstallable amd64 duo-bad"

MARCH_9 = [Upload("libfoo", "2.0-1", "2025-03-09", FOO_2),
           Upload("app1", "1.1-1", "2025-03-09", [Package("app1", "libfoo2 (>= 2.0), base")]),
           Upload("app2", "2.0-2", "2025-03-09", [Package("app2", "libfoo2 (>= 2.0)")]),
           Upload("lone", "0.2-1", "2025-03-09", [Package("lone")], "critical")]
MARCH_16 = [Upload("guide", "6-1", "2025-03-16", [Package("guide-doc", "app1", is_all=True)], "low", ("amd64",)),
            Upload("lone", "0.3-1", "2025-03-16", [Package("lone")], "critical")]
DUO = Upload("duo", "1-1", "2025-03-18", [Package("duo"), Package("duo-bad", "nosuch")], "critical")
LONE_AGAIN, LONE_TWICE = (Upload("lone", "0.3-1", "2025-03-19", [Package("lone")], architectures=("amd64",),
                                 rebuild=number) for number in (1, 2))
MARCH_20 = [Upload("libfoo", "3.0-1", "2025-03-20", FOO_3, "critical"),
            Upload("app1", "1.2-1", "2025-03-20", [Package("app1", "libfoo3 (>= 3.0), base")], "critical")]
APP2_LAST = Upload("app2", "2.0-3", "2025-03-21", [Package("app2", "libfoo3 (>= 3.0)")], "critical")

DAYS: Sequence[Day] = (
    Day("the first day", "2025-03-06", ["accept libfoo 1.0-1", "accept lone 0.1-1", *WAITING], TWELVE),
    Day("groups by hints, and fewer days", "2025-03-07",
        ["easy 1 accept base 12-1 libbase 3-1", "easy 2 accept cyca 1-1 cycb 1-1", "accept app1 1.0-1",
         "accept app2 2.0-1", "accept guide 5-1", "accept postie 1:0.4-1", "accept tool 1-1", "accept mailer 5-2"],
        mail=[hint("easy base/12-1 libbase/3-1"), hint("easy cyca/1-1 cycb/1-1"), hint("age-days 3 app2/2.0-1")]),
    Day("a library with a new name is too young", "2025-03-10", ["accept lone 0.2-1"], MARCH_9,
        mail=[unhint(1), unhint(2)]),
    Day("and waits alone", "2025-03-15", [
        "wait app1 1.1-1 uninstallable amd64 app1", "wait app2 2.0-2 uninstallable amd64 app2",
        "wait libfoo 2.0-1 uninstallable amd64 app1"]),
    Day("and moves with all that needs it", "2025-03-16", ["easy 6 accept libfoo 2.0-1 app1 1.1-1 app2 2.0-2"],
        mail=[hint("easy libfoo/2.0-1 app1/1.1-1 app2/2.0-2")]),
    Day("a source leaves unstable; a test that failed is a bug", "2025-03-17", ["remove 8 accept tool 1-1"], MARCH_16,
        gone=["tool"], less=[("libfoo1", None)],
        mail=[unhint(6), ("bts", "bug", "Bug: 900000001", "Source: lone", "Severity: serious", "Found: 0.3-1")],
        is_settled=False),
    Day("half of a source can't be installed; the test is tried again", "2025-03-18",
        ["accept lone 0.3-1", DUO_WAITS], [DUO],
        mail=[("bts", "bug", "Bug: 900000001", "Source: lone", "Severity: wishlist", "Found: 0.3-1")]),
    Day("a rebuild on one architecture", "2025-03-19", ["accept lone 0.3-1+b1", DUO_WAITS], [LONE_AGAIN],
        mail=[upload("lone", "0.3-1+b1", "2025-03-19"),
              ("again1", "build", row("lone", "0.3-1+b1", "amd64", "lone (0.3-1+b1)"),
               row("lone", "0.3-1", "arm64", "lone (0.3-1+b1)"))]),
    Day("a rebuild that the feed tells by itself", "2025-03-19", ["accept lone 0.3-1+b2", DUO_WAITS], [LONE_TWICE],
        words=["--rebuilds"], status=1),
    Day("an old library stays beside the new one", "2025-03-20",
        ["accept smooth-libfoo2 2.0-1", "accept libfoo 3.0-1", "accept app1 1.2-1", DUO_WAITS], MARCH_20,
        mail=[upload("smooth-libfoo2", "2.0-1", "2025-03-20"),
              ("again1", "build", row("libfoo2", "2.0-1", "amd64", "smooth-libfoo2"),
               row("libfoo2", "2.0-1", "arm64", "smooth-libfoo2"))]),
    Day("until nothing needs it", "2025-03-21",
        ["remove 10 refuse smooth-libfoo2 2.0-1 uninstallable amd64 app2", "accept app2 2.0-3", DUO_WAITS],
        [APP2_LAST], less=[("libfoo2", None)], mail=[hint("remove smooth-libfoo2/2.0-1")]),
    Day("a package leaves one architecture; a cycle leaves", "2025-03-24",
        ["remove 10 accept smooth-libfoo2 2.0-1", "accept cyca 1-1+gone", "accept cycb 1-1+gone",
         "accept mailer 5-2+b1", DUO_WAITS],
        gone=["cyca", "cycb"], less=[("mailer", "arm64")],
        mail=[upload("mailer", "5-2+b1", "2025-03-24"),
              ("again1", "build", row("mailer", "5-2", "amd64", "mailer (5-2+b1)", "mta (>= 1)")),
              upload("cyca", "1-1+gone", "2025-03-24"), upload("cycb", "1-1+gone", "2025-03-24"),
              ("again1", "build", row("cyca", "1-1+gone", "amd64", "cyca"), row("cyca", "1-1+gone", "arm64", "cyca"),
               row("cycb", "1-1+gone", "amd64", "cycb"), row("cycb", "1-1+gone", "arm64", "cycb"))],
        is_settled=False),
    Day("as one", "2025-03-27",
        ["remove 11 accept cyca 1-1+gone", "remove 12 accept cycb 1-1+gone", "accept guide 6-1", DUO_WAITS],
        is_settled=False))
