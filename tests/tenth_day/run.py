#!/usr/bin/python3
"""Two weeks of an archive of 46 sources, as a release manager has them: a transition, removals, a freeze, rebuilds.

Usage: run.py OFFICE

OFFICE is the built program. An office adopts the testing of world.py and serves it. Each day mail comes, a run is
ordered, and its update and some of its excuses have to be those that are due by docs/RULES.md. Then come slips and ways
round. In the end the store is whole, and office-ask has answered as the program does over it. The last line is
`N passed, N failed`; the exit status is 1 if one failed.
"""
import datetime
import os
import signal
import subprocess
import sys
import tempfile
from pathlib import Path
from typing import Sequence

from world import ARCHITECTURES, TESTING, Binary, common, every, packages, sources

TOP = Path(__file__).resolve().parents[2]
os.environ.setdefault("OFFICE_PLAN", str(TOP / "crates/office_plan/out/office_plan"))
os.environ.setdefault("OFFICE_SYNC", str(TOP / "crates/office_sync/out/office_sync"))
sys.path[:0] = [str(TOP / "tools"), str(TOP / "tests")]
sys.dont_write_bytecode = True
import serving  # noqa: E402
from office_tools.service import Service  # noqa: E402

BEGIN = datetime.date(2026, 1, 7)
LATER = {"notes": common("notes"), "theme": common("theme", "icons"), "helper": every("helper", "libc6"),
         "extra": every("extra", "libfoo2")}
SOURCES = sorted([*TESTING, "newapp", "brandnew", *LATER])
LIBFOO2 = [every("libfoo2", "libc6"), every("libfoo-dev", "libfoo2 (= 2.0-1)")]
APPS = {"app-a": ("1.0-2", [every("app-a", "libfoo2")]), "app-c": ("3-2", [every("app-c", "libfoo2")]),
        "app-b": ("0.9-2", [every("app-b", "libfoo2, app-b-data"), common("app-b-data")])}
REBUILT = {"app-d": ("7.0-1+b1", [every("app-d", "libfoo2")]),
           "plugin-e": ("2-1+b1", [every("plugin-e", "libfoo2, app-a")])}
GROUP = ["app-a/1.0-2", "app-b/0.9-2", "app-c/3-2", "app-d/7.0-1+b1", "libfoo/2.0-1", "plugin-e/2-1+b1"]


class Counts:
    """How many things came out as due."""

    passed = failed = 0

    def expect(self, what: str, due: object, found: object) -> None:
        """Compares what is due with what came."""
        if due == found:
            self.passed += 1
            return
        self.failed += 1
        print(f"not ok: {what}\n  due:   {due!r}\n  found: {found!r}", flush=True)


class Archive:
    """A running office, and the senders of an archive."""

    def __init__(self, program: str, folder: str, counts: Counts) -> None:
        self.program, self.counts = program, counts
        self.setup, self.store = f"{folder}/week/setup.conf", f"{folder}/store.db"
        self.served = serving.Service(program, "--db", self.store, conf=self.setup)
        self.service = Service(self.served.url)
        self.day = 0

    def tool(self, name: str, *words: str, given: str = "") -> "subprocess.CompletedProcess[str]":
        """Runs a tool."""
        return subprocess.run([str(TOP / "tools/bin" / name), *words], input=given, capture_output=True, text=True,
                              env={**os.environ, "OFFICE": self.program}, check=False)

    def office(self, *words: str, given: bytes = b"") -> "subprocess.CompletedProcess[bytes]":
        """Runs the program over the store."""
        return subprocess.run([self.program, *words, "--conf", self.setup, "--db", self.store], input=given,
                              capture_output=True, check=False)

    def adopt(self, folder: str) -> None:
        """An office begins with the archive's testing, in which nothing waits."""
        for architecture in ARCHITECTURES:
            Path(folder, architecture).write_text("\n".join(packages(architecture)))
        Path(folder, "Sources").write_text("\n".join(sources()))
        told = self.tool("office-adopt", "--day", BEGIN.isoformat(), "--sources", f"{folder}/Sources", f"{folder}/week",
                         *[f"{folder}/{architecture}" for architecture in ARCHITECTURES])
        count = sum(len(binary.architectures(ARCHITECTURES)) for _, of in TESTING.values() for binary in of)
        due = f"adopted: {len(TESTING)} sources, {count} packages; 0 wait, 0 refused"
        self.counts.expect("adoption", due, told.stdout.strip().split("\n")[-1])
        self.office("replay", given=Path(folder, "week/bag").read_bytes())

    def serve(self) -> None:
        """Starts the service."""
        assert self.served.start()

    def end(self) -> None:
        """Ends the service."""
        if self.served.runs:
            self.served.end(signal.SIGTERM)

    def mail(self, sender: str, kind: str, *lines: str) -> str:
        """Mails a message under the sender's next number: the reply."""
        number = self.service.kept()[sender].unbroken + 1
        text = "\n".join([f"From: {sender}", f"Number: {number}", f"Kind: {kind}", *lines]) + "\n"
        reply = self.service.post("/mail", text.encode()).text
        self.counts.expect(text, f"held {sender} {number}", reply)
        return reply

    def upload(self, name: str, version: str, urgency: str = "medium", sender: str = "ftp") -> None:
        """A source is uploaded today."""
        fields = {"Source": name, "Version": version, "Urgency": urgency, "Day": self.date}
        self.mail(sender, "upload", *[f"{field}: {value}" for field, value in fields.items()])

    def build(self, source: str, binaries: Sequence[Binary], version: str, built: Sequence[str] = ARCHITECTURES,
              sender: str = "bd") -> None:
        """Packages are built, of a source that may be named with its version."""
        own = source.partition(" ")[0] if source.endswith(f"({version})") else source
        for binary in binaries:
            for architecture in binary.architectures(built):
                self.mail(sender, "build", "", binary.paragraph(version, architecture, own).rstrip("\n"))

    def new(self, name: str, version: str, binaries: Sequence[Binary], urgency: str = "medium",
            built: Sequence[str] = ARCHITECTURES) -> None:
        """A source is uploaded and built."""
        self.upload(name, version, urgency)
        self.build(name, binaries, version, built)

    def hint(self, *words: str, status: int = 0) -> str:
        """Hints are mailed by office-hint."""
        own = ["--url", self.service.url, "--day", self.date, "--by", "elbrus"]
        told = self.tool("office-hint", *own, "--yes", *words)
        self.counts.expect(f"office-hint {words}: {told.stdout}{told.stderr}", status, told.returncode)
        return told.stdout

    def ask(self, *words: str) -> tuple[str, int]:
        """What office-ask prints, and its status."""
        told = self.tool("office-ask", *words, "--url", self.service.url, "--conf", self.setup)
        return told.stdout, told.returncode

    @property
    def date(self) -> str:
        """The day that is today in this story."""
        return (BEGIN + datetime.timedelta(self.day)).isoformat()

    def run(self, *due: str) -> None:
        """A run is ordered for today; the lines of its update are due, numbers of hints as `#`."""
        told = self.tool("office-order", "--url", self.service.url, "--send", self.date)
        self.counts.expect(f"the order of day {self.day}: {told.stderr}", 0, told.returncode)
        run = self.service.status().finished
        lines = [change.line for change in self.service.update(run).changes]
        found = [" ".join("#" if place == 1 and words[0] in ("easy", "remove") else word
                          for place, word in enumerate(words)) for words in map(str.split, lines)]
        self.counts.expect(f"the update of day {self.day}", list(due), found)

    def excuse(self, source: str, *due: str) -> None:
        """The lines of a source's excuse are due: its age, or "" for any, and its reasons."""
        excuses = self.service.excuses(self.service.status().finished).excuses
        found = next((excuse for excuse in excuses if excuse.source == source), None)
        lines = [f"{found.age} of {found.needed}", *[reason.text for reason in found.reasons]] if found else []
        shown = lines[1:] if due[:1] == ("",) else lines
        self.counts.expect(f"the excuse of {source} on day {self.day}", [line for line in due if line], shown)

    def next_day(self) -> None:
        """It is the next day."""
        self.day += 1


def transition_begins(archive: Archive) -> None:
    """Days 1 to 3: uploads, a library's new name, a bug, rebuilds with and without an upload, urgent uploads."""
    archive.next_day()
    for name, version, binaries, urgency in [
            ("libfoo", "2.0-1", LIBFOO2, "medium"), ("doc-tool", "1.1-1", [common("doc-tool", "perl")], "medium"),
            ("browser", "101-1", [every("browser", "libtk, libssl3")], "medium"),
            ("curl", "7.88-2", [every("curl", "libssl3, zlib1g")], "high")]:
        archive.new(name, version, binaries, urgency)
    archive.new("editor", "1.2-1", [every("editor", "libtk")], "low", ("amd64",))
    archive.new("newapp", "1.0-1", [every("newapp", "libc6")], built=("amd64",))
    archive.run()
    archive.excuse("libfoo", "0 of 5", "too young")
    archive.excuse("curl", "0 of 2", "too young")
    archive.excuse("editor", "0 of 10", "too young", "missing on arm64")
    archive.excuse("newapp", "0 of 5", "too young")
    archive.next_day()
    archive.mail("bts", "bug", "Bug: 5001", "Source: doc-tool", "Severity: serious", "Found: 1.1-1")
    for name, (version, binaries) in APPS.items():
        archive.new(name, version, binaries)
    before = archive.service.kept()["bd"].unbroken
    for name, (version, binaries) in REBUILT.items():
        archive.build(f"{name} ({TESTING[name][0]})", binaries, version)
    archive.run()
    archive.excuse("doc-tool", "1 of 5", "too young", "new bug 5001")
    archive.excuse("app-d")
    told, status = archive.ask("why", "app-d")
    archive.counts.expect("why names a rebuild in unstable", ([
        f"why {archive.service.status().finished} app-d", "in testing 7.0-1",
        f"rebuilt amd64 app-d 7.0-1+b1 by bd {before + 1}", f"rebuilt arm64 app-d 7.0-1+b1 by bd {before + 2}"], 0),
        (told.splitlines()[:-1], status))
    own = "".join(f"broken {architecture} 1\nuninstallable {architecture} app-b 0.9-2 of app-b\n"
                  "unstable app-b 0.9-2 of app-b comes too\n" for architecture in ARCHITECTURES)
    archive.counts.expect("what a young source lacks", (
        f"breaks {archive.service.status().finished} app-b\n{own}"
        "1 app-b 0.9-2 of app-b comes in, needs libfoo2: nothing\n"
        "unstable libfoo2 2.0-1 of libfoo isn't a candidate: too young\n", 0), archive.ask("breaks", "app-b"))
    told, status = archive.ask("try", "age-days 0 libfoo/2.0-1")
    archive.counts.expect("a trial says it", (True, 0),
                          ("+update wait libfoo 2.0-1 uninstallable amd64 app-a\n" in told, status))
    archive.next_day()
    archive.new("openssl", "3.0-2", TESTING["openssl"][1], "critical")
    archive.run("accept curl 7.88-2", "accept openssl 3.0-2")


def removals(archive: Archive) -> None:
    """Days 4 and 5: removals in an order that is refused, and all is blocked but for the transition."""
    archive.next_day()
    archive.hint("age-days 3 browser/101-1")
    archive.hint("--force", "remove oldgame/1-1", "remove gamepack/1-1")
    archive.run("remove # refuse oldgame 1-1 uninstallable amd64 gamepack", "remove # accept gamepack 1-1",
                "accept browser 101-1")
    archive.next_day()
    archive.hint("block-all source", status=1)
    archive.hint("--force", "block-all source")
    archive.hint("unblock libfoo/2.0-1 app-a/1.0-2 app-b/0.9-2 app-c/3-2")
    archive.run("remove # accept oldgame 1-1")
    archive.excuse("editor", "4 of 10", "too young", "missing on arm64", "blocked")
    archive.excuse("libfoo", "4 of 5", "too young")


def broken(architecture: str) -> str:
    """What the new library breaks on an architecture while its users are too young, and the rebuilds no sources."""
    lines = [f"broken {architecture} {len(APPS) + len(REBUILT)}"]
    for name in sorted([*APPS, *REBUILT]):
        version, state = (APPS[name][0], "isn't a candidate: too young") if name in APPS else (
            REBUILT[name][0], "is in testing")
        lines += [f"uninstallable {architecture} {name} {TESTING[name][0]} of {name}",
                  f"unstable {name} {version} of {name} {state}"]
    return "\n".join(lines) + "\n"


def transition_ends(archive: Archive) -> None:
    """Days 6 to 9: the library waits for its users, until the rebuilds are sources and the office finds the group."""
    archive.next_day()
    archive.build("editor", [every("editor", "libtk")], "1.2-1", ("arm64",))
    archive.run("wait libfoo 2.0-1 uninstallable amd64 app-a")
    due = "".join(broken(architecture) for architecture in ARCHITECTURES)
    told, status = archive.ask("breaks", "libfoo")
    archive.counts.expect("all that a transition breaks", (
        f"breaks {archive.service.status().finished} libfoo\n{due}"
        "1 app-a 1.0-1 of app-a in testing, needs libfoo1 (>= 1.4): nothing\nleaves libfoo1 1.4-1\n"
        "unstable libfoo1 1.4-1 of libfoo isn't current\n", 0), (told, status))
    archive.next_day()
    alone = [f"wait {name} {APPS[name][0]} uninstallable amd64 {name}" for name in sorted(APPS)]
    archive.run(*alone, "wait libfoo 2.0-1 uninstallable amd64 app-a")
    archive.counts.expect("no group is proposed", ("", 1), archive.ask("propose"))
    archive.next_day()
    for name, (version, binaries) in REBUILT.items():
        archive.upload(name, version, "critical", "hand")
        archive.build(f"{name} ({version})", binaries, version, sender="again1")
    archive.hint(*[f"unblock {name}/{version}" for name, (version, _) in REBUILT.items()])
    archive.run(*alone, "wait app-d 7.0-1+b1 uninstallable amd64 app-d", "wait libfoo 2.0-1 uninstallable amd64 app-a",
                "wait plugin-e 2-1+b1 uninstallable amd64 plugin-e")
    proposed, status = archive.ask("propose")
    words = sorted(proposed.split(), key=is_item)
    archive.counts.expect("the group is proposed", (["easy", *GROUP], 0), (words, status))
    archive.next_day()
    archive.hint(proposed.strip())
    archive.hint("--take-back", "block-all source")
    archive.mail("bts", "bug", "Bug: 5001", "Source: doc-tool", "Severity: wishlist", "Found: 1.1-1")
    items = " ".join(item.replace("/", " ") for item in proposed.split()[1:])
    archive.run(f"easy # accept {items}", "accept doc-tool 1.1-1", "accept newapp 1.0-1")


def is_item(word: str) -> tuple[bool, str]:
    """What items are sorted by, after the word of the hint."""
    return "/" in word, word


def freeze(archive: Archive) -> None:
    """Days 10 to 14: packages are dropped, the editor's tenth day, longer delays, and a freeze."""
    archive.next_day()
    for architecture, package, version in [
            ("all", "gamepack", "1-1"), *[(on, "oldgame-engine", "1-1") for on in ARCHITECTURES],
            *[(on, "libfoo1", "1.4-1") for on in ARCHITECTURES]]:
        archive.mail("ftp", "drop", f"Package: {package}", f"Architecture: {architecture}", f"Version: {version}")
    archive.run()
    archive.excuse("gamepack", "", "no binaries", "removal asked")
    archive.next_day()
    archive.run("accept editor 1.2-1")
    archive.next_day()
    archive.mail("rt", "delays", "Low: 20", "Medium: 10", "High: 5", "Critical: 2")
    archive.hint("--force", "block-all source")
    archive.new("chat", "3-2", TESTING["chat"][1])
    archive.new("player", "2.2-2", TESTING["player"][1])
    archive.new("fonts", "2-2", TESTING["fonts"][1], "low")
    archive.new("brandnew", "1.0-1", [every("brandnew", "libc6")], "critical")
    for name, binary in LATER.items():
        archive.new(name, "1-1", [binary])
    archive.run()
    archive.excuse("brandnew", "0 of 2", "too young", "blocked")
    archive.excuse("fonts", "0 of 20", "too young", "blocked")
    archive.next_day()
    archive.mail("bts", "bug", "Bug: 5002", "Source: player", "Severity: grave", "Found: 2.2-2")
    for item in ("chat/3-2", "player/2.2-2", "brandnew/1.0-1"):
        archive.hint("--force", f"unblock {item}")
    archive.hint("--force", "age-days 0 chat/3-2 player/2.2-2")
    archive.run("accept chat 3-2")
    archive.excuse("player", "1 of 0", "new bug 5002")
    archive.excuse("brandnew", "1 of 2", "too young")
    archive.next_day()
    archive.run("accept brandnew 1.0-1")


def slips(archive: Archive) -> None:
    """What would do harm is warned of or refused before it is mailed, and what has done its work is taken back."""
    text = "From: bts\nNumber: 4\nKind: bug\nBug: 5002\nSource: chat\nSeverity: serious\n"
    told = archive.tool("office-lint", "--url", archive.service.url, "--today", archive.date, "-", given=text)
    archive.counts.expect("one bug of two sources",
                          ("-:5: warning: bug 5002 was of player, which no longer has it then\n", 1),
                          (told.stdout, told.returncode))
    told = archive.tool("office-order", "--url", archive.service.url, "--send", "2062-01-01")
    archive.counts.expect("an order of 2062", 3, told.returncode)
    archive.hint("--tidy")
    hints = [line.split(" ", 2)[2] for line in archive.ask("hints")[0].splitlines()[1:]]
    moved = [hint for hint in hints if hint.endswith(": moved")]
    # Another item of this hint is in force.
    archive.counts.expect("what has moved is taken back", ["covered age-days 0 chat/3-2: moved"], moved)


def ways_round(archive: Archive) -> None:
    """Removals by their order; a removal and a move that need each other, by a version that ends in `+gone`."""
    told = archive.ask("try", "remove qtlib/6.4-1 chat/3-2 player/2.2-1")[0]
    archive.counts.expect("removals, what is needed first", [
        "accept chat 3-2", "accept player 2.2-1", "refuse qtlib 6.4-1 uninstallable amd64 chat"], removed(told))
    told = archive.ask("try", "remove chat/3-2 player/2.2-1 qtlib/6.4-1")[0]
    archive.counts.expect("removals, what is needed last", [
        "accept chat 3-2", "accept player 2.2-1", "accept qtlib 6.4-1"], removed(told))
    archive.next_day()
    archive.hint("--take-back", "block-all source")
    archive.new("libq", "2-1", [every("libq2", "libc6"), every("qapp", "libq2")], "critical")
    archive.hint("age-days 0 libq/2-1")
    archive.hint("--force", "remove qplug/1-1")
    due = ["remove # refuse qplug 1-1 uninstallable amd64 qapp", "wait libq 2-1 uninstallable amd64 qplug"]
    archive.run(*due)
    archive.next_day()
    archive.hint("--take-back", "remove qplug/1-1")
    archive.upload("qplug", "1-1+gone", "critical", "hand")
    archive.build("qplug", [every("qplug")], "1-1+gone", sender="again1")
    archive.hint("age-days 0 qplug/1-1+gone")
    archive.run("accept qplug 1-1+gone", "accept libq 2-1")
    archive.next_day()
    archive.hint("remove qplug/1-1+gone")
    archive.run("remove # accept qplug 1-1+gone")


def removed(told: str) -> Sequence[str]:
    """What a trial says of removals, without the number, sorted."""
    return sorted(line.split(" ", 3)[3] for line in told.splitlines() if line.startswith("+update remove "))


def stopped(archive: Archive) -> None:
    """The store is whole, and the program answers over it what office-ask printed of the service, byte for byte."""
    asked = [["why", *SOURCES], ["why", "nosuch"], ["hints"], ["runs"], ["mail"], ["waiting"], ["report", "testing"],
             ["propose"], ["propose", "nosuch"], ["propose", "glibc"], ["report", "unstable"],
             ["try", "remove glibc/2.36-9"],
             ["breaks", "remove glibc/2.36-9", "easy toolkit/4.8-1 chat/9", "editor", "nosuch"],
             ["why", "--run", "8", "libfoo", "app-d"]]
    told = [archive.ask(*words) for words in asked]
    archive.end()
    for words, (text, status) in zip(asked, told):
        found = archive.office(*words)
        archive.counts.expect(" ".join(words), (text, status), (found.stdout.decode(), found.returncode))
    runs = archive.office("runs").stdout.decode().count("\n")
    archive.counts.expect("the store", f"whole {runs} runs\n", archive.office("check").stdout.decode())


def main() -> int:
    """Lives through the days."""
    counts = Counts()
    with tempfile.TemporaryDirectory() as folder:
        archive = Archive(os.path.realpath(sys.argv[1]), folder, counts)
        archive.adopt(folder)
        archive.serve()
        try:
            for part in (transition_begins, removals, transition_ends, freeze, slips, ways_round, stopped):
                part(archive)
        finally:
            archive.end()
    print(f"{counts.passed} passed, {counts.failed} failed")
    return 1 if counts.failed else 0


if __name__ == "__main__":
    sys.exit(main())
