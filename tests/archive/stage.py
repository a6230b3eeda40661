"""The stage of the tests: a running office, the commands under test, and archives of reprepro and aptly."""
import hashlib
import json
import os
import shutil
import signal
import subprocess
import sys
from dataclasses import dataclass
from typing import Callable, Iterator, Mapping, Optional, Protocol, Sequence

HERE = os.path.dirname(os.path.realpath(__file__))
TOP = os.path.dirname(os.path.dirname(HERE))
sys.path[:0] = [os.path.join(TOP, "tools"), os.path.join(TOP, "tests")]

import serving  # noqa: E402
from office_tools.messages import Paragraph, paragraphs  # noqa: E402
from office_tools.service import Service  # noqa: E402
from packages import BOTH, Upload, build  # noqa: E402

COMMANDS = os.path.join(TOP, "tools/bin")
os.environ.setdefault("OFFICE_PLAN", os.path.join(TOP, "crates/office_plan/out/office_plan"))
os.environ.setdefault("OFFICE_SYNC", os.path.join(TOP, "crates/office_sync/out/office_sync"))
SETUP = os.path.join(HERE, "setup.conf")


class Failed(Exception):
    """What isn't as it is due."""


def run(*words: str, may_fail: bool = False, status: int = 0, given: str = "",
        **more: str) -> "subprocess.CompletedProcess[str]":
    """Runs a command, which has to end with this status unless it may fail."""
    ran = subprocess.run(words, input=given, capture_output=True, text=True, check=False,
                         env={**os.environ, **more}, timeout=1800)
    if ran.returncode != status and not may_fail:
        raise Failed(f"{' '.join(words)}: status {ran.returncode}\n{ran.stdout}{ran.stderr}")
    return ran


def command(name: str, *words: str, may_fail: bool = False, status: int = 0) -> "subprocess.CompletedProcess[str]":
    """Runs a command under test. The environment's COMMANDS names another folder of them."""
    return run(os.path.join(os.environ.get("COMMANDS", COMMANDS), name), *words, may_fail=may_fail, status=status)


class Office:
    """A running office over a store."""

    def __init__(self, program: str, folder: str) -> None:
        self.program = program
        self.store = os.path.join(folder, "store.db")
        self.served = serving.Service(program, "--db", self.store)
        self.port = self.served.port
        self.service = Service(self.served.url)

    @property
    def url(self) -> str:
        """Its URL."""
        return self.service.url

    @property
    def process(self) -> Optional["subprocess.Popen[bytes]"]:
        """Its process while it runs."""
        return self.served.process if self.served.runs else None

    def start(self, setup: str = SETUP) -> None:
        """Starts it."""
        self.served = serving.Service(self.program, "--db", self.store, conf=setup, port=self.port)
        if not self.served.start():
            self.served.end()
            raise Failed(f"the office doesn't start: {self.served.said}")

    def stop(self, number: int = signal.SIGTERM) -> None:
        """Ends it by a signal."""
        if self.served.process is not None:
            self.served.end(number)

    def post(self, sender: str, *lines: str) -> None:
        """Sends a message by hand, under the sender's next number; its first line is the kind."""
        number = self.service.kept()[sender].unbroken + 1
        text = f"From: {sender}\nNumber: {number}\nKind: " + "\n".join(lines) + "\n"
        reply = self.service.post("/mail", text.encode())
        if not reply.is_good:
            raise Failed(f"{reply.text}: {text}")

    def update(self, number: int) -> Sequence[str]:
        """The lines of a run's update after the first."""
        return self.service.good_text(f"/update/{number}").splitlines()[1:]

    def rows(self) -> set[str]:
        """What is in testing, by the office's text: a line NAME VERSION ARCHITECTURE for each row and source."""
        found = set()
        for line in self.service.good_text("/testing").splitlines():
            words = line.split()
            if words[0] == "binary":
                found.add(f"{words[2]} {words[3]} {words[1]}")
            elif words[0] == "source":
                found.add(f"{words[1]} {words[2]} source")
        return found


class Archive(Protocol):
    """An archive with the suites unstable and testing."""

    base: str
    has_versions: bool
    place: str

    @property
    def line(self) -> str:
        """A line of a sources.list for what the next order sees, without its kind."""

    def incoming(self, upload: Upload, built: str) -> None:
        """Takes an upload into unstable."""

    def all_incoming(self, built: Sequence[str]) -> None:
        """Takes the files of many uploads into unstable, from these folders."""

    def drop_source(self, source: str) -> None:
        """Takes a source with its packages out of unstable."""

    def drop_package(self, package: str, architecture: Optional[str] = None) -> None:
        """Takes a binary package out of unstable."""

    def withdraw(self, source: str, version: str) -> None:
        """Takes a version of a source out of unstable, which has testing's again."""

    def slip(self, prefix: str) -> None:
        """Takes all packages out of unstable whose names begin so."""

    def add(self, *paths: str) -> None:
        """Takes binary packages into unstable without their source."""

    def export(self) -> None:
        """Publishes once more what the next order sees, as a person does."""

    def ordered(self) -> str:
        """The published folder of what the next order sees."""

    def pull_words(self) -> Sequence[str]:
        """The command by which the next order sees what unstable is."""

    def ready(self) -> str:
        """Publishes unstable, and gives that line."""

    def copy_all(self, *but: str) -> None:
        """Publishes testing with all that unstable has, but for these packages as the manager names them."""

    def apply_words(self) -> Sequence[str]:
        """The words of office-apply for this archive."""

    def published(self, suite: str) -> str:
        """The folder of a published suite."""


class Reprepro:
    """An archive of reprepro, with the suite `ordered` between both: unstable as the last order saw it."""

    has_versions = False
    place = "archive"

    def __init__(self, folder: str) -> None:
        self.base = os.path.join(folder, "archive")
        os.makedirs(os.path.join(self.base, "conf"))
        suites = ["\n".join([f"Codename: {suite}", f"Suite: {suite}", f"Architectures: {' '.join(BOTH)} source",
                             "Components: main", "Description: a suite of the tests",
                             *(["Pull: - all"] if suite == "ordered" else [])])
                  for suite in ("unstable", "ordered", "testing")]
        self.write("conf/distributions", "\n\n".join(suites) + "\n")
        self.write("conf/pulls", "Name: all\nFrom: unstable\n")
        self.reprepro("export")

    def write(self, name: str, text: str) -> None:
        """Writes a file."""
        with open(os.path.join(self.base, name), "w", encoding="utf-8") as file:
            file.write(text)

    def reprepro(self, *words: str) -> str:
        """Runs a command of the manager."""
        return run("reprepro", "--silent", "-b", self.base, *words).stdout

    def incoming(self, upload: Upload, built: str) -> None:
        """Takes an upload into unstable."""
        where = ["-A", "|".join((*upload.architectures, "source"))] if upload.lags else []
        for name in sorted(os.listdir(built)):
            if name.endswith(".changes"):
                self.reprepro(*where, "include", "unstable", os.path.join(built, name))

    def all_incoming(self, built: Sequence[str]) -> None:
        """Takes the files of many uploads into unstable, from these folders."""
        queue = os.path.join(self.base, "queue")
        os.makedirs(queue)
        for path in (path for folder in built for path in files_below(folder)):
            shutil.copy(path, queue)
        self.write("conf/incoming", f"Name: queue\nIncomingDir: {queue}\nTempDir: {self.base}\nAllow: unstable\n"
                                    "Cleanup: on_deny on_error\n")
        self.reprepro("processincoming", "queue")
        shutil.rmtree(queue)

    def drop_source(self, source: str) -> None:
        """Takes a source with its packages out of unstable."""
        self.reprepro("removesrc", "unstable", source)

    def drop_package(self, package: str, architecture: Optional[str] = None) -> None:
        """Takes a binary package out of unstable."""
        where = ["-A", architecture] if architecture else []
        self.reprepro("-T", "deb", *where, "remove", "unstable", package)

    def withdraw(self, source: str, version: str) -> None:
        """Takes a version of a source out of unstable, which has testing's again."""
        self.reprepro("removesrc", "unstable", source, version)
        self.reprepro("copysrc", "unstable", "testing", source)

    def slip(self, prefix: str) -> None:
        """Takes all packages out of unstable whose names begin so."""
        self.reprepro("removefilter", "unstable", f"Package (% {prefix}*)")

    def add(self, *paths: str) -> None:
        """Takes binary packages into unstable without their source."""
        self.reprepro("includedeb", "unstable", *paths)

    def export(self) -> None:
        """Publishes once more what the next order sees, as a person does."""
        self.reprepro("export", "ordered")

    def ordered(self) -> str:
        """The published folder of what the next order sees."""
        return self.published("ordered")

    def pull_words(self) -> Sequence[str]:
        """The command by which the suite `ordered` becomes what unstable is."""
        return ["reprepro", "--silent", "-b", self.base, "pull", "ordered"]

    def ready(self) -> str:
        """The suite `ordered` becomes what unstable is."""
        run(*self.pull_words())
        return self.line

    @property
    def line(self) -> str:
        """A line of a sources.list for what the next order sees, without its kind."""
        return f"file:{self.base} ordered main"

    def copy_all(self, *but: str) -> None:
        """Publishes testing with all that unstable has; it has no older versions."""
        self.reprepro("copymatched", "testing", "unstable", "*")

    def apply_words(self) -> Sequence[str]:
        """The words of office-apply."""
        return ["reprepro", self.base, "ordered", "testing"]

    def published(self, suite: str) -> str:
        """The folder of a published suite."""
        return os.path.join(self.base, "dists", suite)


class Aptly:
    """An archive of aptly: repositories unstable, which keeps all versions, and testing."""

    has_versions = True
    place = "aptly"

    def __init__(self, folder: str) -> None:
        self.base = os.path.join(folder, "aptly/public")
        self.config = os.path.join(folder, "aptly.conf")
        with open(self.config, "w", encoding="utf-8") as file:
            json.dump({"rootDir": os.path.join(folder, "aptly"), "architectures": [], "gpgDisableSign": True,
                       "gpgDisableVerify": True}, file)
        for suite in ("unstable", "testing"):
            self.aptly("repo", "create", f"-distribution={suite}", suite)
            self.aptly("publish", "repo", "-skip-signing", "-batch", "-architectures=" + ",".join((*BOTH, "source")),
                       f"-distribution={suite}", suite)

    def aptly(self, *words: str) -> str:
        """Runs a command of the manager."""
        return run("aptly", f"-config={self.config}", *words).stdout

    def incoming(self, upload: Upload, built: str) -> None:
        """Takes an upload into unstable."""
        self.aptly("repo", "add", "unstable", *(os.path.join(built, name) for name in sorted(os.listdir(built))
                                                if name.endswith((".deb", ".dsc"))))

    def all_incoming(self, built: Sequence[str]) -> None:
        """Takes the files of many uploads into unstable, from these folders."""
        self.aptly("repo", "add", "unstable", *(path for folder in built for path in sorted(files_below(folder))
                                                if path.endswith((".deb", ".dsc"))))

    def drop_source(self, source: str) -> None:
        """Takes a source with its packages out of unstable."""
        self.aptly("repo", "remove", "unstable", f"$Source ({source}) | Name ({source})")

    def drop_package(self, package: str, architecture: Optional[str] = None) -> None:
        """Takes a binary package out of unstable."""
        where = f", $Architecture ({architecture})" if architecture else ", !$PackageType (source)"
        self.aptly("repo", "remove", "unstable", f"Name ({package}){where}")

    def withdraw(self, source: str, version: str) -> None:
        """Takes a version of a source out of unstable, which still has the one before it."""
        self.aptly("repo", "remove", "unstable", f"$Source ({source}), $SourceVersion (= {version}) | "
                                                 f"Name ({source}), $PackageType (source), $Version (= {version})")

    def slip(self, prefix: str) -> None:
        """Takes all packages out of unstable whose names begin so."""
        self.aptly("repo", "remove", "unstable", f"Name (% {prefix}*)")

    def add(self, *paths: str) -> None:
        """Takes binary packages into unstable without their source."""
        self.aptly("repo", "add", "unstable", *paths)

    def export(self) -> None:
        """Publishes once more what the next order sees, as a person does."""
        self.ready()

    def ordered(self) -> str:
        """The published folder of what the next order sees."""
        return self.published("unstable")

    def pull_words(self) -> Sequence[str]:
        """The command that publishes unstable."""
        return ["aptly", f"-config={self.config}", "publish", "update", "-skip-signing", "-batch", "unstable"]

    def ready(self) -> str:
        """Publishes unstable."""
        run(*self.pull_words())
        return self.line

    @property
    def line(self) -> str:
        """A line of a sources.list for what the next order sees, without its kind."""
        return f"file:{self.base} unstable main"

    def copy_all(self, *but: str) -> None:
        """Publishes testing with all that unstable has, but for these packages."""
        self.aptly("repo", "copy", "unstable", "testing", "Name (~ .)")
        if but:
            self.aptly("repo", "remove", "testing", *but)
        self.aptly("publish", "update", "-skip-signing", "-batch", "testing")

    def apply_words(self) -> Sequence[str]:
        """The words of office-apply."""
        return ["aptly", "--publish=-skip-signing", self.config, "unstable", "testing"]

    def published(self, suite: str) -> str:
        """The folder of a published suite."""
        return os.path.join(self.base, "dists", suite)


@dataclass
class Stage:
    """An office and an archive, fed and applied day by day. The feed asks for `url`, where it is stated. `bugs` are the
    lists of a bug tracker, where there are some.
    """

    office: Office
    archive: Archive
    folder: str
    built: str
    line: str = ""
    url: str = ""
    bugs: Sequence[str] = ()
    maker: Callable[[Upload, str], str] = build

    def takes(self, uploads: Sequence[Upload]) -> None:
        """Uploads come to unstable, and their files .changes are kept."""
        for upload in uploads:
            built = self.maker(upload, self.built)
            self.archive.incoming(upload, built)
            self.keep_changes(built)

    def begins(self, uploads: Sequence[Upload]) -> None:
        """Many uploads come to unstable at once."""
        built = [self.maker(upload, self.built) for upload in uploads]
        self.archive.all_incoming(built)
        for folder in built:
            self.keep_changes(folder)

    def keep_changes(self, built: str) -> None:
        """Keeps the files .changes of an upload."""
        changes = os.path.join(self.folder, "changes")
        os.makedirs(changes, exist_ok=True)
        for name in os.listdir(built):
            if name.endswith(".changes") and not os.path.lexists(os.path.join(changes, name)):
                os.symlink(os.path.join(built, name), os.path.join(changes, name))

    def feed_words(self, day: str, *more: str) -> Sequence[str]:
        """The words of office-feed on a day."""
        lines = (f"deb [trusted=yes arch={','.join(BOTH)}] {self.line}", f"deb-src [trusted=yes] {self.line}")
        return ["--url", self.url or self.office.url, "--cache", os.path.join(self.folder, "cache"), "--day", day,
                "--changes", os.path.join(self.folder, "changes"), *more,
                *(word for line in lines for word in ("--apt", line))]

    def feed(self, day: str, *more: str, status: int = 0) -> str:
        """Feeds the office, and gives what the command prints. It ends with this status."""
        return command("office-feed", *self.feed_words(day, *more), status=status).stdout

    def apply_words(self) -> Sequence[str]:
        """The words of office-apply."""
        return ["--url", self.office.url, *self.archive.apply_words()]

    def apply(self) -> str:
        """Applies the office's testing."""
        return command("office-apply", *self.apply_words()).stdout

    def digest(self) -> str:
        """A digest of all published files of testing, without their times."""
        found = hashlib.sha256()
        for path in sorted(files_below(self.archive.published("testing"))):
            with open(path, "rb") as file:
                found.update(path.encode() + b"\0" + file.read())
        return found.hexdigest()

    def mail(self) -> Mapping[str, Sequence[bytes]]:
        """All mail that the office keeps."""
        service = self.office.service
        return {sender: [service.kept_text(sender, number) or b"" for number in range(1, count.greatest + 1)]
                for sender, count in service.kept().items()}


def files_below(folder: str) -> Iterator[str]:
    """All files below a folder."""
    for place, _, names in os.walk(folder):
        yield from (os.path.join(place, name) for name in names)


def fields(text: bytes) -> Sequence[Paragraph]:
    """The paragraphs of a message."""
    return list(paragraphs(text))
