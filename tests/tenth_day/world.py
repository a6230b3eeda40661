"""An archive of 40 sources on two architectures, as its testing is on the first day: a knot of two, a library with five
users, two toolkits, packages of `all`, a virtual package, and packages that need each other's absence."""
from dataclasses import dataclass
from typing import Iterator, Mapping, Sequence

ARCHITECTURES = ("amd64", "arm64")


@dataclass(frozen=True)
class Binary:
    """A package: its name, what it needs and provides, and whether it is of `all`."""

    name: str
    depends: str = ""
    provides: str = ""
    is_all: bool = False

    def architectures(self, built: Sequence[str]) -> Sequence[str]:
        """On which architectures it is built."""
        return ("all",) if self.is_all else built

    def paragraph(self, version: str, architecture: str, source: str) -> str:
        """Its paragraph in a message of a build, or in a file Packages."""
        fields = {"Package": self.name, "Version": version, "Architecture": architecture, "Source": source,
                  "Depends": self.depends, "Provides": self.provides}
        return "".join(f"{name}: {value}\n" for name, value in fields.items() if value)


def every(name: str, depends: str = "", provides: str = "") -> Binary:
    """A package of each architecture."""
    return Binary(name, depends, provides)


def common(name: str, depends: str = "") -> Binary:
    """A package of `all`."""
    return Binary(name, depends, is_all=True)


TESTING: Mapping[str, tuple[str, Sequence[Binary]]] = {
    "glibc": ("2.36-9", [every("libc6", "libgcc-s1")]),
    "gcc-rt": ("12.2-14", [every("libgcc-s1", "libc6")]),
    "base": ("12-1", [common("base-files")]),
    "perl": ("5.36-7", [every("perl", "libc6"), common("perl-modules", "perl")]),
    "python": ("3.11-1", [every("python3", "libc6")]),
    "openssl": ("3.0-1", [every("libssl3", "libc6"), every("openssl", "libssl3")]),
    "zlib": ("1.2-1", [every("zlib1g", "libc6")]),
    "libfoo": ("1.4-1", [every("libfoo1", "libc6"), every("libfoo-dev", "libfoo1 (= 1.4-1)")]),
    "app-a": ("1.0-1", [every("app-a", "libfoo1 (>= 1.4)")]),
    "app-b": ("0.9-1", [every("app-b", "libfoo1, app-b-data"), common("app-b-data")]),
    "app-c": ("3-1", [every("app-c", "libfoo1")]),
    "app-d": ("7.0-1", [every("app-d", "libfoo1")]),
    "plugin-e": ("2-1", [every("plugin-e", "libfoo1, app-a")]),
    "toolkit": ("4.8-1", [every("libtk", "libc6")]),
    "qtlib": ("6.4-1", [every("libqt6", "libc6")]),
    "chat": ("3-1", [every("chat", "libqt6")]),
    "player": ("2.2-1", [every("player", "libqt6")]),
    "editor": ("1.1-1", [every("editor", "libtk")]),
    "browser": ("100-1", [every("browser", "libtk, libssl3")]),
    "doc-tool": ("1.0-1", [common("doc-tool", "perl")]),
    "mailer": ("4-1", [every("mailer", "libc6", "mail-transport-agent")]),
    "cronlike": ("1-1", [every("cronlike", "default-mta | mail-transport-agent")]),
    "kernel": ("6.1-1", [every("linux-image")]),
    "oldgame": ("1-1", [every("oldgame-engine", "libc6")]),
    "gamepack": ("1-1", [common("gamepack", "oldgame-engine")]),
    "libq": ("1-1", [every("libq1", "libc6"), every("qapp", "qplug")]),
    "qplug": ("1-1", [every("qplug", "libq1")]),
    "curl": ("7.88-1", [every("curl", "libssl3, zlib1g")]),
    "wget": ("1.21-1", [every("wget", "libssl3")]),
    "git": ("2.39-1", [every("git", "perl, zlib1g, libssl3")]),
    "fonts": ("2-1", [common("fonts")]),
    "icons": ("1-1", [common("icons")]),
    "desktop": ("5-1", [common("desktop", "icons, fonts, libtk | libqt6, editor")]),
    **{name: (version, [every(name, "libc6")]) for name, version in [
        ("tar", "1.34-1"), ("grep", "3.8-1"), ("sed", "4.9-1"), ("bash", "5.2-1"), ("coreutils", "9.1-1"),
        ("vim", "9.0-1"), ("nano", "7.2-1")]}}
"""Each source of testing, with its version and its packages."""


def packages(architecture: str) -> Iterator[str]:
    """The paragraphs of the file Packages of an architecture."""
    for source, (version, binaries) in TESTING.items():
        for binary in binaries:
            for built in binary.architectures((architecture,)):
                yield binary.paragraph(version, built, source)


def sources() -> Iterator[str]:
    """The paragraphs of the file Sources."""
    return (f"Package: {source}\nVersion: {version}\n" for source, (version, _) in TESTING.items())
