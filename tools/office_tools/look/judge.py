"""Whether packages can be installed together: asked of installcheck (libsolv), or else of dose-debcheck.

Both see what the office doesn't: Conflicts, Breaks, Multi-Arch and qualifiers.
"""
import os
import re
import shutil
import tempfile
from typing import Callable, Iterator, Mapping, NamedTuple, Optional, Sequence

from office_tools import processes
from office_tools.control import sections
from office_tools.faults import Exit, Fault

SECONDS = 3600  # how long a judge may take
FIELDS = ("Package", "Version", "Architecture", "Multi-Arch", "Pre-Depends", "Depends", "Provides", "Conflicts",
          "Breaks")
INSTALLCHECK, DOSE = "installcheck", "dose-debcheck"

NAME = re.compile(r"[a-z0-9][a-z0-9+.-]+")
BROKEN = re.compile(r"can't install (\S+):")
END = "-"
OWN_WORDS = frozenset("package requires but none of the providers can be installed conflicts with provided by nothing "
                      "provides needed obsoletes breaks not installable".split())
"""The words of installcheck's own sentences, which are no names of packages."""


class Package(NamedTuple):
    """A binary package by its name, its version and its own architecture."""

    name: str
    version: str
    architecture: str

    @property
    def label(self) -> str:
        """What installcheck calls it."""
        return f"{self.name}-{self.version}.{self.architecture}"


Known = dict[Package, str]
"""The paragraphs of packages, with those fields alone that decide whether they can be installed."""


class Broken(NamedTuple):
    """A package that can't be installed, the first cause, and the names and labels that the causes mention."""

    package: Package
    cause: str
    named: frozenset[str]


def read_known(paths: Sequence[str]) -> Known:
    """The paragraphs of all packages in these files Packages."""
    found: Known = {}
    for path in paths:
        for fields in sections(path, FIELDS):
            package = Package(*(fields.get(name, "") for name in ("Package", "Version", "Architecture")))
            found[package] = "".join(f"{name}: {value}\n" for name, value in fields.items())
    return found


def provided(paragraph: str) -> Iterator[str]:
    """The names by which a package is known: its own, and those that it provides."""
    for line in paragraph.splitlines():
        name, _, value = line.partition(": ")
        if name in ("Package", "Provides"):
            yield from (found[0] for found in map(NAME.match, re.split(r",\s*", value)) if found)


def names_of(package: Package, known: Mapping[Package, str]) -> frozenset[str]:
    """How the causes may mention a package."""
    return frozenset((package.label, package.name, *provided(known.get(package, ""))))


Judge = Callable[[str, Mapping[Package, str]], Sequence[Broken]]
"""Finds those of these packages that can't be installed on an architecture from these packages alone."""


def judge(name: Optional[str] = None) -> Optional[Judge]:
    """The judge of this name, or the first one that is installed; None if neither is."""
    if name in (None, INSTALLCHECK) and shutil.which(INSTALLCHECK):
        return by_installcheck
    if name in (None, DOSE) and shutil.which(DOSE):
        return by_dose
    if name is not None:
        raise Fault(f"{name} isn't installed", Exit.FAILED)
    return None


def output(words: Sequence[str], texts: Mapping[Package, str], file: str) -> str:
    """What a judge prints about a file Packages of these paragraphs. It ends with status 1 if something is broken."""
    with tempfile.TemporaryDirectory() as folder:
        path = os.path.join(folder, file)
        with open(path, "w", encoding="utf-8") as index:
            index.writelines(text + "\n" for text in texts.values())
        ran = processes.ended([*words, path], timeout=SECONDS, env=processes.english())
    if ran.returncode not in (0, 1) or (ran.returncode == 1 and not ran.stdout):
        said = processes.text(ran.stderr).strip().split("\n")[-1]
        raise Fault(f"{words[0]}: {said or f'status {ran.returncode}'}", Exit.FAILED)
    return processes.text(ran.stdout)


def by_installcheck(architecture: str, packages: Mapping[Package, str]) -> Sequence[Broken]:
    """Those that installcheck of libsolv-tools can't install."""
    labels = {package.label: package for package in packages}
    found: list[Broken] = []
    lines: list[str] = []
    package: Optional[Package] = None
    for line in [*output([INSTALLCHECK, architecture], packages, f"{architecture}.Packages").splitlines(),
                 f"can't install {END}:"]:
        head = BROKEN.fullmatch(line)
        if head is None:
            lines.append(line.strip())
            continue
        if package is not None:
            found.append(Broken(package, lines[0] if lines else "", frozenset(named(lines))))
        package, lines = labels.get(head[1]), []
        if package is None and head[1] != END:
            raise Fault(f"{INSTALLCHECK}: it names a package that it wasn't given: {head[1]}", Exit.FAILED)
    return found


def named(lines: Sequence[str]) -> Iterator[str]:
    """The names and labels in installcheck's sentences."""
    for line in lines:
        yield from (word for word in (part.strip("(),|") for part in line.split()) if word not in OWN_WORDS)


def by_dose(architecture: str, packages: Mapping[Package, str]) -> Sequence[Broken]:
    """Those that dose-debcheck of dose-distcheck can't install. It prints YAML; lines of known depth are read."""
    words = [DOSE, f"--deb-native-arch={architecture}", "--deb-ignore-essential", "--explain", "--failures"]
    text = output(words, packages, "Packages")
    entries = re.split(r"^ -\n(?=  package: )", text, flags=re.MULTILINE)[1:]
    found = []
    for entry in entries:
        head = [line.partition(": ")[2] for line in entry.splitlines()[:3]]
        names = re.findall(r"^ +(?:package|unsat-\w+|depends): (.*)$", entry, re.MULTILINE)
        cause = re.search(r"^ +unsat-(dependency|conflict): (.*)$", entry, re.MULTILINE)
        found.append(Broken(Package(*head), f"{cause[1]}: {cause[2]}" if cause else "",
                            frozenset(name for part in names for name in NAME.findall(part))))
        if found[-1].package not in packages:
            raise Fault(f"{DOSE}: it names a package that it wasn't given: {' '.join(head)}", Exit.FAILED)
    return found
