"""What users of testing meet: apt, dose and libsolv over the published suite."""
import os
import re
import shutil
from typing import Iterator, Mapping, Optional, Sequence

from packages import BOTH
from stage import Archive, Failed, run

INDEX = re.compile(r"^Package: (.*)$", re.MULTILINE)


def look(archive: Archive, folder: str, only: Optional[set[str]] = None) -> int:
    """Checks testing on each architecture, and gives how many packages could be installed.

    dose and libsolv look at all of it, and apt at `only` these packages, where some are named.
    """
    return sum(look_on(archive, folder, architecture, only) for architecture in BOTH)


def look_on(archive: Archive, folder: str, architecture: str, only: Optional[set[str]] = None) -> int:
    """Checks it on one architecture."""
    index = os.path.join(archive.published("testing"), "main", f"binary-{architecture}", "Packages")
    with open(index, encoding="utf-8") as file:
        names = INDEX.findall(file.read())
    if not names:
        return 0
    if only is not None:
        names = [name for name in names if name in only]
    options = apt_options(archive, os.path.join(folder, "client"), architecture)
    run("apt-get", *options, "--error-on=any", "update")
    for name in names:
        told = run("apt-get", *options, "-s", "install", name, may_fail=True)
        if told.returncode or f"Inst {name} " not in told.stdout:
            raise Failed(f"apt can't install {name} on {architecture}:\n{told.stdout}{told.stderr}")
    told = run("dose-debcheck", f"--deb-native-arch={architecture}", "--deb-ignore-essential", "-e", "-f", index,
               may_fail=True)
    if told.returncode or not re.search(r"^broken-packages: 0$", told.stdout, re.MULTILINE):
        raise Failed(f"dose-debcheck on {architecture}:\n{told.stdout}{told.stderr}")
    copy = os.path.join(folder, f"{architecture}.Packages")
    shutil.copy(index, copy)
    told = run("installcheck", architecture, copy, may_fail=True)
    if told.returncode or told.stdout:
        raise Failed(f"installcheck on {architecture}:\n{told.stdout}{told.stderr}")
    return len(names)


def apt_options(archive: Archive, client: str, architecture: str) -> Sequence[str]:
    """The options of apt-get for a system of this architecture on which nothing is installed."""
    shutil.rmtree(client, ignore_errors=True)
    for name in ("lists/partial", "archives/partial"):
        os.makedirs(os.path.join(client, name))
    for name, text in (("status", ""), ("sources.list", f"deb [trusted=yes] file:{archive.base} testing main\n")):
        with open(os.path.join(client, name), "w", encoding="utf-8") as file:
            file.write(text)
    places = {"APT::Architecture": architecture, "APT::Architectures::": architecture,
              "Dir::Etc::sourcelist": f"{client}/sources.list", "Dir::Etc::sourceparts": "/dev/null",
              "Dir::State::lists": f"{client}/lists", "Dir::State::status": f"{client}/status", "Dir::Cache": client,
              "Acquire::Languages": "none", "Debug::NoLocking": "1"}
    return list(words_of(places))


def words_of(places: Mapping[str, str]) -> Iterator[str]:
    """Options as words."""
    for name, value in places.items():
        yield from ("-o", f"{name}={value}")
