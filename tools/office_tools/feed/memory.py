"""What a folder remembers next to the mail: it may be lost at any time, and then only what is known from it is.

What the paragraphs of indexes say is in a file of its own: each is read once, as long as an index has it. If that file
isn't as it was written, it counts as none.
"""
import contextlib
import hashlib
import json
import os
import re
import tempfile
from dataclasses import asdict, dataclass, field
from typing import Any, Iterator, Mapping, Optional, Sequence

from office_tools import days
from office_tools.control import Changes, Fields, read_changes, sections
from office_tools.faults import Fault, naming
from office_tools.files import read_bytes, sealed, unsealed, write_whole

MEMORY = "memory.json"
INDEXES = "indexes.json"
FORM = b"1"  # another one where paragraphs are read otherwise
PLAIN = re.compile(rb"[!-9;-~]+:")
"""How a file begins that isn't compressed."""


@dataclass
class Memory:
    """What is remembered.

    `lines`: each line that the last turn printed, with the day since which. `releases`: the last state of each file
    Release: its date and lists. `changes`: what each file .changes says, so that it is read once.
    """

    lines: dict[str, str] = field(default_factory=dict)
    releases: dict[str, dict[str, str]] = field(default_factory=dict)
    changes: dict[str, dict[str, str]] = field(default_factory=dict)

    def write(self, folder: str) -> None:
        """Writes it into the folder."""
        data = json.dumps(asdict(self), sort_keys=True, indent=1)
        write_whole(os.path.join(folder, MEMORY), data.encode(errors="backslashreplace"))


def remembered(folder: str) -> Memory:
    """What the folder remembers. A file that can't be read, or isn't one of these, counts as none."""
    found: Any = {}
    with contextlib.suppress(OSError, ValueError, RecursionError):
        with open(os.path.join(folder, MEMORY), "rb") as file:
            found = json.loads(file.read().decode())
    memory = Memory()
    if not isinstance(found, dict):
        return memory
    memory.lines = {what: day for what, day in texts_of(found.get("lines")).items() if is_day(day)}
    memory.releases = parts_of(found.get("releases"))
    memory.changes = parts_of(found.get("changes"))
    return memory


@dataclass
class ChangesRead:
    """The files .changes: each is read once, as long as its size and time stay."""

    before: dict[str, dict[str, str]]
    now: dict[str, dict[str, str]] = field(default_factory=dict)

    def read(self, path: str) -> Changes:
        """What a file says. One that can't be read is read again the next time."""
        with naming(path):
            kept = os.stat(path)
        state = f"{kept.st_mtime_ns} {kept.st_size} {kept.st_ino}"
        part = self.before.get(path, {})
        if part.get("state") != state or "distribution" not in part:
            part = {"state": state, **written(read_changes(path))}
        self.now[path] = part
        return Changes(part.get("source", ""), part.get("version", ""), part.get("has_source") == "yes",
                       part.get("urgency") or None, part.get("date") or None, part.get("distribution", ""))


def written(changes: Changes) -> dict[str, str]:
    """What a file .changes says, as texts."""
    return {"source": changes.source, "version": changes.version, "has_source": "yes" if changes.has_source else "no",
            "urgency": changes.urgency or "", "date": changes.date or "", "distribution": changes.distribution}


def parts_of(found: Any) -> dict[str, dict[str, str]]:
    """Texts by their names, for each of some names."""
    return {str(name): texts_of(part) for name, part in found.items()} if isinstance(found, dict) else {}


def texts_of(part: Any) -> dict[str, str]:
    """The texts of a value by their names; none if it isn't of this form."""
    if not isinstance(part, dict) or not all(isinstance(text, str) for text in part.values()):
        return {}
    return {str(name): text for name, text in part.items()}


def is_day(text: str) -> bool:
    """Whether a text is a day."""
    with contextlib.suppress(ValueError):
        days.day(text)
        return True
    return False


@dataclass
class Indexes:
    """The paragraphs of the last turn and those of this one, by their digests."""

    folder: str
    before: dict[str, Fields] = field(default_factory=dict)
    now: dict[str, Fields] = field(default_factory=dict)

    @property
    def path(self) -> str:
        """The file."""
        return os.path.join(self.folder, INDEXES)

    def sections(self, path: str, names: Sequence[str]) -> Iterator[Mapping[str, str]]:
        """The paragraphs of a file, as apt reads them, who is asked only for those that are new."""
        parts = paragraphs_of(path) if path != "-" else None
        found = self.known(parts, names) if parts else None
        return iter(found) if found is not None else sections(path, names)

    def known(self, parts: Sequence[bytes], names: Sequence[str]) -> Optional[Sequence[Fields]]:
        """What these paragraphs say; None if apt takes them for other paragraphs than they seem, or refuses one."""
        form = hashlib.sha256(FORM + " ".join(names).encode()).digest()
        keys = [hashlib.blake2b(part, digest_size=16, key=form).hexdigest() for part in parts]
        lacking = {key: part for key, part in zip(keys, parts) if key not in self.before and key not in self.now}
        new = self.read(list(lacking.values()), names) if lacking else []
        if new is None:
            return None
        self.now.update(zip(lacking, new))
        self.now.update((key, self.before[key]) for key in keys if key not in self.now)
        return [self.now[key] for key in keys]

    def read(self, parts: Sequence[bytes], names: Sequence[str]) -> Optional[Sequence[Fields]]:
        """What apt reads of these paragraphs."""
        with contextlib.suppress(Fault, OSError), tempfile.NamedTemporaryFile(dir=self.folder, prefix=INDEXES) as file:
            file.write(b"\n\n".join(parts) + b"\n")
            file.flush()
            found = [Fields(fields) for fields in sections(file.name, names)]
            return found if len(found) == len(parts) else None
        return None

    def write(self) -> None:
        """Writes down what the paragraphs of this turn say, if some are new or gone. A full disk only costs time."""
        if self.now.keys() != self.before.keys():
            data = json.dumps({key: [fields.is_good, fields] for key, fields in self.now.items()}).encode()
            with contextlib.suppress(Fault):
                write_whole(self.path, sealed(data))


def indexes_in(folder: str) -> Indexes:
    """What a folder remembers."""
    found = Indexes(folder)
    with contextlib.suppress(Fault, ValueError, TypeError, AttributeError, RecursionError):
        told: Any = json.loads(unsealed(read_bytes(found.path)))
        found.before = {key: fields_of(is_good, fields) for key, (is_good, fields) in told.items()}
    return found


def fields_of(is_good: bool, fields: Mapping[str, str]) -> Fields:
    """The fields of a paragraph that is remembered."""
    found = Fields(fields)
    found.is_good = is_good
    return found


def paragraphs_of(path: str) -> Optional[Sequence[bytes]]:
    """The paragraphs of a plain file; None if it is compressed, or isn't surely read by its empty lines."""
    data = read_bytes(path)
    if not PLAIN.match(data) or b"\r" in data or b"\0" in data:
        return None
    return [part for part in (part.strip(b"\n") for part in data.split(b"\n\n")) if part]
