"""Two stores are exchanged, so that at each moment the old one or the new one is whole under its name.

A store that was opened and closed by the program has all that it holds in its file: its log, FILE-wal, is empty except
for its head. So the file alone is the store.
"""
import contextlib
import datetime
import fcntl
import os
import shutil
from typing import Sequence

from office_tools.faults import Exit, Fault, cause_of

LOG = "-wal"
EMPTY_LOG = 41  # bytes of a log that has nothing but its head
FIRST_BYTE, BYTES = 0x40000000, 512
"""Where programs lock a file of SQLite (sqlite.org/src/file/src/os.h: PENDING_BYTE to the end of the shared ones)."""

State = tuple[tuple[int, int], ...]


def removed(path: str) -> None:
    """Removes a file, if it exists."""
    with contextlib.suppress(FileNotFoundError):
        os.unlink(path)


def discarded(path: str) -> None:
    """Removes a store with its log."""
    for suffix in ("", LOG, "-shm"):
        removed(path + suffix)


def state_of(path: str) -> State:
    """When a store and its log were changed, and how long they are."""
    found = []
    for name in (path, path + LOG):
        with contextlib.suppress(FileNotFoundError):
            told = os.stat(name)
            found.append((told.st_mtime_ns, told.st_size))
    return tuple(found)


class Locked:
    """A store that no program opens meanwhile, for a `with`; it has to be in this state still.

    The system drops the lock when this process closes the file, however it was opened. So it is read through `number`.
    """

    def __init__(self, path: str, state: State) -> None:
        self.path = path
        self.state = state

    def __enter__(self) -> "Locked":
        self.number = os.open(self.path, os.O_RDWR)
        try:
            fcntl.lockf(self.number, fcntl.LOCK_EX | fcntl.LOCK_NB, BYTES, FIRST_BYTE)
        except OSError as fault:
            os.close(self.number)
            raise Fault(f"{self.path}: a program has it open: end it first", Exit.FAILED) from fault
        if state_of(self.path) != self.state:
            os.close(self.number)
            raise Fault(f"{self.path}: mail came meanwhile: nothing was changed", Exit.REFUSED)
        return self

    def __exit__(self, *_: object) -> None:
        os.close(self.number)

    def copy(self, path: str) -> None:
        """Makes a copy of the store, whole or not at all. The program opens no file with two names."""
        part = path + ".part"
        try:
            with open(self.number, "rb", closefd=False) as file, open(part, "wb") as copy:
                file.seek(0)
                shutil.copyfileobj(file, copy)
                copy.flush()
                os.fsync(copy.fileno())
            like(part, self.path)
            os.rename(part, path)
        finally:
            removed(part)


def like(path: str, other: str) -> None:
    """Gives a file the owner and the mode of another one."""
    told = os.stat(other)
    os.chmod(path, told.st_mode & 0o7777)
    if (told.st_uid, told.st_gid) != (os.geteuid(), os.getegid()):
        os.chown(path, told.st_uid, told.st_gid)


def is_closed(path: str) -> bool:
    """Whether all that a store holds is in its file."""
    try:
        return os.stat(path + LOG).st_size <= EMPTY_LOG
    except FileNotFoundError:
        return True


def stamp() -> str:
    """What names of things that are moved away end with: the time, in UTC."""
    return datetime.datetime.now(datetime.timezone.utc).strftime("before-%Y%m%dT%H%M%S")


def exchange(locked: Locked, new: str, caches: Sequence[str]) -> str:
    """Puts the new store in place of the old one, and returns the name of a copy of the old one.

    The caches are moved away first: each may be lost at any time, and none may be next to a store of other mail.
    """
    store = locked.path
    if not is_closed(store) or not is_closed(new):
        raise Fault(f"{store}: its log isn't empty: nothing was changed", Exit.REFUSED)
    end = stamp()
    kept = f"{store}.{end}"
    try:
        locked.copy(kept)
        like(new, store)
        for cache in caches:
            with contextlib.suppress(FileNotFoundError):
                os.rename(cache, f"{cache.rstrip('/')}.{end}")
        removed(new + LOG)
        removed(store + LOG)
        os.rename(new, store)
        synced(os.path.dirname(store) or ".")
    except OSError as fault:
        raise Fault(f"{fault.filename or store}: {cause_of(fault)}: {store} is the old store or the new one, whole",
                    Exit.FAILED) from fault
    return kept


def synced(folder: str) -> None:
    """Waits until the names in a folder are on the disk."""
    number = os.open(folder, os.O_RDONLY)
    try:
        os.fsync(number)
    finally:
        os.close(number)
