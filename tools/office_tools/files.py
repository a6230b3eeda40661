"""Whole files, read and written with faults that name them; the folders in which commands remember something; locks."""
import contextlib
import fcntl
import hashlib
import os
import sys
import tempfile
import urllib.parse

from office_tools.faults import Exit, Fault, naming


def read_bytes(path: str) -> bytes:
    """What a file holds; `-` is standard input."""
    with naming(path):
        if path == "-":
            return sys.stdin.buffer.read()
        with open(path, "rb") as file:
            return file.read()


def decoded(path: str, data: bytes) -> str:
    """The characters of what a file holds."""
    try:
        return data.decode()
    except UnicodeDecodeError as fault:
        raise Fault(f"{path}: it is no text in UTF-8") from fault


def write_whole(path: str, data: bytes) -> None:
    """Writes a file whole, or leaves it as it was: to a temporary file next to it, which is then renamed."""
    folder = os.path.dirname(path) or "."
    with naming(path):
        os.makedirs(folder, exist_ok=True)
        number, beside = tempfile.mkstemp(prefix="." + os.path.basename(path) + ".", dir=folder)
        try:
            with os.fdopen(number, "wb") as file:
                file.write(data)
                file.flush()
                os.fchmod(file.fileno(), 0o666 & ~umask())
                os.fsync(file.fileno())
            os.rename(beside, path)
        except BaseException:
            with contextlib.suppress(OSError):
                os.unlink(beside)
            raise


def digest_of(data: bytes) -> str:
    """The digest by which data are known again."""
    return hashlib.sha256(data).hexdigest()


def sealed(data: bytes) -> bytes:
    """Data after a line that has their digest, so that a damaged file is seen."""
    return digest_of(data).encode() + b"\n" + data


def unsealed(kept: bytes) -> bytes:
    """The data of a sealed file; one that isn't as it was written is a `Fault`."""
    digest, _, data = kept.partition(b"\n")
    if digest_of(data).encode() != digest:
        raise Fault("it isn't as it was written")
    return data


def umask() -> int:
    """The process's mask of modes, which the system returns only when it is set."""
    mask = os.umask(0o077)
    os.umask(mask)
    return mask


def cache_of(name: str, url: str) -> str:
    """Where a command of this name keeps what this user's calls remember of an office."""
    caches = os.environ.get("XDG_CACHE_HOME") or os.path.expanduser("~/.cache")
    return os.path.join(caches, name, urllib.parse.quote(url, ""))


def made(place: str) -> str:
    """A folder, which is made if there is none."""
    # apt takes a name that doesn't begin at the root as one below its own folder.
    place = os.path.abspath(place)
    with naming(place, Exit.REFUSED, ValueError):  # a name with a null byte is no name
        os.makedirs(place, exist_ok=True)
    return place


def locked(path: str, name: str, where: str = "") -> int:
    """Locks a file or a folder against another command of this name, until this process ends."""
    with naming(path, Exit.REFUSED):
        number = os.open(path, os.O_RDONLY)
        try:
            fcntl.flock(number, fcntl.LOCK_EX | fcntl.LOCK_NB)
        except BlockingIOError as fault:
            raise Fault(f"{path}: another {name} works{where}", Exit.REFUSED) from fault
        return number
