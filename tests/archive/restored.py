"""A folder of good files for many cases: after each one only what it changed is put right."""
import os
import shutil
from typing import Mapping, Sequence

OLD = 1_000_000_000  # when a good file was written, in nanoseconds: each that is written again has another time

Stamp = tuple[int, ...]  # by which a changed file is known; a folder's is empty


def write(path: str, text: bytes) -> None:
    """Writes a file."""
    with open(path, "wb") as file:
        file.write(text)


def stamps(folder: str = "") -> dict[str, Stamp]:
    """What is in a folder of the current one, by the paths."""
    found: dict[str, Stamp] = {}
    with os.scandir(folder or ".") as entries:
        for entry in entries:
            path = folder + entry.name
            if entry.is_dir(follow_symlinks=False):
                found[path] = ()
                found |= stamps(path + "/")
            else:
                state = entry.stat(follow_symlinks=False)
                found[path] = state.st_ino, state.st_size, state.st_mtime_ns, state.st_mode
    return found


class Folder:
    """The folder, which is the current one and the person's own. `secret` are the files that only a person reads."""

    def __init__(self, place: str, folders: Sequence[str], files: Mapping[str, bytes], secret: Sequence[str]) -> None:
        self.place, self.folders, self.files, self.secret = place, folders, files, secret
        self.lay_out()

    def lay_out(self) -> None:
        """Makes it."""
        shutil.rmtree(self.place, ignore_errors=True)
        for name in self.folders:
            os.makedirs(os.path.join(self.place, name))
        os.chdir(self.place)
        os.environ["HOME"] = self.place
        for path in self.files:
            self.put(path)
        self.good = stamps()

    def put(self, path: str) -> None:
        """Writes a good file."""
        write(path, self.files[path])
        os.chmod(path, 0o600 if path in self.secret else 0o644)
        os.utime(path, ns=(OLD, OLD))

    def restore(self) -> None:
        """Puts right what differs."""
        now = stamps()
        if any(now.get(path) != () for path, stamp in self.good.items() if not stamp):
            self.lay_out()
            return
        new = sorted(now.keys() - self.good.keys())
        for path in [path for path in new if os.path.dirname(path) not in new]:
            if now[path]:
                os.unlink(path)
            else:
                shutil.rmtree(path)
        for path in [path for path, stamp in self.good.items() if now.get(path) != stamp]:
            if now.get(path) == ():
                shutil.rmtree(path)
            self.put(path)
            state = os.stat(path)
            self.good[path] = state.st_ino, state.st_size, state.st_mtime_ns, state.st_mode

    def keep(self, place: str) -> None:
        """Leaves it as it is in another place, and makes it again in its own."""
        os.rename(self.place, place)
        self.lay_out()

    def remove(self) -> None:
        """Removes it."""
        os.chdir(os.path.dirname(self.place))
        shutil.rmtree(self.place)
