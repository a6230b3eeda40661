"""What programs and an office answer, asked once: for tests that call tools often with nearly the same files."""
import contextlib
import os
from typing import Any, Callable, Iterator, Mapping, Optional, Sequence
from unittest import mock

from office_tools import processes
from office_tools.service import Reply, Service

PROGRAMS = ("office", "office-plan", "office-sync", "installcheck", "dose-debcheck")
"""Programs that print the same of the same files."""
PARTS = ("", "-wal", "-shm", "-journal")
"""What the names of the files of a store end with."""
UNKEPT = "/lint"
"""The route on which the office keeps nothing of what is posted."""


def content(path: str) -> Optional[bytes]:
    """What a file holds; None if there is none."""
    if not os.path.isfile(path):
        return None
    with open(path, "rb") as file:
        return file.read()


def store_of(words: Sequence[str]) -> Mapping[str, Optional[bytes]]:
    """The files of the store that a program's words name."""
    store = words[words.index("--db") + 1] if "--db" in words else ""
    return {store + part: content(store + part) for part in PARTS} if store else {}


def put(files: Mapping[str, Optional[bytes]], before: Mapping[str, Optional[bytes]]) -> None:
    """Writes files that are otherwise, and removes those that aren't to be there."""
    for path, data in files.items():
        if data is None and before[path] is not None:
            os.unlink(path)
        elif data is not None and data != before[path]:
            with open(path, "wb") as file:
                file.write(data)


class Programs:
    """A program runs once for the same words, input, named files and store. The store becomes what it then became."""

    def __init__(self, run: Callable[..., Any]) -> None:
        self.run = run
        self.known: dict[tuple[object, ...], tuple[Any, Sequence[Optional[bytes]]]] = {}

    def __call__(self, words: Sequence[str], given: bytes = b"", **more: Any) -> Any:
        """What the program prints."""
        if os.path.basename(words[0]) not in PROGRAMS:
            return self.run(words, given, **more)
        before = store_of(words)
        # A temporary file has another name at each call, but a program's sentence names an open one by its number.
        named = [data if data is not None and not word.startswith("/proc/") else (word, data)
                 for word, data in zip(words[1:], map(content, words[1:]))]
        key = words[0], *named, given, *before.values()
        if key not in self.known:
            self.known[key] = self.run(words, given, **more), list(store_of(words).values())
        told, after = self.known[key]
        put(dict(zip(before, after)), store_of(words))
        return told


class Routes:
    """A route is asked once, until something is posted that an office may keep."""

    def __init__(self, ask: Callable[..., Reply]) -> None:
        self.ask = ask
        self.known: dict[tuple[object, ...], Reply] = {}

    def __call__(self, service: Service, method: str, path: str, body: Optional[bytes] = None) -> Reply:
        """The answer to a request."""
        if method != "GET" and path != UNKEPT:
            self.known.clear()
            return self.ask(service, method, path, body)
        key = service.url, service.user, service.password, method, path, body
        if key not in self.known:
            self.known[key] = self.ask(service, method, path, body)
        return self.known[key]


@contextlib.contextmanager
def asked_once() -> Iterator[None]:
    """Within it each question is asked once."""
    programs, routes = Programs(processes.ended), Routes(Service.ask)

    def ask(service: Service, method: str, path: str, body: Optional[bytes] = None) -> Reply:
        return routes(service, method, path, body)

    with mock.patch.object(processes, "ended", programs), mock.patch.object(Service, "ask", ask):
        yield
