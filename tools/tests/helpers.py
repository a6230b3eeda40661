"""What the tests share. It puts the package into the path, so each test imports it first.

The environment's OFFICE names the built program, OFFICE_PLAN and OFFICE_SYNC the two over lists, else those that this
checkout or PATH has. What needs a program that isn't there is skipped.
"""
import contextlib
import io
import os
import shutil
import signal
import subprocess
import sys
import unittest
from typing import Callable, Optional, Sequence

TOOLS = os.path.dirname(os.path.dirname(os.path.realpath(__file__)))
TOP = os.path.dirname(TOOLS)
EXAMPLES = os.path.join(TOP, "examples")
SETUP = os.path.join(EXAMPLES, "setup.conf")
OFFICE = os.path.realpath(os.environ["OFFICE"]) if os.environ.get("OFFICE") else ""


def built(variable: str, name: str) -> str:
    """A program over lists; an empty text if there is none. The commands find it by the environment, too."""
    own = os.path.join(TOP, "crates", name.replace("-", "_"), "out", name.replace("-", "_"))
    found = shutil.which(os.environ.get(variable) or own) or shutil.which(name) or ""
    if found:
        os.environ[variable] = os.path.realpath(found)
    return found


PLAN, SYNC = built("OFFICE_PLAN", "office-plan"), built("OFFICE_SYNC", "office-sync")

sys.path[:0] = [TOOLS, os.path.join(TOP, "tests")]
if OFFICE:
    os.environ["OFFICE"] = OFFICE  # some tests change the folder

import serving  # noqa: E402

needs_office = unittest.skipUnless(OFFICE, "OFFICE names no built program")
needs_due = unittest.skipUnless(SYNC, "OFFICE_SYNC names no built office-sync, and none is built")
needs_plan = unittest.skipUnless(PLAN, "OFFICE_PLAN names no built office-plan, and none is built")
needs_sync = unittest.skipUnless(OFFICE and SYNC, "OFFICE or OFFICE_SYNC names no built program, and none is built")


def example(name: str) -> bytes:
    """A file of the examples."""
    with open(os.path.join(EXAMPLES, name), "rb") as file:
        return file.read()


def tool(name: str, *words: str, given: bytes = b"") -> "subprocess.CompletedProcess[str]":
    """Runs the command of this package with this whole name, such as office-from-packages."""
    return subprocess.run([os.path.join(TOOLS, "bin", name), *words], input=given.decode(), text=True,
                          capture_output=True, timeout=600, check=False)


def tool_here(name: str, main: Callable[[Sequence[str]], int], *words: str) -> tuple[str, str, int]:
    """What a command prints on standard output and error, and its status, without a process of its own."""
    from office_tools.faults import Fault, tell
    printed, told = io.TextIOWrapper(io.BytesIO(), "utf-8"), io.StringIO()
    with contextlib.redirect_stdout(printed), contextlib.redirect_stderr(told):
        try:
            status = main(words)
        except Fault as fault:
            tell(name, fault.cause)
            status = fault.status
        except SystemExit as end:
            status = int(end.code or 0)
    printed.flush()
    return printed.buffer.getvalue().decode(), told.getvalue(), status  # type: ignore[attr-defined]


def office(*words: str, given: bytes = b"") -> "subprocess.CompletedProcess[bytes]":
    """Runs the built program."""
    return subprocess.run([OFFICE, *words], input=given, capture_output=True, timeout=600, check=False)


class Serving(serving.Service):
    """A running `office serve` in memory, or over a store, for a `with`."""

    def __init__(self, setup: str = SETUP, store: Optional[str] = None) -> None:
        super().__init__(OFFICE, *(["--db", store] if store else []), conf=setup, ends_by=signal.SIGTERM,
                         stdin=subprocess.DEVNULL)


class Keyring:
    """A folder of keys that nobody else has, for a test."""

    def __init__(self, home: str) -> None:
        self.home = home
        os.mkdir(home, 0o700)

    def gpg(self, *words: str, given: bytes = b"") -> bytes:
        """What gpg prints."""
        return subprocess.run(["gpg", "--homedir", self.home, "--batch", "-q", *words], input=given,
                              stdout=subprocess.PIPE, stderr=subprocess.DEVNULL, check=True).stdout

    def make(self, user: str) -> bytes:
        """Makes a key of USER@example.org, and gives its public part."""
        self.gpg("--passphrase", "", "--quick-generate-key", f"{user}@example.org", "ed25519", "sign", "never")
        return self.gpg("--export", f"{user}@example.org")

    def end(self) -> None:
        """Ends what gpg has started for this folder."""
        subprocess.run(["gpgconf", "--homedir", self.home, "--kill", "all"], check=False)
