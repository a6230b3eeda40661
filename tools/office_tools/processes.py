"""Other programs that are run to their end."""
import os
import subprocess
from typing import Any, Sequence

from office_tools.faults import Exit, naming


def ended(words: Sequence[str], given: bytes = b"", **more: Any) -> "subprocess.CompletedProcess[bytes]":
    """What a program printed, and its status. A `Fault` of status 4 says that it can't be run, or has no end."""
    with naming(words[0], Exit.FAILED, subprocess.TimeoutExpired):
        return subprocess.run(words, input=given, capture_output=True, check=False, **more)


def english() -> dict[str, str]:
    """The environment of a program whose sentences are looked at."""
    return {**os.environ, "LC_ALL": "C"}


def text(data: bytes) -> str:
    """What a program printed, as characters; a byte that isn't UTF-8 is shown by its number."""
    return data.decode(errors="backslashreplace")
