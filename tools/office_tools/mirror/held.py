"""Which messages an office held at earlier turns: a kept text stays for good, so none of these is sent again."""
import json
import os
import urllib.parse
from typing import Any

from office_tools.faults import Exit, Fault, cause_of
from office_tools.files import write_whole
from office_tools.letters import GREATEST, Numbers


Held = dict[str, Numbers]
"""The numbers of each sender that an office held."""


def place_of(folder: str, source: str, target: str) -> str:
    """The file that remembers what one office held of another one's mail."""
    return os.path.join(folder, urllib.parse.quote(f"{source} {target}", ""))


def read(path: str) -> Held:
    """What a file remembers; nothing if there is none."""
    try:
        with open(path, encoding="utf-8") as file:
            told = json.load(file)
        if not isinstance(told, dict):
            raise ValueError("it is damaged")
        return {str(sender): numbers_of(ranges) for sender, ranges in told.items()}
    except FileNotFoundError:
        return {}
    except (OSError, ValueError, RecursionError) as fault:
        cause = cause_of(fault) if isinstance(fault, OSError) else "it is damaged"
        raise Fault(f"{path}: {cause}: remove it, and all mail is sent once more", Exit.USAGE) from fault


def numbers_of(ranges: Any) -> Numbers:
    """The numbers that ranges in a file state. What isn't a list of ranges in order is a `ValueError`."""
    found = Numbers()
    last = 0
    for part in ranges if isinstance(ranges, list) else [None]:
        is_range = isinstance(part, list) and len(part) == 2 and all(type(number) is int for number in part)
        if not is_range or not last < part[0] <= part[1] <= GREATEST:
            raise ValueError(part)
        found.ranges.append((part[0], part[1]))
        last = part[1]
    return found


def write(path: str, held: Held) -> None:
    """Remembers what was held."""
    told = {sender: numbers.ranges for sender, numbers in held.items()}
    write_whole(path, json.dumps(told, sort_keys=True).encode() + b"\n")
