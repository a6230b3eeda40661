"""Versions of packages: their order by apt, and which texts the office takes for versions."""
import functools
import operator
import re
from typing import Callable, Mapping, Optional

import apt_pkg

LONGEST = 256  # bytes
GREATEST_EPOCH = 2147483647

FORM = re.compile(r"(?:([0-9]+):)?([A-Za-z0-9.+~-]+)|([0-9]+):([A-Za-z0-9.+~:-]+)")

RELATIONS: Mapping[str, Callable[[int, int], bool]] = {
    "<<": operator.lt, "<=": operator.le, "<": operator.le, "=": operator.eq,
    ">=": operator.ge, ">": operator.ge, ">>": operator.gt}

apt_pkg.init_system()


def compare(left: str, right: str) -> int:
    """Below 0, 0 or above 0, as the left version is below the right one, the same, or above it.

    Of two versions that the office takes, apt has the same order as the office. apt orders other texts too, which the
    office refuses (`is_version`).
    """
    return int(apt_pkg.version_compare(left, right))


def same(left: Optional[str], right: Optional[str]) -> bool:
    """Whether two versions are the same; none is the same as no version."""
    return left is not None and right is not None and compare(left, right) == 0


key = functools.cmp_to_key(compare)
"""What versions are sorted by: `max(versions, key=key)`."""


def holds(relation: str, version: str, bound: str) -> bool:
    """Whether a version is in a relation of `Depends` to another one. `<` and `>` mean `<=` and `>=`."""
    return RELATIONS[relation](compare(version, bound), 0)


def is_version(text: str) -> bool:
    """Whether the office takes a text for a version.

    apt and dpkg are laxer or stricter. The office takes at most 256 bytes and an epoch of at most 2147483647, an
    upstream version that begins with any of its characters, and no empty revision.
    """
    found = FORM.fullmatch(text)
    if not found or len(text) > LONGEST:
        return False
    if int(found[1] or found[3] or 0) > GREATEST_EPOCH:
        return False
    upstream, dash, revision = (found[2] or found[4]).rpartition("-")
    return not dash or bool(upstream and revision and ":" not in revision)
