"""Numbers that people write: decimal digits, and no greater number than the office takes."""
import re

FORM = re.compile("[0-9]{1,9}")


def count(word: str) -> int:
    """A number from 0 on; for argparse any other word is a `ValueError`."""
    if not FORM.fullmatch(word):
        raise ValueError(word)
    return int(word)


def number(word: str) -> int:
    """A number from 1 on."""
    found = count(word)
    if not found:
        raise ValueError(word)
    return found
