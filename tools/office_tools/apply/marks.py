"""Names and versions that are made up for the office alone, and what the archive has in their place.

The office takes what is sent for a source, also if the archive has no such source. Four marks are kept free for this
(docs/ARCHIVE.md). By them a manager recognizes a rebuild, an old library that stays, or packages that leave together,
and the feed what came back.
"""
import re

REBUILT_AT_END = re.compile(r"\+b([1-9][0-9]*)$")
BACK_AT_END = re.compile(r"\+back([1-9][0-9]*)(?:\.([A-Za-z0-9.+~]+))?$")
LEAVING = "+gone"
STAYING = "smooth-"

ESCAPES = (("+", "+p"), ("-", "+m"), (":", "+c"))
"""How a version is written within another one, which has no hyphen and no colon there. The plus comes first."""


def is_made_up(source: str) -> bool:
    """Whether a source is made up for old packages that stay next to newer ones of their own source."""
    return source.startswith(STAYING)


def source_version(version: str) -> str:
    """The version of a source in the archive: a rebuild changes no source, and so doesn't what leaves."""
    return REBUILT_AT_END.sub("", package_version(version))


def package_version(version: str) -> str:
    """The version of a binary package in the archive; that of a rebuild is real there."""
    version = version.removesuffix(LEAVING)
    found = BACK_AT_END.search(version)
    if found is None:
        return version
    return unescaped(found[2]) if found[2] else version[:found.start()]


def is_back(version: str) -> bool:
    """Whether a version is made up for one that was sent before, and came back."""
    return BACK_AT_END.search(version.removesuffix(LEAVING)) is not None


def back(above: str, version: str) -> str:
    """The version above another one under which a version of the archive is sent once more.

    It ends in `+backN.V`, V being the archive's version, or in `+backN` if that is the version before the mark.
    """
    found = BACK_AT_END.search(above)
    base, count = (above[:found.start()], int(found[1]) + 1) if found else (above, 1)
    return f"{base}+back{count}" if base == version else f"{base}+back{count}.{escaped(version)}"


def escaped(version: str) -> str:
    """A version in letters that a revision may have."""
    for character, code in ESCAPES:
        version = version.replace(character, code)
    return version


def unescaped(text: str) -> str:
    """The version that was escaped."""
    for character, code in reversed(ESCAPES):
        text = text.replace(code, character)
    return text
