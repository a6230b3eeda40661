"""What mail says, in small numbers: names, versions and architectures are places in short tables."""
from collections import namedtuple
from datetime import date

# Sources, packages and what packages provide, in the order of names.
NAMES = ["aa", "bb", "cc", "dd", "foo", "vv"]

# Versions in their order. The texts of a line are the same version.
VERSIONS = [
    ["1", "1-0"],
    ["1+b1", "1+b1-0"],
    ["1.0-1"],
    ["1.1-1"],
    ["1.2-1"],
    ["2", "2-0"],
    ["3~", "3~-0"],
    ["3", "3-0"],
]

# The architectures that are listed, and `all` after them.
ARCHS = ["amd64", "arm64", "all"]
ALL = 2

# The senders in the order of the setup.
SENDERS = ["ftp", "sec", "bd", "bq", "bts", "rt", "clock"]

# The ranks of urgencies and the places of days in a message on delays.
URGENCIES = {"low": 0, "medium": 1, "high": 2, "emergency": 3, "critical": 3}
DELAYS = ["Low", "Medium", "High", "Critical"]

Version = namedtuple("Version", "place text")
Upload = namedtuple("Upload", "at source version rank day")
Drop = namedtuple("Drop", "name arch version")
Alternative = namedtuple("Alternative", "name op version")
Built = namedtuple("Built", "at name version arch source source_version clauses provides")
Bug = namedtuple("Bug", "number bug source severity found fixed")
Hint = namedtuple("Hint", "number wish days name version")
Delays = namedtuple("Delays", "number days")


def name_of(text):
    return NAMES.index(text)


def version_of(text):
    """A version by its place in the table, none where the text is none."""
    if text is None:
        return None
    return Version(next(place for place, texts in enumerate(VERSIONS) if text in texts), text)


def fields_of(paragraph):
    return dict(line.split(": ", 1) for line in paragraph.split("\n"))


def alternative_of(text):
    """`NAME` or `NAME (OP VERSION)`."""
    name, _, relation = text.partition(" (")
    op, _, version = relation.rstrip(")").partition(" ")
    return Alternative(name_of(name), op, version_of(version or None))


def clauses_of(fields):
    """A list of alternatives for each field of relations."""
    return [[alternative_of(text) for text in fields[field].split(" | ")]
            for field in ("Pre-Depends", "Depends") if field in fields]


def built_of(at, place, fields):
    """The binary of a paragraph. The place after sender and number is that of the paragraph, from 1."""
    source, _, version = fields.get("Source", fields["Package"]).partition(" (")
    return Built(at + (place,), name_of(fields["Package"]), version_of(fields["Version"]),
                 ARCHS.index(fields["Architecture"]), name_of(source),
                 version_of(version.rstrip(")") or fields["Version"]), clauses_of(fields),
                 alternative_of(fields["Provides"]) if "Provides" in fields else None)


def hints_of(number, words):
    """An item for each name of a hint, or one without a name where it blocks all."""
    wish, items = words[0], words[1:]
    if wish == "block-all":
        return [Hint(number, wish, None, None, None)]
    days = int(items.pop(0)) if wish == "age-days" else None
    parts = [item.partition("/") for item in items]
    return [Hint(number, wish, days, name_of(name), version_of(version or None)) for name, _, version in parts]


class Mail:
    """All mail that came, each message once, in lists by what it says."""

    def __init__(self):
        self.known = set()
        self.uploads, self.drops, self.builds, self.bugs = [], [], [], []
        self.hints, self.unhints, self.delays = [], [], []

    def take(self, text):
        """Takes a message, unless it came before."""
        first, *rest = text.split("\n\n")
        fields = fields_of(first)
        at = (SENDERS.index(fields["From"]), int(fields["Number"]))
        if at not in self.known:
            self.known.add(at)
            getattr(self, "take_" + fields["Kind"])(at, fields, [fields_of(paragraph) for paragraph in rest])

    def take_upload(self, at, fields, _):
        rank = URGENCIES[fields["Urgency"].split()[0].lower()]
        self.uploads.append(Upload(at, name_of(fields["Source"]), version_of(fields["Version"]), rank,
                                   date.fromisoformat(fields["Day"])))

    def take_drop(self, _, fields, __):
        self.drops.append(Drop(name_of(fields["Package"]), ARCHS.index(fields["Architecture"]),
                               version_of(fields["Version"])))

    def take_build(self, at, _, paragraphs):
        self.builds += [built_of(at, place, fields) for place, fields in enumerate(paragraphs, 1)]

    def take_bug(self, at, fields, _):
        self.bugs.append(Bug(at[1], int(fields["Bug"]), name_of(fields["Source"]), fields["Severity"],
                             version_of(fields.get("Found")), version_of(fields.get("Fixed"))))

    def take_hint(self, at, fields, _):
        self.hints = sorted(self.hints + hints_of(at[1], fields["Hint"].split()), key=lambda hint: hint.number)

    def take_unhint(self, _, fields, __):
        self.unhints.append(int(fields["Cancels"]))

    def take_delays(self, at, fields, _):
        self.delays.append(Delays(at[1], [int(fields[name]) for name in DELAYS]))

    def take_none(self, *_):
        pass

    def standing(self, *wishes):
        """The items of these hints that no unhint names, by the numbers of their messages."""
        return [hint for hint in self.hints if hint.wish in wishes and hint.number not in self.unhints]
