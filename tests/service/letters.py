"""Mail for worked cases, under each sender's next number."""
from model import SENDERS


class Letters:
    """Messages under each sender's next number."""

    def __init__(self):
        self.numbers, self.texts = dict.fromkeys(SENDERS, 0), []

    def add(self, sender, kind, *lines):
        self.numbers[sender] += 1
        self.texts.append(
            "\n".join(["From: " + sender, "Number: %d" % self.numbers[sender], "Kind: " + kind, *lines]) + "\n"
        )

    def upload(self, source, version, day):
        self.add("ftp", "upload", "Source: " + source, "Version: " + version, "Urgency: medium", "Day: " + day)

    def build(self, source, version, *packages):
        """Packages, each with its architecture and what it depends on."""
        lines = []
        for name, arch, depends in packages:
            lines += ["", "Package: " + name, "Version: " + version, "Architecture: " + arch]
            lines += ["Source: " + source] if source != name else []
            lines += ["Depends: " + depends] if depends else []
        self.add("bd", "build", *lines)

    def source(self, source, version, day, *packages):
        self.upload(source, version, day)
        self.build(source, version, *[(name, "amd64", depends) for name, depends in packages])

    def order(self, day):
        covers = ", ".join(
            "%s %d" % (name, number) for name, number in self.numbers.items() if number and name != "clock"
        )
        self.add("clock", "run", "Day: " + day, "Covers: " + covers)


def dead_end():
    """A library that can't leave, and what rests on its new version; and a source that is blocked."""
    letters = Letters()
    letters.source("libfoo", "1-1", "2025-03-01", ("libfoo1", ""))
    letters.source("tool", "1-1", "2025-03-01", ("tool", "libfoo1"))
    letters.order("2025-03-20")
    letters.source("libfoo", "2-1", "2025-03-21", ("libfoo2", ""))
    for name, depends in [("viewer", "libfoo2 (>= 2), album"), ("album", "viewer"), ("codec", ""), ("player", "codec")]:
        letters.source(name, "1-1", "2025-03-21", (name, depends))
    letters.add("rt", "hint", "Hint: block codec")
    letters.order("2025-04-10")
    return letters
