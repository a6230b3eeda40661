"""Random messages, and what is due of them by a plain model of the conditions, which works all out again each time.

The environment's SEEDS states how many histories are drawn (12).
"""
import datetime
import functools
import os
import random
import re
import sys
import tempfile
import unittest

from helpers import SETUP, TOP, Serving, needs_office, office, tool_here
from office_tools import bags
from office_tools.lint import command

sys.dont_write_bytecode = True
sys.path.insert(0, os.path.join(TOP, "tests", "rows"))
from model import paragraphs, vcmp  # noqa: E402

SEEDS = int(os.environ.get("SEEDS") or 12)
SENDERS = ["ftp", "bd", "bts", "rt", "clock"]
SOURCES = ["aa", "bb", "cc"]
VERSIONS = ["1", "1-0", "1.0-1", "2~rc1", "2", "1:0.1", "1:0.1-0", "1:0.01", "2+b1", "2025"]
ARCHS = ["amd64", "all", "all", "all"]
TODAY = datetime.date(2025, 3, 20)
READ = {"upload": "From Number Kind Source Version Urgency Day",
        "drop": "From Number Kind Package Architecture Version",
        "build": "From Number Kind", "bug": "From Number Kind Bug Source Severity Found Fixed",
        "hint": "From Number Kind Hint", "unhint": "From Number Kind Cancels", "none": "From Number Kind",
        "delays": "From Number Kind Low Medium High Critical", "run": "From Number Kind Day Covers"}
# What is in testing before anything is drawn.
MOVED = [text % (number, name) for number, name in enumerate(["aa", "bb"], 1) for text in [
    "From: ftp\nNumber: %d\nKind: upload\nSource: %s\nVersion: 1\nUrgency: critical\nDay: 2024-01-01\n",
    "From: bd\nNumber: %d\nKind: build\n\nPackage: %s\nVersion: 1\nArchitecture: all\n"]]
MOVED += ["From: clock\nNumber: 1\nKind: run\nDay: 2024-01-02\nCovers: ftp 2, bd 2\n"]
BINARY = "Package Version Architecture Source Pre-Depends Depends Provides"


@functools.lru_cache(None)
def levenshtein(a, b):
    """How many letters have to be changed, put in or taken out."""
    if not a or not b:
        return len(a) + len(b)
    return min(levenshtein(a[1:], b) + 1, levenshtein(a, b[1:]) + 1, levenshtein(a[1:], b[1:]) + (a[0] != b[0]))


def same(a, b):
    return a is not None and b is not None and vcmp(a, b) == 0


class Model:
    """An office by the texts that it keeps, and what testing has."""

    def __init__(self, texts, testing):
        self.kept, self.testing = {}, testing
        for text in texts:
            self.take(text)

    def take(self, text):
        first = paragraphs(text)[0]
        self.kept.setdefault((first["from"], int(first["number"])), text)

    def upto(self, sender):
        number = 0
        while (sender, number + 1) in self.kept:
            number += 1
        return number

    def covered(self, kind):
        """The paragraphs of the messages of a kind without a gap before them."""
        found = []
        for (sender, number), text in self.kept.items():
            ps = paragraphs(text)
            if number <= self.upto(sender) and ps[0]["kind"] == kind:
                found.append(ps)
        return found

    def source(self, name):
        """Unstable's version of a source, in the letters of the message that gave it."""
        found = [p[0] for p in self.covered("upload") if p[0]["source"] == name]
        best = [p for p in found if all(vcmp(p["version"], q["version"]) >= 0 for q in found)]
        return min(best, key=lambda p: int(p["number"]))["version"] if best else None

    def row(self, arch, package):
        drops = [p[0]["version"] for p in self.covered("drop")
                 if (p[0]["architecture"], p[0]["package"]) == (arch, package)]
        builds = [(int(p[0]["number"]), place, q["version"]) for p in self.covered("build")
                  for place, q in enumerate(p[1:]) if (q["architecture"], q["package"]) == (arch, package)]
        builds = [b for b in builds if all(vcmp(b[2], d) > 0 for d in drops)]
        best = [b for b in builds if all(vcmp(b[2], c[2]) >= 0 for c in builds)]
        return min(best)[2] if best else None

    def in_force(self, number):
        hints = {int(p[0]["number"]) for p in self.covered("hint")}
        return number in hints - {int(p[0]["cancels"]) for p in self.covered("unhint")}

    def newer(self):
        """How many sources are newer in unstable than in testing."""
        names = {p[0]["source"] for p in self.covered("upload")}
        return sum(n not in self.testing or vcmp(self.source(n), self.testing[n]) > 0 for n in names)

    def last(self, kind, bug=None):
        """The message of the greatest number of a kind, maybe on one bug."""
        found = [p[0] for p in self.covered(kind) if bug is None or p[0]["bug"] == bug]
        return max(found, key=lambda p: int(p["number"]), default=None)

    def wishes(self):
        """The hints in force by number, each as its words and its items."""
        found = {}
        for p in self.covered("hint"):
            words, number = p[0]["hint"].split(), int(p[0]["number"])
            cut = 2 if words[0] == "age-days" else 1
            if self.in_force(number):
                found[number] = " ".join(words[:cut]), words[cut:]
        return found

    def orders(self):
        return [paragraphs(text)[0] for (sender, _), text in self.kept.items() if sender == "clock"]

    def item(self, word, name, version):
        """What is odd in an item of a hint."""
        unstable, testing = self.source(name), self.testing.get(name)
        if unstable is None:
            return "no source " + name
        if word == "block" or (word == "remove" and same(version, testing)):
            return None
        if word == "remove":
            out = ", and keeps %s out" % version if same(version, unstable) else ""
            return "testing has %s: this removes nothing%s" % (testing and name + " " + testing or "no " + name, out)
        if same(version, testing):
            return "%s %s is in testing already" % (name, version)
        return None if same(version, unstable) else "unstable has %s %s" % (name, unstable)


def line_of(text, place, name):
    """The line of a field of a paragraph."""
    before = text.split("\n\n")[:place]
    start = sum(part.count("\n") + 2 for part in before)
    lines = text.split("\n\n")[place].split("\n")
    return start + 1 + next(i for i, line in enumerate(lines) if line.lower().startswith(name.lower() + ":"))


def misspelt(text):
    """Fields with nearly the names of fields that are read and missing."""
    ps = paragraphs(text)
    for place, p in enumerate(ps):
        read = (BINARY if place else READ[ps[0]["kind"]]).split()
        missing = [name for name in read if name.lower() not in p]
        for line in text.split("\n\n")[place].split("\n"):
            name = line.split(":")[0]
            near = [(levenshtein(name.lower(), other.lower()), i, other) for i, other in enumerate(missing)]
            if name and name.lower() not in [r.lower() for r in read] and near and min(near)[0] <= 2:
                words = "the office reads no field %s here: is %s meant?" % (name, min(near)[2])
                yield line_of(text, place, name), words


def of_days(p):
    day = datetime.date.fromisoformat(p["day"]) if "day" in p else None
    if p["kind"] in ("upload", "run") and TODAY < day:
        yield "Day", "day %s is after today, %s" % (day, TODAY)
    if p["kind"] == "upload" and day < TODAY - datetime.timedelta(30):
        yield "Day", "day %s is more than 30 days before today" % day


def of_order(model, p):
    """What is odd in an order, by its senders."""
    stated = {item.split()[0]: int(item.split()[1]) for item in p["covers"].split(",") if item.strip()}
    earlier = [{i.split()[0]: int(i.split()[1]) for i in o["covers"].split(",") if i.strip()} for o in model.orders()]
    covered = {s: max([e.get(s, 0) for e in earlier], default=0) for s in SENDERS[:4]}
    numbers = {s: (stated.get(s, 0), model.upto(s), covered[s]) for s in covered}
    for s, (c, u, before) in numbers.items():
        if u < c:
            yield "Covers", "%s %d isn't kept: this run and all later ones wait" % (s, u + 1)
    for s, (c, u, before) in numbers.items():
        if max(c, before) < u:
            yield "Covers", "%s %d to %d isn't covered" % (s, max(c, before) + 1, u)
    for s, (c, u, before) in numbers.items():
        if 0 < c < before:
            yield "Covers", "%s: an earlier order covers %d: this changes nothing" % (s, before)
    latest = max([o["day"] for o in model.orders()], default="")
    if p["day"] < latest:
        yield "Day", "an earlier order has day %s: this one has no effect" % latest


def of_kind(model, p):
    """What is odd in a message of one paragraph, by the field."""
    kind = p["kind"]
    if kind == "upload":
        has = model.source(p["source"])
        if has is not None and vcmp(p["version"], has) <= 0:
            yield "Version", "unstable has %s %s: this upload changes nothing" % (p["source"], has)
    elif kind == "bug" and model.source(p["source"]) is None:
        yield "Source", "no source " + p["source"]
    elif kind == "drop":
        has = model.row(p["architecture"], p["package"])
        if has is None or vcmp(has, p["version"]) > 0:
            row = "%s of %s on %s" % (has or "no row", p["package"], p["architecture"])
            yield "Package", "unstable has %s: this drops nothing" % row
    elif kind == "hint" and not p["hint"].startswith("block-all"):
        word, *items = p["hint"].split()
        for item in items[1:] if word == "age-days" else items:
            name, _, version = item.partition("/")
            told = model.item(word, name, version)
            if told:
                yield "Hint", told
    elif kind == "unhint" and not model.in_force(int(p["cancels"])):
        yield "Cancels", "no hint in force has the number " + p["cancels"]
    elif kind == "run":
        yield from of_order(model, p)


def front(version):
    """The epoch, and the first number after it."""
    epoch, colon, rest = version.rpartition(":")
    return int(epoch or 0), int((re.findall(r"[0-9]+", rest) or ["0"])[0])


def of_effect(model, p, binaries):
    """What in a message has a greater effect than is meant, or none, by the paragraph and the field."""
    kind, kept = p["kind"], (p["from"], int(p["number"])) in model.kept
    if kind == "upload" and model.source(p["source"]) and vcmp(p["version"], model.source(p["source"])) > 0:
        has = model.source(p["source"])
        below = "no version below %s will count" % p["version"]
        if front(p["version"])[0] > front(has)[0]:
            yield 0, "Version", "unstable has %s %s, of a lower epoch: %s" % (p["source"], has, below)
        elif front(p["version"])[1] >= max(20, 10 * front(has)[1]):
            yield 0, "Version", "unstable has %s %s: %s" % (p["source"], has, below)
    if kind == "drop":
        has = model.row(p["architecture"], p["package"])
        if has and vcmp(has, p["version"]) < 0:
            row = "%s of %s on %s" % (has, p["package"], p["architecture"])
            yield 0, "Version", "unstable has %s: no build up to %s will count" % (row, p["version"])
    if kind == "hint" and p["hint"] == "block-all source":
        yield 0, "Hint", "this keeps all sources out: %d are newer in unstable" % model.newer()
    if kind == "delays":
        names = ["low", "medium", "high", "critical"]
        old = model.last("delays") or dict(zip(names, ["10", "5", "2", "0"]))
        for n in names:
            a, b = int(old[n]), int(p[n])
            if (b > a + 5 and b > 2 * a) or (b < a - 5 and 2 * b < a):
                yield 0, n.title(), "%s is %d now" % (n.title(), a)
        for a, b in zip(names, names[1:]):
            if int(p[a]) < int(p[b]):
                yield 0, a.title(), "%s is below %s" % (a.title(), b.title())
    for place, q in enumerate(binaries, 1):
        has = model.row(q["architecture"], q["package"])
        if has and vcmp(has, q["version"]) >= 0 and not kept:
            yield place, "Package", "unstable has %s %s on %s: this build changes nothing" % (
                q["package"], has, q["architecture"])
    if kind == "bug":
        yield from of_bug(model, p)
    if kind == "hint" and not kept:
        cut = 2 if p["hint"].startswith("age-days") else 1
        words, items = " ".join(p["hint"].split()[:cut]), p["hint"].split()[cut:]
        for number, (other, others) in sorted(model.wishes().items()):
            both = [item for item in items if item in others]
            if other == words and words in ("easy", "block-all") and set(items) == set(others):
                yield 0, "Hint", "rt %d in force asks this already" % number
            elif other == words and words not in ("easy", "block-all") and both:
                yield 0, "Hint", "rt %d in force asks %s already" % (number, ", ".join(both))


def of_bug(model, p):
    """What is odd in the versions and in the source of a bug."""
    has = model.source(p["source"])
    if "found" in p and "fixed" in p and vcmp(p["fixed"], p["found"]) <= 0:
        yield 0, "Fixed", "%s isn't above %s, where it was found: no version has this bug" % (p["fixed"], p["found"])
    elif "found" in p and has and vcmp(p["found"], has) > 0:
        yield 0, "Found", "unstable has %s %s: no version up to it has this bug" % (p["source"], has)
    last = model.last("bug", p["bug"])
    if last and last["source"] != p["source"]:
        yield 0, "Source", "bug %s was of %s, which no longer has it then" % (p["bug"], last["source"])


def due_of(model, text):
    """The warnings that are due of a message, each with its line."""
    p, *binaries = paragraphs(text)
    sender, number = p["from"], int(p["number"])
    if model.upto(sender) + 1 < number and (sender, number) not in model.kept:
        yield line_of(text, 0, "Number"), "number %d of %s: %d is the next" % (number, sender, model.upto(sender) + 1)
    yield from misspelt(text)
    for field, words in of_days(p):
        yield line_of(text, 0, field), words
    for place, q in enumerate(binaries, 1):
        found = re.fullmatch(r"(\S+)(?: \((\S+)\))?", q.get("source", q["package"]))
        name, version = found[1], found[2] or q["version"]
        has = model.source(name)
        line = line_of(text, place, "Source" if "source" in q else "Package")
        if has is None:
            yield line, "no source " + name
        elif not same(version, has) and not same(version, model.testing.get(name)):
            yield line, "unstable has %s %s" % (name, has)
    for field, words in of_kind(model, p):
        yield line_of(text, 0, field), words
    for place, field, words in of_effect(model, p, binaries):
        yield line_of(text, place, field), words


class Drawn:
    """Messages that an office takes, drawn so that each slip comes now and then."""

    def __init__(self, draw):
        self.draw, self.next = draw, {"ftp": 3, "bd": 3, "bts": 1, "rt": 1, "clock": 2}

    def name(self):
        return self.draw.choice(SOURCES * 3 + ["zz"])

    def version(self):
        return self.draw.choice(VERSIONS)

    def day(self):
        return (TODAY + datetime.timedelta(self.draw.choice([-400, -31, -30, -12, -5, -1, 0, 1, 90]))).isoformat()

    def number(self, sender):
        number = self.next[sender]
        step = self.draw.choice([0] * 12 + [1, 2, -1])
        number = max(number + step, 1)
        self.next[sender] = max(self.next[sender], number + 1) if step <= 1 else self.next[sender]
        return number

    def items(self):
        names = self.draw.sample(SOURCES + ["zz"], self.draw.randint(1, 2))
        return " ".join("%s/%s" % (name, self.version()) for name in names)

    def hint(self):
        return self.draw.choice(["block " + self.name(), "block-all source", "unblock " + self.items(),
                                 "easy " + self.items(), "remove " + self.items(), "age-days 3 " + self.items()])

    def optional(self, values):
        """Optional fields, some of them misspelt."""
        lines = []
        for name, value in values:
            odd = self.draw.choice([name] * 5 + [name + "x", name[1:], name + "xyz", name.upper()])
            lines += ["%s: %s" % (odd, value)] if self.draw.random() < .5 else []
        return lines

    def binary(self):
        source = self.draw.choice([self.name(), "%s (%s)" % (self.name(), self.version())])
        more = [("Source", source), ("Depends", "aa | bb"), ("Provides", "virt"), ("Pre-Depends", "cc (>= 1)")]
        return ["", "Package: " + self.name(), "Version: " + self.version(),
                "Architecture: " + self.draw.choice(ARCHS), *self.optional(more)]

    def covers(self):
        """Numbers near those that the senders reached."""
        stated = []
        for sender in self.draw.sample(SENDERS[:4], self.draw.randint(2, 4)):
            stated.append("%s %d" % (sender, max(self.next[sender] - 1 + self.draw.choice([0, 0, 0, 0, -1, -2, 1]), 0)))
        return ", ".join(stated)

    def lines(self, kind):
        if kind == "upload":
            return ["Source: " + self.name(), "Version: " + self.version(), "Urgency: low", "Day: " + self.day()]
        if kind == "drop":
            return ["Package: " + self.name(), "Architecture: " + self.draw.choice(ARCHS), "Version: " + self.version()]
        if kind == "build":
            return [line for _ in range(self.draw.randint(1, 3)) for line in self.binary()]
        if kind == "bug":
            more = self.optional([("Found", self.version()), ("Fixed", self.version())])
            return ["Bug: %d" % self.draw.randint(1, 3), "Source: " + self.name(), "Severity: serious", *more]
        return {"hint": ["Hint: " + self.hint()], "unhint": ["Cancels: %d" % self.draw.randint(1, 9)],
                "delays": ["%s: %d" % (name, self.draw.choice([0, 1, 4, 9, 40]))
                           for name in ("Low", "Medium", "High", "Critical")], "none": [],
                "run": ["Day: " + self.day(), "Covers: " + self.covers()]}[kind]

    def message(self):
        sender, kind = self.draw.choice(
            [("ftp", "upload")] * 4 + [("ftp", "drop")] * 4 + [("bd", "build")] * 4 + [("bts", "bug")] * 2
            + [("rt", "hint")] * 4 + [("rt", "unhint"), ("rt", "delays"), ("bts", "none")] + [("clock", "run")] * 3)
        head = ["From: " + sender, "Number: %d" % self.number(sender), "Kind: " + kind]
        return "\n".join(head + self.lines(kind)) + "\n"


def first_of_each(texts, known):
    """The messages that the office would hold: the first text of each number, or that one again."""
    kept, found = dict(known), []
    for text in texts:
        first = paragraphs(text)[0]
        label = first["from"], first["number"]
        if kept.setdefault(label, text) == text:
            found.append(text)
    return found, kept


def bag(texts):
    return b"".join(bags.framed(text.encode()) for text in texts)


@needs_office
class AgainstTheModel(unittest.TestCase):

    def one(self, seed):
        """Mail of a seed is kept in a store, and more is looked at; how many warnings there were."""
        drawn = Drawn(random.Random(seed))
        kept, known = first_of_each(MOVED + [drawn.message() for _ in range(40)], {})
        looked, _ = first_of_each([drawn.message() for _ in range(40)], known)
        with tempfile.TemporaryDirectory() as folder:
            store, name = os.path.join(folder, "store.db"), os.path.join(folder, "bag")
            ran = office("replay", "--conf", SETUP, "--db", store, given=bag(kept))
            self.assertEqual((ran.returncode, ran.stderr), (0, b""))
            testing = re.findall(r"(?m)^source (\S+) (\S+)$", ran.stdout.decode())
            with open(name, "wb") as file:
                file.write(bag(looked))
            due, model = "", Model(kept, dict(testing))
            for place, text in enumerate(looked, 1):
                due += "".join("bag#%d:%d: warning: %s\n" % (place, *told) for told in due_of(model, text))
                model.take(text)
            words = ["--conf", SETUP, "--today", TODAY.isoformat()]
            told, faults, status = tool_here("office-lint", command.main, *words, "--db", store, name)
            self.assertEqual((told.replace(name, "bag"), faults), (due, ""), seed)
            self.assertEqual(status, 1 if due else 0)
            if seed % 3 == 0:
                with Serving(store=store) as serving:
                    told, faults, _ = tool_here("office-lint", command.main, *words, "--url", serving.url, name)
                self.assertEqual((told.replace(name, "bag"), faults), (due, ""), seed)
        return re.findall(r"(?m)warning: (.*)$", due)

    def test_random_slips(self):
        told = [words for seed in range(SEEDS) for words in self.one(seed)]
        forms = ["is the next", "reads no field", "is after today", "days before today", "this upload changes nothing",
                 "no source", "this drops nothing", "is in testing already", "no hint in force", "isn't kept",
                 "isn't covered", "an earlier order covers", "an earlier order has day", r"unstable has \S+ \S+$",
                 "of a lower epoch", r"has \S+ \S+: no version below", "no build up to", "keeps all sources out",
                 "is 10 now", "is below", "this build changes nothing", "no version has this bug",
                 "no version up to it", "which no longer has it", "in force asks this", "in force asks [a-z]+/",
                 "this removes nothing$", "and keeps"]
        for form in forms:
            self.assertGreater(sum(bool(re.search(form, words)) for words in told), 0, form)


if __name__ == "__main__":
    unittest.main()
