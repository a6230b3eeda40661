#!/usr/bin/env python3
"""Random rows of offices opened again after every run: reopened_rows.py SEED.. prints the row of each seed, and
FIRST-LAST means all seeds from one to another. What comes next is drawn by what model.py has in testing, so that
hints, removals, bugs and drops mostly mean something."""
import random
import sys
sys.dont_write_bytecode = True
from model import Office, vcmp

SOURCES = ["aa", "bb", "cc"]
URGENCIES = ["low", "medium", "high", "high", "critical", "critical", "critical", "emergency"]
FIRST_DAY = 3


class Archive:
    """The mail of one row as it grows, and a model of the office that gets it."""

    def __init__(self, draw):
        self.draw, self.office, self.day = draw, Office(), FIRST_DAY
        self.numbers = {"ftp": 0, "bd": 0, "bts": 0, "rt": 0, "clock": 0}
        self.covered = dict(self.numbers)
        self.versions, self.archs, self.built, self.bugs, self.hints = {}, {}, [], {}, {}
        self.usual = draw.choice([["amd64"], ["amd64"], ["amd64", "arm64"], ["arm64"], ["all"]])
        self.later, self.sent, self.held_back = [], [], []

    def message(self, sender, kind, *fields):
        self.numbers[sender] += 1
        lines = ["From: " + sender, "Number: %d" % self.numbers[sender], "Kind: " + kind]
        return "\n".join(lines + list(fields))

    def newest(self, source):
        return self.versions.get(source, ["1"])[-1]

    def next_version(self, source):
        """A version of a source: mostly the next one, else one before it, or the same in other letters."""
        n = len(self.versions.get(source, [])) + 1
        return self.draw.choice([str(n)] * 6 + ["%d~rc1" % n, "%d-0" % max(n - 1, 1), "0.%d" % n])

    def upload(self, source, urgency=None):
        version = self.next_version(source)
        known = self.versions.setdefault(source, [])
        known.append(version)
        for place in range(len(known) - 1, 0, -1):
            if vcmp(known[place - 1], known[place]) > 0:
                known[place - 1], known[place] = known[place], known[place - 1]
        day = "Day: 2025-03-%02d" % max(self.day - self.draw.randint(0, 3), 1)
        urgency = urgency or self.draw.choice(URGENCIES)
        return version, self.message("ftp", "upload", "Source: " + source, "Version: " + version,
                                     "Urgency: " + urgency, day)

    def build(self, source, version, depends=None):
        """What was built of a source, mostly on the architectures of the version before."""
        if source not in self.archs or self.draw.random() < .1:
            self.archs[source] = self.usual if self.draw.random() < .8 else self.draw.choice([["amd64"], ["all"], ["arm64"]])
        lines = []
        for arch in self.archs[source]:
            lines += ["", "Package: " + source, "Version: " + version, "Architecture: " + arch]
            if depends:
                lines.append("Depends: " + depends)
            self.built.append((arch, source, version))
        return self.message("bd", "build", *lines)

    def relation(self, other):
        name = self.draw.choice([s for s in SOURCES if s != other])
        form = self.draw.choice(["", "", " (>= %s)", " (= %s)", " | virt", " (<< %s)"])
        return name + (form % self.newest(name) if "%s" in form else form)

    # What may come, each as the texts of some messages.

    def new_version(self, source=None, urgency=None):
        source = source or self.draw.choice(SOURCES)
        version, text = self.upload(source, urgency)
        depends = self.relation(source) if self.draw.random() < .3 else None
        return [text] + ([self.build(source, version, depends)] if self.draw.random() < .9 else [])

    def circle(self):
        """Two sources that need each other's new version, and mostly a hint to move both."""
        a, b = self.draw.sample(SOURCES, 2)
        (va, ta), (vb, tb) = self.upload(a, "critical"), self.upload(b, "critical")
        texts = [ta, tb, self.build(a, va, "%s (>= %s)" % (b, vb)), self.build(b, vb, "%s (>= %s)" % (a, va))]
        return texts + (self.easy([a, b]) if self.draw.random() < .8 else [])

    def easy(self, names=None):
        names = names or self.draw.sample(SOURCES, self.draw.randint(1, 2))
        items = ["%s/%s" % (n, self.newest(n) if self.draw.random() < .9 else "9") for n in names]
        return self.hint("easy " + " ".join(items))

    def hint(self, words):
        text = self.message("rt", "hint", "Hint: " + words)
        self.hints[self.numbers["rt"]] = words
        return [text]

    def remove(self):
        """A source of testing goes out, and mostly comes back."""
        if not self.office.sources:
            return self.new_version()
        name = self.draw.choice(sorted(self.office.sources))
        if self.draw.random() < .8:
            self.later.append(self.cancel)
        return self.hint("remove %s/%s" % (name, self.office.sources[name]))

    def cancel(self):
        """A hint that keeps a source out is cancelled."""
        standing = [n for n, words in self.hints.items() if words.startswith(("remove", "block"))]
        if not standing:
            return self.remove()
        number = self.draw.choice(standing)
        del self.hints[number]
        return [self.message("rt", "unhint", "Cancels: %d" % number)]

    def blocked(self):
        """A new version that is blocked, and mostly let through by the next run."""
        source = self.draw.choice(SOURCES)
        texts = self.new_version(source, "critical")
        self.later.append(self.draw.choice([self.cancel, lambda: self.hint("unblock %s/%s" % (source, self.newest(source)))]))
        return texts + self.hint(self.draw.choice(["block " + source, "block-all source"]))

    def aged(self):
        """A new version that has to wait for days that a hint gives."""
        source = self.draw.choice(SOURCES)
        texts = self.new_version(source)
        return texts + self.hint("age-days %d %s/%s" % (self.draw.choice([0, 0, 1, 9]), source, self.newest(source)))

    def delays(self):
        days = [self.draw.randint(0, 6) for _ in range(4)]
        return [self.message("rt", "delays", *("%s: %d" % pair for pair in zip(["Low", "Medium", "High", "Critical"], days)))]

    def bug(self):
        """A bug of a new version, and mostly what becomes of it by the next run."""
        number, source = len(self.bugs) + 1, self.draw.choice(SOURCES)
        self.bugs[number] = source
        texts = self.new_version(source, "critical")
        if self.draw.random() < .8:
            self.later.append(self.known_bug)
        severity = self.draw.choice(["grave", "serious", "critical", "normal"])
        found = ["Found: " + self.newest(source)] if self.draw.random() < .5 else []
        return texts + [self.message("bts", "bug", "Bug: %d" % number, "Source: " + source, "Severity: " + severity, *found)]

    def known_bug(self):
        """A bug is found elsewhere, fixed, or more or less grave."""
        number = self.draw.choice(sorted(self.bugs))
        source = self.bugs[number]
        fields = self.draw.choice([["Severity: normal"], ["Severity: grave", "Fixed: " + self.newest(source)],
                                   ["Severity: serious", "Found: " + self.newest(source)]])
        return [self.message("bts", "bug", "Bug: %d" % number, "Source: " + source, *fields)]

    def drop(self):
        if not self.built:
            return self.new_version()
        arch, package, version = self.built[-1] if self.draw.random() < .5 else self.draw.choice(self.built)
        return [self.message("ftp", "drop", "Package: " + package, "Architecture: " + arch, "Version: " + version)]

    def order(self, is_last):
        """The order of the next run, which covers what came, and now and then not the last message of a sender."""
        senders = ["ftp", "bd", "bts", "rt"]
        for s in senders:
            back = 0 if is_last or self.draw.random() < .85 else 1
            self.covered[s] = max(self.covered[s], self.numbers[s] - back)
        covers = ", ".join("%s %d" % (s, self.covered[s]) for s in senders if self.covered[s])
        return self.message("clock", "run", "Day: 2025-03-%02d" % self.day, "Covers: " + covers)

    def mail_of_a_run(self, run, runs):
        """The mail between two openings: now and then a text comes after the next opening alone, or once more."""
        first = [self.new_version, self.draw.choice([self.new_version, self.circle])]
        draws = first if run == 1 else self.later + self.draw.choices(
            [self.new_version, self.circle, self.easy, self.remove, self.blocked, self.aged, self.delays, self.bug, self.drop],
            [2, 2, 1, 5, 1, 1, 2, 2, 2], k=1 if self.later else 2)
        self.later = []
        texts = [text for event in draws for text in event()]
        texts.append(self.order(run == runs))
        if self.draw.random() < .5:
            self.draw.shuffle(texts)
        texts = self.held_back + texts
        self.held_back = []
        if run < runs and self.draw.random() < .15:
            self.held_back = [texts.pop(self.draw.randrange(len(texts)))]
        if self.draw.random() < .2 and self.sent:
            texts.append(self.draw.choice(self.sent))
        self.sent += texts
        for text in texts:
            self.office.deliver(text + "\n")
        self.day += self.draw.randint(0, 4)
        return texts


def row_of(seed):
    """The row of a seed, with its name."""
    draw = random.Random(seed)
    archive, runs, steps = Archive(draw), draw.randint(3, 5), []
    for run in range(1, runs + 1):
        steps.append("> bag\n" + "\n--\n".join(archive.mail_of_a_run(run, runs)))
    told = "facts" if draw.random() < .6 else "check"
    return "=== opened again behind every run, random %d\n%s\n> %s\n" % (seed, "\n> reopen\n".join(steps), told)


if __name__ == "__main__":
    for word in sys.argv[1:]:
        first, _, last = word.partition("-")
        for seed in range(int(first), int(last or first) + 1):
            sys.stdout.write(row_of(seed))
