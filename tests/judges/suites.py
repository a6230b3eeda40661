"""Random suites of three runs. Their generator is their own, so that they are the same wherever they are made."""
from judge import Unstable
from mail import ARCHS, Mail

# What is drawn: sources and packages have one of the first four names, and each next two versions are the same.
NAMES = ["aa", "bb", "cc", "dd", "vv"]
VERSIONS = ["1", "1-0", "1+b1", "1+b1-0", "2", "2-0", "3~", "3~-0", "3", "3-0"]
OPS = ["<<", "<=", "=", ">=", ">=", ">>"]
DAYS = ["2025-03-08", "2025-03-12", "2025-03-16"]

# The seeds of the suites in the gate, about reasons and about moves: of the first 1,500 each those by which each thing
# that counts.py counts comes ten times or more.
REASONS = (21, 30, 33, 68, 88, 140, 193, 195, 342, 357, 448, 538, 667, 711, 831, 874, 904, 1149, 1241, 1473)
MOVES = (148, 189, 233, 273, 349, 381, 461, 559, 578, 586, 608, 724, 726, 813, 836, 837, 1029, 1039, 1388, 1442)

HEAD = "The random suites over the rules: see the head of rule_rows. tests/judges/make.py writes this file.\n\n"


class Draws:
    """A generator of numbers by shifts (Marsaglia's xorshift)."""

    def __init__(self, seed):
        self.state = seed * 2654435761 % 2**32 | 1

    def below(self, end):
        """A number below an end, 0 where there is none."""
        self.state ^= self.state << 13 & 0xffffffff
        self.state ^= self.state >> 17
        self.state ^= self.state << 5 & 0xffffffff
        return self.state % end if end else 0

    def once_in(self, draws):
        return self.below(draws) == 0

    def one_of(self, items):
        """One of the items, none where there is none."""
        place = self.below(len(items))
        return items[place] if items else None


class RandomSuite:
    """A random suite of messages that are mostly about reasons, or mostly about moves."""

    def __init__(self, is_moves, seed):
        self.is_moves, self.draws = is_moves, Draws(seed)
        self.mail, self.texts, self.run = Mail(), [], 0

    def send(self, sender, kind, text):
        """One more message, under the next number, whoever sends it."""
        self.texts.append("From: %s\nNumber: %d\nKind: %s\n%s" % (sender, len(self.texts) + 1, kind, text))
        self.mail.take(self.texts[-1])

    def name(self):
        return NAMES[self.draws.below(4)]

    def version(self):
        return self.draws.one_of(VERSIONS)

    def text_of(self, version):
        """Another text of the same version, sometimes."""
        return VERSIONS[VERSIONS.index(version) ^ 1] if self.draws.once_in(4) else version

    # Uploads, drops, bugs and delays.

    def uploaded_version(self):
        """Mostly one that grows with the runs."""
        if not self.is_moves and self.draws.once_in(3):
            return self.version()
        return self.text_of(["1", "2", "3"][self.draws.below(self.run)])

    def urgency(self):
        if self.is_moves and not self.draws.once_in(8):
            return "critical"
        return self.draws.one_of(["low", "medium", "HIGH (fix)", "emergency", "critical"])

    def upload(self):
        sender, source = ["ftp", "sec"][self.draws.below(2)], self.name()
        version, urgency = self.uploaded_version(), self.urgency()
        day = self.draws.below(12) + 1
        self.send(sender, "upload", "Source: %s\nVersion: %s\nUrgency: %s\nDay: 2025-03-%02d"
                  % (source, version, urgency, day))

    def drop(self):
        name, arch, version = self.name(), self.draws.one_of(ARCHS), self.version()
        self.send("ftp", "drop", "Package: %s\nArchitecture: %s\nVersion: %s" % (name, arch, version))

    def known_version(self, field):
        return "" if self.draws.once_in(3) else "\n%s: %s" % (field, self.version())

    def bug(self):
        bug, source = self.draws.below(4) + 1, self.name()
        severity = self.draws.one_of(["critical", "grave", "serious", "important", "minor"])
        found, fixed = self.known_version("Found"), self.known_version("Fixed")
        self.send("bts", "bug", "Bug: %d\nSource: %s\nSeverity: %s%s%s" % (bug, source, severity, found, fixed))

    def delays(self):
        low, medium, high, critical = [self.draws.below(end) for end in (12, 9, 9, 4)]
        self.send("rt", "delays", "Low: %d\nMedium: %d\nHigh: %d\nCritical: %d" % (low, medium, high, critical))

    # Builds.

    def alternative(self):
        name = self.draws.one_of(NAMES)
        if not self.draws.once_in(4):
            return name
        op = self.draws.one_of(OPS)
        return "%s (%s %s)" % (name, op, self.version())

    def need(self, field, draws):
        """A clause of one alternative or two, or none."""
        if not self.draws.once_in(draws):
            return ""
        one = self.alternative()
        other = " | " + self.alternative() if self.draws.once_in(4) else ""
        return "\n%s: %s%s" % (field, one, other)

    def provision(self):
        if not self.draws.once_in(4):
            return ""
        name = self.name() if self.draws.once_in(3) else NAMES[4]
        return "\nProvides: " + (name + " (= %s)" % self.version() if self.draws.once_in(2) else name)

    def paragraph(self, upload, arch):
        """A package of an upload, mostly of its source's name and version. Source says no more than is needed."""
        own = NAMES[upload.source]
        source_version = self.text_of(upload.version.text)
        name = self.name() if self.draws.once_in(6) else own
        version = self.version() if self.draws.once_in(6) else source_version
        source = own + " (%s)" % source_version if version != source_version else own if name != own else ""
        return "\n\nPackage: %s\nVersion: %s\nArchitecture: %s" % (name, version, arch) + (
            source and "\nSource: " + source) + self.need("Pre-Depends", 8) + self.need("Depends", 3) + self.provision()

    def archs(self, upload):
        """The architectures of a build, mostly the same ones for each source."""
        shape = self.draws.below(4) if self.draws.once_in(5) else upload.source
        archs = {0: ["amd64"], 1: ["all"]}.get(shape, ["amd64", "arm64"])
        return archs + [self.draws.one_of(ARCHS)] if self.draws.once_in(6) else archs

    def build(self, upload):
        sender, archs = ["bd", "bq"][self.draws.below(2)], self.archs(upload)
        self.send(sender, "build", "".join(self.paragraph(upload, arch) for arch in archs)[1:])

    def some_build(self):
        """A build of some upload that came before, where there is one."""
        upload = self.draws.one_of(self.mail.uploads)
        if upload is not None:
            self.build(upload)

    def source(self):
        """A new upload, mostly with its build."""
        self.upload()
        if not self.draws.once_in(8 if self.is_moves else 3):
            self.build(self.mail.uploads[-1])

    # Hints and unhints.

    def wish(self):
        """The words of a hint before its items."""
        if self.is_moves:
            return self.draws.one_of(["remove"] * 2 + ["easy"] * 6) if self.run > 1 else "easy"
        words = ["block"] * 3 + ["unblock"] * 3 + ["age-days"] * 3 + ["block-all source"] + ["remove"] * 2
        word = self.draws.one_of(words)
        return "age-days %d" % self.draws.below(9) if word == "age-days" else word

    def item(self):
        """A name and a version: mostly those of an upload that came before, and of these mostly unstable's."""
        upload = self.draws.one_of(self.mail.uploads) if self.draws.once_in(4) else \
            Unstable(self.mail).source(self.draws.below(4))
        if upload is not None:
            return NAMES[upload.source], self.text_of(upload.version.text)
        return self.name(), self.version()

    def hint(self):
        wish = self.wish()
        one, other = self.item(), self.item()
        items = [one]
        if wish == "block-all source":
            items = []
        elif not self.draws.once_in(3) and other[0] != one[0]:
            items.append(other)
        texts = [name if wish == "block" else "%s/%s" % (name, version) for name, version in items]
        self.send("rt", "hint", "Hint: " + " ".join([wish] + texts))

    def unhint(self):
        hint = self.draws.one_of(self.mail.hints)
        self.send("rt", "unhint", "Cancels: %d" % (hint.number if hint else 1))

    # Whole suites.

    def letter(self):
        """One more message, or two. Suites about moves have no bugs and no delays."""
        reasons = [self.drop] * 2 + [self.bug] * 2 + [self.delays, self.unhint] + [self.hint] * 2
        both = [self.some_build] * 3 + [self.source] * 5
        moves = [self.unhint, self.hint] + [self.some_build] * 2 + [self.drop] + [self.source] * 3
        kinds = reasons + both + moves
        kinds[self.draws.below(16) + 8 * self.is_moves]()

    def given(self):
        """About half of unstable's rows, each by its sender, number and place, or none at all."""
        rows = []
        if self.draws.once_in(3):
            for row in Unstable(self.mail).rows:
                if self.draws.once_in(2):
                    rows.append("%s %d %d" % (["bd", "bq"][row.at[0] - 2], row.at[1], row.at[2]))
        return rows

    def mail_of_run(self):
        """The mail of one more run, in random order, and the rows that testing is given."""
        self.run += 1
        known = len(self.texts)
        for _ in range(self.draws.below(8) + 4):
            self.letter()
        self.hint()
        self.hint()
        given = self.given() if self.run == 1 else []
        drawn = [self.draws.below(len(self.texts)) for _ in range(20)]
        news = range(known, len(self.texts))
        order = [place for place in dict.fromkeys(drawn) if place in news]
        order += [place for place in news if place not in drawn]
        return "> mail\n%s\n" % "\n--\n".join(self.texts[place] for place in order), given


def suite_of(is_moves, seed):
    """The row of a suite."""
    suite = RandomSuite(is_moves, seed)
    text = "=== %s, %d\n" % ("moves" if is_moves else "reasons", seed)
    for day in DAYS:
        mail, given = suite.mail_of_run()
        text += mail
        if given:
            text += "> given 0\n%s\n" % "\n".join(given)
        text += "> run %s\n" % day
    return text


def suites_of(reasons, moves):
    """The rows of the suites of these seeds."""
    return HEAD + "".join(suite_of(is_moves, seed) for is_moves, seeds in ((False, reasons), (True, moves))
                          for seed in seeds)


def all_suites():
    """The rows of the suites in the gate."""
    return suites_of(REASONS, MOVES)
