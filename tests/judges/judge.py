"""What a run decides, by its definition: slow and plain, each question put again to all mail."""
from collections import namedtuple
from mail import ALL, ARCHS, NAMES

LISTED = range(len(ARCHS) - 1)
PLACES = range(len(NAMES))

Excuse = namedtuple("Excuse", "source unstable is_candidate")
Change = namedtuple("Change", "after incoming")


def is_same(version, other):
    return version.place == other.place


def is_above(version, other):
    return version.place > other.place


def key_of(row):
    return (row.arch, row.name)


class Unstable:
    """Unstable of all mail: of each source, and of each architecture and name, what nothing comes before."""

    def __init__(self, mail):
        self.uploads = [upload for upload in mail.uploads if not any(
            other.source == upload.source and comes_before(other, upload) for other in mail.uploads)]
        left = [built for built in mail.builds if not any(
            (drop.arch, drop.name) == key_of(built) and not is_above(built.version, drop.version)
            for drop in mail.drops)]
        self.rows = [built for built in left if not any(
            key_of(other) == key_of(built) and comes_before(other, built) for other in left)]

    def source(self, name):
        return next((upload for upload in self.uploads if upload.source == name), None)

    def is_current(self, row):
        """Whether a row is built from its source's unstable version."""
        upload = self.source(row.source)
        return upload is not None and is_same(row.source_version, upload.version)

    def rows_of(self, source, arch):
        return [row for row in self.rows if row.source == source and row.arch == arch]


def comes_before(one, other):
    """Whether it has a greater version, or the same from a smaller place."""
    return is_above(one.version, other.version) or is_same(one.version, other.version) and one.at < other.at


class Suite:
    """Testing: a version for each source, and a row for each architecture and name."""

    def __init__(self, sources=(), rows=()):
        self.sources = dict(sources)
        self.rows = {key_of(row): row for row in rows}

    def put(self, row):
        """Puts in a row, and its source at the version that it was built from."""
        self.sources[row.source] = row.source_version
        self.rows[key_of(row)] = row

    def has_at(self, name, version):
        return name in self.sources and is_same(self.sources[name], version)

    def text(self, finished):
        lines = ["testing %d" % finished]
        lines += ["source %s %s" % (NAMES[name], self.sources[name].text) for name in sorted(self.sources)]
        lines += ["binary %s %s %s %s" % (ARCHS[row.arch], NAMES[row.name], row.version.text, NAMES[row.source])
                  for _, row in sorted(self.rows.items(), key=lambda item: item[0])]
        return lines


# Installable rows: every set of rows is tried, and the members of the closed ones are installable.

def is_in(version, op, other):
    """Whether a version is in a relation."""
    return {"<<": version.place < other.place, "<=": version.place <= other.place,
            "=": version.place == other.place, ">=": version.place >= other.place,
            ">>": version.place > other.place}[op]


def satisfies(row, wanted):
    """Whether a row satisfies an alternative, by its own name or by what it provides."""
    if row.name == wanted.name and (not wanted.op or is_in(row.version, wanted.op, wanted.version)):
        return True
    offered = row.provides
    if offered is None or offered.name != wanted.name:
        return False
    return not wanted.op or offered.version is not None and is_in(offered.version, wanted.op, wanted.version)


def installable(rows, arch):
    """The keys of the rows that some closed set of the rows of an architecture has."""
    here = [row for row in rows if row.arch in (arch, ALL)]
    needs = [[sum(1 << place for place, other in enumerate(here) if any(satisfies(other, one) for one in clause))
              for clause in row.clauses] for row in here]
    found = 0
    for chosen in range(1 << len(here)):
        if all(chosen & need for place, of in enumerate(needs) if chosen >> place & 1 for need in of):
            found |= chosen
    return {key_of(row) for place, row in enumerate(here) if found >> place & 1}


# Changes of testing, and the first watched row that one would break.

def removed(suite, name):
    """A source goes out."""
    return Change(Suite([of for of in suite.sources.items() if of[0] != name],
                        [row for row in suite.rows.values() if row.source != name]), set())


def moved(unstable, suite, group):
    """A group moves as one."""
    incoming = [row for row in unstable.rows if row.source in group and unstable.is_current(row)]
    left = [row for row in suite.rows.values() if row.source not in group]
    sources = dict(suite.sources)
    sources.update((name, unstable.source(name).version) for name in group)
    return Change(Suite(sources, left + incoming), {key_of(row) for row in incoming})


def offender(suite, change):
    """The first watched row that came in or was installable, and isn't; none if the change is allowed."""
    for arch in LISTED:
        before = installable(suite.rows.values(), arch)
        after = installable(change.after.rows.values(), arch)
        watched = [key for key in change.after.rows if key[0] == arch or key[0] == ALL and arch == 0]
        broken = [key[1] for key in watched if (key in change.incoming or key in before) and key not in after]
        if broken:
            return "uninstallable %s %s" % (ARCHS[arch], NAMES[min(broken)])
    return None


# Excuses.

def is_news(held, version):
    return held is None or is_above(version, held)


def days_needed(mail, held, upload):
    """The days of the last standing hint on the upload's age, else those of the most urgent upload since testing."""
    hinted = [hint.days for hint in mail.standing("age-days")
              if hint.name == upload.source and is_same(hint.version, upload.version)]
    if hinted:
        return hinted[-1]
    days = max(mail.delays, key=lambda delays: delays.number).days if mail.delays else [10, 5, 2, 0]
    return days[max(other.rank for other in mail.uploads
                    if other.source == upload.source and is_news(held, other.version))]


def affects(bug, version):
    is_found = bug.found is None or not is_above(bug.found, version)
    return is_found and (bug.fixed is None or is_above(bug.fixed, version))


def new_bugs(mail, held, upload):
    """The bugs that affect the upload and not testing, each by its message of the greatest number."""
    states = {bug.bug: bug for bug in sorted(mail.bugs, key=lambda bug: bug.number)}
    return ["new bug %d" % number for number, bug in sorted(states.items())
            if bug.source == upload.source and bug.severity in ("critical", "grave", "serious")
            and affects(bug, upload.version) and not (held is not None and affects(bug, held))]


def lacks(unstable, source):
    """No current row at all, and architectures with rows of old versions alone."""
    rows = [unstable.rows_of(source, arch) for arch in range(len(ARCHS))]
    current = [any(unstable.is_current(row) for row in of) for of in rows]
    missing = ["missing on %s" % ARCHS[arch] for arch, of in enumerate(rows) if of and not current[arch]]
    return missing if any(current) else ["no binaries"] + missing


def wishes(mail, suite, upload):
    """A block that no unblock of the upload lifts, and a removal at testing's or unstable's version."""
    def is_upload(hint):
        return hint.name == upload.source and is_same(hint.version, upload.version)
    is_blocked = any(hint.name in (None, upload.source) for hint in mail.standing("block", "block-all"))
    is_unblocked = any(is_upload(hint) for hint in mail.standing("unblock"))
    is_asked = any(is_upload(hint) or hint.name == upload.source and suite.has_at(hint.name, hint.version)
                   for hint in mail.standing("remove"))
    return ["blocked"] * (is_blocked and not is_unblocked) + ["removal asked"] * is_asked


def excuse(mail, unstable, suite, day, upload):
    """The excuse of an upload, and its lines."""
    held = suite.sources.get(upload.source)
    age, needed = max((day - upload.day).days, 0), days_needed(mail, held, upload)
    reasons = ["too young"] * (age < needed) + new_bugs(mail, held, upload)
    reasons += lacks(unstable, upload.source) + wishes(mail, suite, upload)
    lines = ["%s %s %s" % (NAMES[upload.source], held.text if held else "-", upload.version.text)]
    lines += [" age %d of %d" % (age, needed)] + [" " + reason for reason in reasons]
    lines += [" not a candidate" if reasons else " candidate"]
    return Excuse(upload.source, upload.version, not reasons), lines


def excuses_of(mail, unstable, suite, day):
    """The excuses of a run by name, and their lines."""
    excuses, lines = [], []
    for name in PLACES:
        upload = unstable.source(name)
        if upload is not None and is_news(suite.sources.get(name), upload.version):
            one, its = excuse(mail, unstable, suite, day, upload)
            excuses.append(one)
            lines += its
    return excuses, lines


class Turn:
    """A run's decisions: removals, groups, single moves in a circle, and what waits."""

    def __init__(self, mail, unstable, suite, excuses):
        self.mail, self.unstable, self.suite, self.lines = mail, unstable, suite, []
        self.candidates = {one.source: one.unstable for one in excuses if one.is_candidate}

    def remaining(self):
        """The candidates that didn't move yet, by name."""
        return [name for name in sorted(self.candidates) if not self.suite.has_at(name, self.candidates[name])]

    def is_allowed(self, change):
        """Makes a change if that is allowed, and returns its offender if it isn't."""
        broken = offender(self.suite, change)
        if broken is None:
            self.suite = change.after
        return broken

    def removal(self, hint):
        """A source goes out at its turn, if testing has that version then."""
        if self.suite.has_at(hint.name, hint.version):
            what = "%s %s" % (NAMES[hint.name], self.suite.sources[hint.name].text)
            broken = self.is_allowed(removed(self.suite, hint.name))
            self.lines.append("remove %d accept %s" % (hint.number, what) if broken is None
                              else "remove %d refuse %s %s" % (hint.number, what, broken))

    def group(self, number, items):
        """The items that aren't in testing move as one, if each is a candidate and the move is allowed."""
        items = [item for item in items if not self.suite.has_at(item.name, item.version)]
        strangers = [item for item in items if item.name not in self.candidates
                     or not is_same(self.candidates[item.name], item.version)]
        if not items:
            return
        if strangers:
            name, version = NAMES[strangers[0].name], strangers[0].version.text
            self.lines.append("easy %d refuse %s/%s not a candidate" % (number, name, version))
            return
        broken = self.is_allowed(moved(self.unstable, self.suite, [item.name for item in items]))
        whole = " ".join("%s %s" % (NAMES[item.name], self.candidates[item.name].text) for item in items)
        self.lines.append("easy %d accept %s" % (number, whole) if broken is None
                          else "easy %d refuse %s" % (number, broken))

    def single(self, start):
        """Moves the first candidate that may, in circular order from a name on, and gives its name."""
        remaining = self.remaining()
        for name in [name for name in remaining if name >= start] + [name for name in remaining if name < start]:
            if self.is_allowed(moved(self.unstable, self.suite, [name])) is None:
                self.lines.append("accept %s %s" % (NAMES[name], self.candidates[name].text))
                return name
        return None

    def decide(self):
        """All decisions in their order."""
        for hint in self.mail.standing("remove"):
            self.removal(hint)
        easy = self.mail.standing("easy")
        for number in sorted({hint.number for hint in easy}):
            self.group(number, [hint for hint in easy if hint.number == number])
        name = self.single(0)
        while name is not None:
            name = self.single(name + 1)
        for name in self.remaining():
            broken = offender(self.suite, moved(self.unstable, self.suite, [name]))
            self.lines.append("wait %s %s %s" % (NAMES[name], self.candidates[name].text, broken))


def run(mail, suite, number, day):
    """The lines of a run, and the testing that it leaves."""
    unstable = Unstable(mail)
    excuses, lines = excuses_of(mail, unstable, suite, day)
    turn = Turn(mail, unstable, suite, excuses)
    turn.decide()
    lines = ["excuses %d %s" % (number, day)] + lines + ["update %d %s" % (number, day)] + turn.lines
    return lines + turn.suite.text(number), turn.suite
