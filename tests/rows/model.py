#!/usr/bin/env python3
"""A slow model of the office, written from its rules and formats alone: what a replay of well-formed mail prints.
It decides no refusal of a text that is malformed: a row that has one says how it is refused."""
import collections
import datetime
import re

ARCHS = ["amd64", "arm64"]
SENDERS = ["ftp", "bd", "bts", "rt", "clock"]
DAYS = {"low": 10, "medium": 5, "high": 2, "emergency": 0, "critical": 0}
RANK = {"low": 0, "medium": 1, "high": 2, "emergency": 3, "critical": 3}


def weight(c):
    if c == "":
        return 0
    if c == "~":
        return -1
    return ord(c) if c.isalpha() else ord(c) + 256


def part_cmp(a, b):
    while a or b:
        na = re.match(r"[^0-9]*", a).group(); nb = re.match(r"[^0-9]*", b).group()
        for i in range(max(len(na), len(nb))):
            x, y = weight(na[i:i+1]), weight(nb[i:i+1])
            if x != y:
                return -1 if x < y else 1
        a, b = a[len(na):], b[len(nb):]
        da = re.match(r"[0-9]*", a).group(); db = re.match(r"[0-9]*", b).group()
        x, y = int(da or 0), int(db or 0)
        if x != y:
            return -1 if x < y else 1
        a, b = a[len(da):], b[len(db):]
    return 0


def split(v):
    epoch, rest = (v.split(":", 1) if ":" in v else ("0", v))
    up, rev = rest.rsplit("-", 1) if "-" in rest else (rest, "0")
    return int(epoch), up, rev


def vcmp(a, b):
    (e, u, r), (f, v, s) = split(a), split(b)
    if e != f:
        return -1 if e < f else 1
    return part_cmp(u, v) or part_cmp(r, s)


def holds(op, a, b):
    c = vcmp(a, b)
    return {"<<": c < 0, "<": c <= 0, "<=": c <= 0, "=": c == 0, ">=": c >= 0, ">": c >= 0, ">>": c > 0}[op]


def paragraphs(text):
    out, cur, last = [], {}, None
    for line in text.replace("\r", "").split("\n"):
        if not line.strip(" \t"):
            if cur:
                out.append(cur)
            cur, last = {}, None
        elif line[0] in " \t":
            cur[last] += "\n" + line.strip()
        else:
            n, v = line.split(":", 1)
            last = n.lower()
            cur[last] = v.strip()
    if cur:
        out.append(cur)
    return out


def alternatives(text):
    out = []
    for alt in text.split("|"):
        m = re.fullmatch(r"\s*([a-z0-9][a-z0-9+.-]+)(?::[a-z0-9-]+)?\s*(?:\(\s*(<<|<=|>=|>>|=|<|>)\s*([^\s)]+)\s*\))?\s*", alt)
        out.append(m.groups())
    return out


def items(text):
    return [alternatives(i) for i in (text or "").split(",") if i.strip()]


def satisfies(row, alt):
    name, op, v = alt
    if row["package"] == name and (op is None or holds(op, row["version"], v)):
        return True
    return any(p == name and (op is None or (pv is not None and holds(op, pv, v))) for p, _, pv in row["provides"])


def installable(rows):
    """The rows that are left if each row without what it depends on is taken away, again and again."""
    live = list(rows)
    while True:
        named = {}
        for r in live:
            for name in {r["package"]} | {p for p, _, _ in r["provides"]}:
                named.setdefault(name, []).append(r)
        left = [r for r in live
                if all(any(satisfies(s, a) for a in c for s in named.get(a[0], [])) for c in r["clauses"])]
        if len(left) == len(live):
            return left
        live = left


def works(rows):
    """The watched rows, and those of them that are installable, each as (place of the architecture, package, its own)."""
    good, watched = set(), set()
    for i, arch in enumerate(ARCHS):
        here = [r for k, r in rows.items() if k[0] in (arch, "all")]
        ok = {id(r) for r in installable(here)}
        for r in here:
            if r["arch"] == arch or i == 0:
                watched.add((i, r["package"], r["arch"]))
                if id(r) in ok:
                    good.add((i, r["package"], r["arch"]))
    return watched, good


# What the last run knew of unstable's sources and rows, of hints in force and bugs, and what can be asked of it.
Known = collections.namedtuple("Known", "sources rows hints bugs excuse named moved offender")
# A change of testing that the last run refused: by which hint, what it would break, which sources would come in, the rows
# before it and after it, and what the run's excuses say of a source.
Refused = collections.namedtuple("Refused", "number offender coming old new excuse")


class Office:
    def __init__(self):
        self.kept, self.finished = {}, 0
        self.sources, self.rows = {}, {}
        self.reports, self.facts, self.known = {}, [], None
        self.refused = []
        self.behind_groups = {}, {}, {}  # rows, sources and candidates where the last run's single moves began

    def deliver(self, text):
        ps = paragraphs(text)
        f, n = ps[0]["from"], int(ps[0]["number"])
        key = (SENDERS.index(f), n)
        if self.kept.get(key, text) != text:
            return "refused OtherText"
        self.kept[key] = text
        self.settle()
        return "held %s %d" % (f, n)

    def covers(self, k):
        cover, day = [0] * len(SENDERS), ""
        for i in range(1, k + 1):
            if (4, i) not in self.kept:
                return None
            p = paragraphs(self.kept[4, i])[0]
            day = max(day, p["day"])
            for item in p["covers"].split(","):
                if item.strip():
                    s, n = item.split()
                    cover[SENDERS.index(s)] = max(cover[SENDERS.index(s)], int(n))
        return cover, day

    def ready(self, k):
        c = self.covers(k)
        return c is not None and all((s, n) in self.kept for s in range(5) for n in range(1, c[0][s] + 1))

    def settle(self):
        while self.ready(self.finished + 1):
            self.finished += 1
            self.run(self.finished)

    def run(self, k):
        cover, day = self.covers(k)
        uploads, rows, drops, bugs, hints, unhinted, delays = [], [], [], {}, {}, set(), None
        said, last_delays = [], []
        for (s, n) in sorted(self.kept):
            if s == 4 or n > cover[s]:
                continue
            ps = paragraphs(self.kept[s, n])
            p = ps[0]
            kind = p["kind"]
            if kind == "upload":
                uploads.append((p["source"], p["version"], p["urgency"].split()[0].lower(), p["day"], s, n))
            elif kind == "drop":
                drops.append((p["architecture"], p["package"], p["version"], s, n))
            elif kind == "build":
                for place, b in enumerate(ps[1:], 1):
                    m = re.fullmatch(r"([^\s(]+)\s*(?:\(\s*([^\s)]+)\s*\))?", b.get("source", b["package"]))
                    rows.append(dict(arch=b["architecture"], package=b["package"], version=b["version"],
                                     source=m.group(1), source_version=m.group(2) or b["version"],
                                     clauses=items(b.get("pre-depends")) + items(b.get("depends")),
                                     provides=[a[0] for a in items(b.get("provides"))],
                                     message=(s, n, place)))
            elif kind == "bug":
                if n >= bugs.get(int(p["bug"]), (0,))[0]:
                    bugs[int(p["bug"])] = (n, p)
            elif kind == "hint":
                hints[n] = p["hint"].split()
                said.append((6, s, n, 0))
            elif kind == "unhint":
                unhinted.add(int(p["cancels"]))
                said.append((7, s, n, 0))
            elif kind == "delays":
                last_delays = [(8, s, n, 0)]
                delays = {"low": p["low"], "medium": p["medium"], "high": p["high"],
                          "critical": p["critical"], "emergency": p["critical"]}
        need_of = {u: int(d) for u, d in (delays or DAYS).items()}
        standing = [(n, h) for n, h in sorted(hints.items()) if n not in unhinted]
        unstable = {}
        for u in uploads:
            if u[0] not in unstable or vcmp(u[1], unstable[u[0]][1]) > 0:
                unstable[u[0]] = u
        chosen = {}
        for r in rows:
            key = (r["arch"], r["package"])
            if any(d[:2] == key and vcmp(r["version"], d[2]) <= 0 for d in drops):
                continue
            if key not in chosen or vcmp(r["version"], chosen[key]["version"]) > 0:
                chosen[key] = r

        def current(s):
            return {key: r for key, r in chosen.items()
                    if r["source"] == s and s in unstable and vcmp(r["source_version"], unstable[s][1]) == 0}

        def named(word, s, v):
            return [n for n, h in standing if h[0] == word
                    for i in (h[2:] if word == "age-days" else h[1:])
                    if i.split("/")[0] == s and vcmp(i.split("/")[1], v) == 0]

        def excuse(s):
            """The age of an unstable source, the days that it needs, the hints that ask for days, and why it is kept out;
            none if testing has its version, or one above it."""
            v, old = unstable[s][1], self.sources.get(s)
            if old is not None and vcmp(v, old) <= 0:
                return None
            aged = named("age-days", s, v)
            if aged:
                need = int(hints[max(aged)][1])
            else:
                new = [u for u in uploads if u[0] == s and (old is None or vcmp(u[1], old) > 0)]
                need = need_of[max(new, key=lambda u: RANK[u[2]])[2]]
            age = max(0, (datetime.date.fromisoformat(day) - datetime.date.fromisoformat(unstable[s][3])).days)
            why = ["too young"] if age < need else []
            for b in sorted(bugs):
                p = bugs[b][1]

                def affects(x):
                    return ("found" not in p or vcmp(p["found"], x) <= 0) and ("fixed" not in p or vcmp(x, p["fixed"]) < 0)
                if p["source"] == s and p["severity"] in ("critical", "grave", "serious") and affects(v) \
                        and (old is None or not affects(old)):
                    why.append("new bug %d" % b)
            cur = current(s)
            if not cur:
                why.append("no binaries")
            for a in ARCHS + ["all"]:
                theirs = [key for key, r in chosen.items() if r["source"] == s and key[0] == a]
                if theirs and not any(key in cur for key in theirs):
                    why.append("missing on " + a)
            if any((h[0] == "block" and s in h[1:]) or h[0] == "block-all" for _, h in standing) and not named("unblock", s, v):
                why.append("blocked")
            if named("remove", s, v) or (old is not None and named("remove", s, old)):
                why.append("removal asked")
            return age, need, aged, why

        excused, self.refused = {s: excuse(s) for s in unstable}, []
        candidates, lines = {}, ["excuses %d %s" % (k, day)]
        for s in sorted(unstable):
            v, old = unstable[s][1], self.sources.get(s)
            if not excuse(s):
                continue
            age, need, _, why = excuse(s)
            lines += ["%s %s %s" % (s, old or "-", v), " age %d of %d" % (age, need)] + [" " + w for w in why]
            lines.append(" not a candidate" if why else " candidate")
            if not why:
                candidates[s] = v
        excuses = "\n".join(lines) + "\n"
        lines = ["update %d %s" % (k, day)]

        def moved(group):
            new = {key: r for key, r in self.rows.items() if r["source"] not in group}
            coming = {}
            for s in group:
                coming.update(current(s))
            new.update(coming)
            return new, coming

        def offender(new, coming):
            _, before = works(self.rows)
            watched, after = works(new)
            for i, arch in enumerate(ARCHS):
                for (_, package, a) in sorted(w for w in watched if w[0] == i):
                    key = (a, package)
                    must = key in coming or ((i, package, a) in before and self.rows.get(key) is new[key])
                    if must and (i, package, a) not in after:
                        return arch, package
            return None

        def excuses_at_turn():
            """The run's excuses, and one for each source that it has removed so far."""
            there = set(self.sources)
            return lambda s: excused.get(s) or (None if s in there else (0, 0, [], ["removal asked"]))

        for n, h in standing:
            if h[0] == "remove":
                for i in h[1:]:
                    s, v = i.split("/", 1)
                    if s in self.sources and vcmp(self.sources[s], v) == 0:
                        new = {key: r for key, r in self.rows.items() if r["source"] != s}
                        bad = offender(new, {})
                        if bad:
                            lines.append("remove %d refuse %s %s uninstallable %s %s" % (n, s, self.sources[s], *bad))
                            self.refused.append(Refused(n, bad, [], self.rows, new, excuses_at_turn()))
                        else:
                            lines.append("remove %d accept %s %s" % (n, s, self.sources[s]))
                            self.rows = new
                            del self.sources[s]
        left = dict(candidates)
        for n, h in standing:
            if h[0] == "easy":
                todo = [i.split("/", 1) for i in h[1:]]
                todo = [(s, v) for s, v in todo if not (s in self.sources and vcmp(self.sources[s], v) == 0)]
                if not todo:
                    continue
                bad = [i for i in todo if not (i[0] in left and vcmp(left[i[0]], i[1]) == 0)]
                if bad:
                    lines.append("easy %d refuse %s/%s not a candidate" % (n, *bad[0]))
                    continue
                new, coming = moved([s for s, _ in todo])
                off = offender(new, coming)
                if off:
                    lines.append("easy %d refuse uninstallable %s %s" % (n, *off))
                    self.refused.append(Refused(n, off, [s for s, _ in todo], self.rows, new, excuses_at_turn()))
                else:
                    lines.append("easy %d accept %s" % (n, " ".join("%s %s" % (s, left[s]) for s, _ in todo)))
                    self.rows = new
                    for s, _ in todo:
                        self.sources[s] = left.pop(s)
        self.behind_groups = self.rows, dict(self.sources), dict(left), excuses_at_turn()
        last = ""
        while True:
            turn = [s for s in sorted(left) if s > last] + [s for s in sorted(left) if s <= last]
            for s in turn:
                new, coming = moved([s])
                if not offender(new, coming):
                    lines.append("accept %s %s" % (s, left[s]))
                    self.rows = new
                    self.sources[s] = left.pop(s)
                    last = s
                    break
            else:
                break
        for s in sorted(left):
            new, coming = moved([s])
            lines.append("wait %s %s uninstallable %s %s" % (s, left[s], *offender(new, coming)))
        self.reports[k] = (excuses, "\n".join(lines) + "\n")
        self.facts = sorted(said + last_delays + self.gave(unstable, uploads, chosen, drops, bugs))
        self.known = Known(unstable, chosen, standing, bugs, excuse, named, moved, offender)

    def gave(self, unstable, uploads, chosen, drops, bugs):
        """The messages that gave what a run knows, by kind: all but hints, their cancelling and days."""
        rows = [(1, *u[4:], 0) for u in unstable.values()]
        rows += [(2, *u[4:], 0) for u in uploads
                 if u[0] not in self.sources or vcmp(u[1], self.sources[u[0]]) > 0]
        rows += [(3, *r["message"]) for r in chosen.values()]
        greatest = {}
        for d in drops:
            if d[:2] not in greatest or vcmp(d[2], greatest[d[:2]][2]) > 0:
                greatest[d[:2]] = d
        rows += [(4, *d[3:], 0) for d in greatest.values()]
        return rows + [(5, SENDERS.index("bts"), n, 0) for n, _ in bugs.values()]

    def told(self):
        return "facts %d\n" % len(self.facts) + "".join("fact %d %d %d %d\n" % row for row in self.facts)

    def status(self):
        k = 0
        while self.ready(k + 1):
            k += 1
        return "ready %d finished %d\n" % (k, self.finished)

    def testing(self):
        out = "testing %d\n" % self.finished
        for s in sorted(self.sources):
            out += "source %s %s\n" % (s, self.sources[s])
        place = {a: i for i, a in enumerate(ARCHS + ["all"])}
        for a, p in sorted(self.rows, key=lambda key: (place[key[0]], key[1])):
            r = self.rows[a, p]
            out += "binary %s %s %s %s\n" % (a, p, r["version"], r["source"])
        return out

    def replay(self, steps, end=""):
        """`steps`: texts, or ("refused ..", text) where the row says how a text is refused."""
        before, out = self.finished, ""
        for s in steps:
            out += (s[0] if isinstance(s, tuple) else self.deliver(s)) + "\n"
        out += end + self.status()
        for k in range(before + 1, self.finished + 1):
            out += "".join(self.reports[k])
        return out + self.testing()
