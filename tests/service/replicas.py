#!/usr/bin/env python3
"""Three offices that get each other's mail by office-mirror: in the end they answer the same, as a plain replay does.

  replicas.py PROGRAM [FIRST-LAST [PORT]]

PROGRAM is the built program, `crates/office/out/office`. For each seed from FIRST to LAST (1-12) the mail of
tests/rows/reopened_rows.py comes in random order and with repeats, each message to an office that is drawn. Links
between the offices are cut and mended, office-mirror carries mail over those that are whole, and one office is ended by
force and started again over its store. Then all links are whole, and office-mirror goes round until nothing changes.
All pages of the three offices have to be the same then, and those that a replay of the same mail gives. Some seeds
leave mail out, and all have to wait for it. Some give two offices different texts under one number: each turn has to
print that number. Exit status 0 if all was right.
"""
import os
import random
import re
import subprocess
import sys
import tempfile
sys.dont_write_bytecode = True
TESTS = os.path.join(os.path.dirname(os.path.abspath(__file__)), "..")
sys.path[:0] = [TESTS, os.path.join(TESTS, "rows")]
from model import SENDERS, paragraphs
from reopened_rows import row_of
from rows import mail, rows_of, steps_of
from serving import CONF, Service

MIRROR = os.path.join(TESTS, "..", "tools", "bin", "office-mirror")
OFFICES = range(3)
program = os.path.abspath(sys.argv[1])
seeds = sys.argv[2] if len(sys.argv) > 2 else "1-12"
first_port = int(sys.argv[3]) if len(sys.argv) > 3 else 18740
faults = []
counts = {"tried": 0, "mirrored": 0, "cut": 0, "ended": 0, "left out": 0, "conflicts": 0}


def want(what, due, got):
    counts["tried"] += 1
    if due != got:
        faults.append("%s: due %r, got %r" % (what, due, got))


def label(text):
    first = paragraphs(text)[0]
    return first["from"], int(first["number"])


def history(seed):
    """The messages of a seed, each once."""
    steps = [steps_of(lines) for _, lines in rows_of(row_of(seed))][0]
    texts = [text + "\n" for what, bag in steps if what == "bag" for text in bag.split("\n--\n")]
    return list({label(text): text for text in texts}.values())


class Office(Service):
    """A service over a store of its own."""

    def __init__(self, place, folder):
        super().__init__(program, "--db", os.path.join(folder, "store-%d" % place), port=first_port + place)
        self.begin()

    def begin(self):
        want("first line", True, self.start())

    def answer(self, path, body=None):
        """The code and the text of an answer."""
        code, told = self.ask("GET", path) if body is None else self.ask("POST", path, body.encode())
        return code, told.decode()


def mirror(source, target, folder, *more):
    """A turn of office-mirror: its status, how much it sent, and what it printed of conflicts."""
    counts["mirrored"] += 1
    words = [MIRROR, *more, "--state", folder, source.url, target.url]
    ran = subprocess.run(words, capture_output=True, text=True, timeout=120)
    sent = re.search(r"%s: sent (\d+)" % re.escape(target.url), ran.stderr)
    told = re.findall(r"office-mirror: %s: (\S+ \d+): keeps another text than" % re.escape(target.url), ran.stderr)
    return ran.returncode, int(sent[1]) if sent else None, told


def pages(office, sources, with_mail):
    """What an office answers to each GET. Of why the numbered lines are left out: they may be any that show it."""
    runs = int(office.get("/status").split()[3])
    paths = ["/status", "/testing", "/runs", "/kept", "/waiting"]
    paths += ["/%s/%d" % (report, run) for run in range(1, runs + 1) for report in ("excuses", "update")]
    told = {path: office.answer(path) for path in paths}
    for name in sources:
        code, text = office.answer("/why/" + name)
        told["/why/" + name] = code, re.split(r"(?m)^\d+ ", text)[0]
    for sender, upto in re.findall(r"(?m)^mail (\S+) .*greatest (\d+)$", office.get("/kept")) if with_mail else []:
        for number in range(1, int(upto) + 1):
            told["/kept/%s/%s" % (sender, number)] = office.answer("/kept/%s/%d" % (sender, number))
    return told


class Draw:
    """What comes to pass in one seed."""

    def __init__(self, seed, folder):
        self.seed, self.folder, self.draw = seed, folder, random.Random(seed)
        self.offices = [Office(place, folder) for place in OFFICES]
        self.links = {(i, j) for i in OFFICES for j in OFFICES if i < j}
        self.whole = set(self.links)
        self.texts = history(seed)
        self.left_out = []
        if seed % 3 == 0:
            mailed = [text for text in self.texts if label(text)[0] != "clock"]
            self.left_out = self.draw.sample(mailed, min(2, len(mailed)))
            counts["left out"] += len(self.left_out)
        self.sent = [text for text in self.texts if text not in self.left_out]
        self.conflict = None

    def name(self, what):
        return "seed %d, %s" % (self.seed, what)

    def up(self):
        return [office for office in self.offices if office.runs]

    def two_texts(self):
        """Two offices get different texts under the release team's next number."""
        number = 1 + max([n for s, n in map(label, self.texts) if s == "rt"], default=0)
        form = "From: rt\nNumber: %d\nKind: hint\nHint: block %s\n"
        pair = self.draw.sample(OFFICES, 2)
        for place, name in zip(pair, ("aa", "bb")):
            self.offices[place].post("/mail", form % (number, name))
        self.conflict = "rt %d" % number
        counts["conflicts"] += 1

    def post(self):
        """The deliveries, to offices that are drawn; one that is down at that time gets them again later."""
        left = self.sent + self.draw.choices(self.sent, k=len(self.sent) // 3)
        self.draw.shuffle(left)
        end = self.draw.randrange(len(left))
        for place, text in enumerate(left):
            if place == end:
                self.down = self.draw.choice(self.offices)
                self.down.end()
                counts["ended"] += 1
            office = self.draw.choice(self.up())
            want(self.name("a delivery"), (200, "held %s %d\n" % label(text)), office.answer("/mail", text))
            self.move()
        if not self.down.runs:
            self.down.begin()

    def move(self):
        """Now and then a link is cut or mended, a mirror carries mail, or the office that was ended starts again."""
        if self.draw.random() < .3:
            self.whole ^= {self.draw.choice(sorted(self.links))}
        if self.draw.random() < .3:
            i, j = self.draw.sample(OFFICES, 2)
            if (min(i, j), max(i, j)) not in self.whole:
                counts["cut"] += 1
                return
            is_up = self.offices[i].runs and self.offices[j].runs
            status, _, told = mirror(self.offices[i], self.offices[j], self.folder)
            want(self.name("status of a mirror"), 4 if not is_up else 1 if told else 0, status)
        elif self.draw.random() < .1 and not all(office.runs for office in self.offices):
            self.down.begin()

    def rounds(self):
        """All links are whole: mirrors go round until no office keeps more than before."""
        before = None
        while before != [office.get("/kept") for office in self.offices]:
            before = [office.get("/kept") for office in self.offices]
            for i in OFFICES:
                for j in OFFICES:
                    if i != j:
                        mirror(self.offices[i], self.offices[j], self.folder)

    def last_turns(self):
        """One more turn sends the conflict alone, which is printed; with --all it sends all."""
        for i in OFFICES:
            for j in OFFICES:
                if i != j:
                    due = self.due_of_a_turn(self.offices[i], self.offices[j])
                    want(self.name("one more turn"), due, mirror(self.offices[i], self.offices[j], self.folder))
        every = len(self.sent) + (1 if self.conflict else 0)
        turn = mirror(self.offices[0], self.offices[1], self.folder, "--all")
        want(self.name("a turn over all"), every, turn[1])

    def due_of_a_turn(self, one, other):
        """The status of such a turn, how much is sent, and what is printed. What the other held is remembered."""
        path = self.conflict and "/kept/" + self.conflict.replace(" ", "/")
        if not path or one.answer(path) == other.answer(path):
            return 0, 0, []
        return 1, 1, [self.conflict]

    def compare(self):
        """The three offices compared with each other, and with a plain replay of what was sent."""
        sources = sorted({p["source"] for text in self.texts for p in paragraphs(text)[:1] if "source" in p})
        told = [pages(office, sources, not self.conflict) for office in self.offices]
        for place in OFFICES[1:]:
            want(self.name("office %d beside office 0" % place), told[0], told[place])
        words = ["--conf", CONF]
        bag = mail(self.sent).encode()
        ran = subprocess.run([program, "replay", *words], input=bag, capture_output=True, timeout=60)
        runs = int(told[0]["/status"][1].split()[3])
        paths = ["/%s/%d" % (report, run) for run in range(1, runs + 1) for report in ("excuses", "update")]
        due = "".join(told[0][path][1] for path in paths)
        due = told[0]["/status"][1] + due + told[0]["/testing"][1]
        want(self.name("a plain replay"), ran.stdout.decode()[-len(due.encode()):], due)
        ran = subprocess.run([program, "waiting", *words], input=bag, capture_output=True, timeout=60)
        want(self.name("what the next run waits for"), ran.stdout.decode(), told[0]["/waiting"][1])

    def end(self):
        for office in self.up():
            office.end()


def one(seed):
    with tempfile.TemporaryDirectory() as folder:
        drawn = Draw(seed, folder)
        try:
            if seed % 4 == 1:
                drawn.two_texts()
            drawn.post()
            drawn.rounds()
            drawn.compare()
            drawn.last_turns()
        finally:
            drawn.end()


def main():
    assert SENDERS[-1] == "clock"
    first, _, last = seeds.partition("-")
    for seed in range(int(first), int(last or first) + 1):
        one(seed)
    for fault in faults:
        print("FAIL", fault)
    print(", ".join("%d %s" % (count, what) for what, count in counts.items()) + ", %d faults" % len(faults))
    sys.exit(1 if faults else 0)


main()
