#!/usr/bin/env python3
"""Times the dearest questions that a service answers, each against a run over 500 uploads, by its processor time.

usage: bounds.py OFFICE [SHAPE [SOURCES]]

OFFICE is the built program, SHAPE one of ../replay/bag.py with runs (`runs` if none is stated), SOURCES how many
sources it has (34,000). ROUNDS says how often each is asked (3): a round sends 500 newer uploads with their builds and
orders a run over them, and then asks each question. The figures are medians. The removals are of the sources that most
of testing needs, so that each is refused.
"""
import datetime
import os
import re
import statistics
import subprocess
import sys
import tempfile
sys.dont_write_bytecode = True
HERE = os.path.dirname(os.path.realpath(__file__))
sys.path.insert(0, HERE)
from servers import Server, get, post, post_to  # noqa: E402

BAG = os.path.join(HERE, "..", "replay", "bag.py")
USUAL = ("runs", "34000")
REMOVED = 12
DAYS = 20  # between two runs, so that what came for one moves in it


def messages_in(bag):
    """The messages of a bag: each follows a line with its length."""
    texts, place = [], 0
    while place < len(bag):
        start = bag.index(b"\n", place) + 1
        place = start + int(bag[place + len(b"mail "):start])
        texts.append(bag[start:place])
    return texts


def field(text, name):
    found = re.search(rb"^%s: (.*)$" % name, text, re.MULTILINE)
    return found[1] if found else b""


class Mail:
    """The mail of the last run, sent again with greater versions and the next numbers."""

    def __init__(self, texts):
        orders = [place for place, text in enumerate(texts) if field(text, b"Kind") == b"run"]
        self.last = texts[orders[-2] + 1:orders[-1]]
        self.order, self.rounds = texts[orders[-1]], 0
        self.numbers = {sender: max(int(field(text, b"Number")) for text in texts if field(text, b"From") == sender)
                        for sender in {field(text, b"From") for text in texts}}

    def numbered(self, text):
        sender = field(text, b"From")
        self.numbers[sender] += 1
        return re.sub(rb"^Number: .*$", b"Number: %d" % self.numbers[sender], text, 1, re.MULTILINE)

    def next(self):
        """The mail of the next run, and its order."""
        self.rounds += 1
        newer = [self.numbered(re.sub(rb"^Version: (.*)$", rb"Version: \1.%d" % self.rounds, text, 0, re.MULTILINE))
                 for text in self.last]
        covers = b", ".join(b"%s %d" % (sender, number) for sender, number in sorted(self.numbers.items())
                            if sender != b"clock")
        order = re.sub(rb"^Covers: .*$", b"Covers: " + covers, self.numbered(self.order), 1, re.MULTILINE)
        day = datetime.date.fromisoformat(field(order, b"Day").decode()) + datetime.timedelta(DAYS * self.rounds)
        return newer, re.sub(rb"^Day: .*$", b"Day: " + day.isoformat().encode(), order, 1, re.MULTILINE)


def body_of(reply):
    return reply.partition(b"\r\n\r\n")[2].decode()


def questions(server):
    """The questions, by their names."""
    versions = dict(re.findall(r"^source (\S+) (\S+)$", body_of(server.ask(get("/testing"))), re.MULTILINE))
    needed = sorted(versions, key=lambda name: int(name[1:]))[:REMOVED]
    removal = " ".join(f"{name}/{versions[name]}" for name in needed)
    first = f"remove {needed[0]}/{versions[needed[0]]}".encode()
    return {f"POST /try of {REMOVED} removals": post_to("/try", f"remove {removal}".encode()),
            "POST /try of a block": post_to("/try", f"block {needed[0]}".encode()),
            "GET /propose": get("/propose"), "POST /breaks of a removal": post_to("/breaks", first),
            "GET /breaks of a source": get(f"/breaks/{needed[1]}"), "GET /why of a source": get(f"/why/{needed[1]}")}


def main():
    if len(sys.argv) not in (2, 3, 4):
        sys.exit(__doc__)
    given = sys.argv[2:]
    shape, sources = (*given, *USUAL[len(given):])
    took = {}
    with tempfile.TemporaryDirectory() as folder:
        setup, bag = os.path.join(folder, "conf"), os.path.join(folder, "bag")
        for path, what in ((setup, "conf"), (bag, sources)):
            with open(path, "wb") as written:
                subprocess.run([sys.executable, BAG, shape, what], stdout=written, check=True)
        store = os.path.join(folder, "store")
        with open(bag, "rb") as opened:
            subprocess.run([sys.argv[1], "replay", "--conf", setup, "--db", store], stdin=opened,
                           stdout=subprocess.DEVNULL, check=True)
        with open(bag, "rb") as opened:
            mail = Mail(messages_in(opened.read()))
        server = Server([sys.argv[1], "serve", "--conf", setup, "--port", "{port}", "--db", store])
        try:
            for _ in range(int(os.environ.get("ROUNDS", "3"))):
                newer, order = mail.next()
                for text in newer:
                    server.ask(post(text))
                ask(server, took, "the run", post(order))
                for name, request in questions(server).items():
                    ask(server, took, name, request)
        finally:
            server.end()
    run = statistics.median(took["the run"])
    for name, times in took.items():
        usual = statistics.median(times)
        print(f"{name}: {usual:.0f} ms of processor, {usual / run:.1f} of the run")


def ask(server, took, name, request):
    """Asks once, and notes the milliseconds of processor."""
    before = server.processor_time()
    server.ask(request)
    took.setdefault(name, []).append((server.processor_time() - before) / 1e6)


main()
