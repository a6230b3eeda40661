#!/usr/bin/env python3
"""Times what a running office prints in addition to its reports: a copy of all mail in parts of bags, the hints,
unstable and the next order, each next to `GET /testing`, by the service's own processor time.

usage: pages.py OFFICE [SOURCES]

OFFICE is the built program, SOURCES how many sources it has: 34,000, as in a Debian release, if it isn't said. The mail
is that of ../replay/bag.py's shape `runs`, with 200 hints after it, over a file that is opened once. ROUNDS says how
often each is asked in turn (5); the figures are medians. The first round is printed apart, since a service that was
just opened makes there what it keeps from then on. `POST /try/DAY` and `GET /propose` are asked once a round, too.
"""
import os
import statistics
import subprocess
import sys
import tempfile
sys.dont_write_bytecode = True
HERE = os.path.dirname(os.path.realpath(__file__))
sys.path.insert(0, HERE)
from servers import Server, get, post_to  # noqa: E402

REPLAY = os.path.join(HERE, "..", "replay")
SENDERS = ["ftp", "bd", "bts", "rt", "clock"]
HINTS = 200


def prepare(office, sources, folder):
    """A store that has the mail, and the words that serve it."""
    bag, store, setup = (os.path.join(folder, name) for name in ("bag", "store", "conf"))
    with open(setup, "wb") as written:
        subprocess.run([sys.executable, os.path.join(REPLAY, "bag.py"), "runs", "conf"], stdout=written, check=True)
    with open(bag, "wb") as written:
        subprocess.run([sys.executable, os.path.join(REPLAY, "bag.py"), "runs", sources], stdout=written, check=True)
        for number in range(1, HINTS + 1):
            text = b"From: rt\nNumber: %d\nKind: hint\nHint: unblock s%d/1.0-1\n" % (number, number)
            written.write(b"mail %d\n%s" % (len(text), text))
    with open(bag, "rb") as given:
        subprocess.run([office, "replay", "--conf", setup, "--db", store], stdin=given, stdout=subprocess.DEVNULL,
                       check=True)
    return [office, "serve", "--conf", setup, "--port", "{port}", "--db", store]


def body_of(reply):
    return reply.partition(b"\r\n\r\n")[2]


def copy(server):
    """Asks for all mail: how many requests that takes, and how many bytes come."""
    requests, size = 0, 0
    for sender in SENDERS:
        first = 1
        while part := body_of(server.ask(get(f"/bag/{sender}/{first}"))):
            requests, size = requests + 1, size + len(part)
            number = part.rpartition(b"\nNumber: ")[2].partition(b"\n")[0]
            first = int(number) + 1
        requests += 1
    return requests, size


def page(path):
    return lambda server: (1, len(body_of(server.ask(get(path)))))


def trial(server):
    return 1, len(body_of(server.ask(post_to("/try/2025-04-09", b"block s1\n"))))


ASKED = {"GET /testing": page("/testing"), "all of GET /bag": copy, "GET /hints": page("/hints"),
         "GET /unstable": page("/unstable"), "GET /order": page("/order/2025-04-09"), "POST /try/DAY": trial,
         "GET /propose": page("/propose")}


def main():
    if len(sys.argv) not in (2, 3):
        sys.exit(__doc__)
    rounds, sources = int(os.environ.get("ROUNDS", "5")), (sys.argv[2:] or ["34000"])[0]
    took = {name: [] for name in ASKED}
    told = {}
    with tempfile.TemporaryDirectory() as folder:
        server = Server(prepare(sys.argv[1], sources, folder))
        try:
            for _ in range(rounds):
                for name, ask in ASKED.items():
                    before = server.processor_time()
                    told[name] = ask(server)
                    took[name].append((server.processor_time() - before) / 1e6)
        finally:
            server.end()
    whole = statistics.median(took["GET /testing"])
    for name, times in took.items():
        requests, size = told[name]
        usual = statistics.median(times[1:] or times)
        print(f"{name}: {requests} requests, {size} bytes: {usual:.1f} ms of processor, {usual / whole:.2f} of "
              f"GET /testing; {times[0]:.1f} ms the first time")


main()
