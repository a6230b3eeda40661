#!/usr/bin/env python3
"""Times requests to the service and to a plain server, by the servers' own processor time (user and system), by turns.

usage: run.py OFFICE [SOURCES]

OFFICE is the built program, SOURCES how many sources the office has, 1,000 if it isn't said. `GET /status` and
`GET /testing` are asked of an office in memory, of one over a file, and of a plain server (`plain.rs`) that answers as
many bytes. Then two runs over no new mail are ordered of each office. It needs `rustc`. ROUNDS says how often each is
asked in turn (5), REQUESTS how many requests a turn has (1000). The figures are medians.
"""
import os
import statistics
import subprocess
import sys
import tempfile
sys.dont_write_bytecode = True
HERE = os.path.dirname(os.path.realpath(__file__))
sys.path.insert(0, HERE)
from servers import Server, get, post  # noqa: E402

REPLAY = os.path.join(HERE, "..", "replay")


def messages_of(bag):
    """The texts of a bag."""
    with open(bag, "rb") as given:
        while line := given.readline():
            if line.startswith(b"mail "):
                yield given.read(int(line.split()[1]))


def order_behind(bag, count):
    """An order that covers what the last one of the bag does, that many numbers later."""
    last = [text for text in messages_of(bag) if b"Kind: run" in text][-1].decode()
    lines = last.split("\n")
    return "\n".join(
        f"Number: {int(line.split()[1]) + count}" if line.startswith("Number: ") else line for line in lines).encode()


def prepare(office, sources, folder):
    """The bag, the plain server, and the words that serve an office in memory and one over a file that has the bag."""
    bag, plain, store = (os.path.join(folder, name) for name in ("bag", "plain", "store"))
    with open(bag, "wb") as written:
        subprocess.run([sys.executable, os.path.join(REPLAY, "bag.py"), "runs", sources], stdout=written, check=True)
    subprocess.run(["rustc", "-O", "--edition", "2021", "-o", plain, os.path.join(HERE, "plain.rs")], check=True)
    setup = ["--conf", os.path.join(REPLAY, "setup.conf")]
    with open(bag, "rb") as given:
        words = [office, "replay", *setup, "--db", store]
        subprocess.run(words, stdin=given, stdout=subprocess.DEVNULL, check=True)
    serve = [office, "serve", *setup, "--port", "{port}"]
    return bag, plain, serve, [*serve, "--db", store]


def ask_by_turns(servers, plain, path, requests, rounds):
    """Prints what a request for this path costs each server."""
    length = len(servers["memory"].ask(get(path)).partition(b"\r\n\r\n")[2])
    asked = {**servers, "plain": Server([plain, "{port}", str(length)])}
    took = {name: [] for name in asked}
    try:
        for _ in range(rounds):
            for name, server in asked.items():
                took[name].append(server.time(get(path), requests))
    finally:
        asked["plain"].end()
    memory, file, least = (statistics.median(took[name]) for name in ("memory", "file", "plain"))
    print(f"GET {path}, {length} bytes: memory {memory:.0f} us, file {file:.0f} us, plain {least:.0f} us; "
          f"memory / plain {memory / least:.2f}, file / memory {file / memory:.2f}", flush=True)


def main():
    if len(sys.argv) not in (2, 3):
        sys.exit(__doc__)
    rounds, count = int(os.environ.get("ROUNDS", "5")), int(os.environ.get("REQUESTS", "1000"))
    with tempfile.TemporaryDirectory() as folder:
        bag, plain, in_memory, over_file = prepare(sys.argv[1], (sys.argv[2:] or ["1000"])[0], folder)
        servers = {"memory": Server(in_memory), "file": Server(over_file)}
        try:
            for text in messages_of(bag):
                servers["memory"].ask(post(text))
            ask_by_turns(servers, plain, "/status", count, rounds)
            ask_by_turns(servers, plain, "/testing", max(count // 10, 1), rounds)
            for name, server in servers.items():
                first, next_one = (server.time(post(order_behind(bag, behind)), 1) / 1000 for behind in (1, 2))
                print(f"a run over no new mail, {name}: {first:.1f} ms, the next one {next_one:.1f} ms")
        finally:
            for server in servers.values():
                server.end()


main()
