#!/usr/bin/env python3
"""Silent, slow and many clients of the service, and a trial of many hints: nobody else waits for them.

  hold.py PROGRAM [PORT]

PROGRAM is the built program, `crates/office/out/office`. With each kind of client another one asks for the status, which
has to come within a second. Exit status 0 if it did each time, and if the service closed the connections that took too
long. It takes about a minute and a half.
"""
import os
import socket
import subprocess
import sys
import tempfile
import time
sys.dont_write_bytecode = True
sys.path.insert(0, os.path.join(os.path.dirname(os.path.abspath(__file__)), ".."))
from serving import CONF, Service

STATUS = b"GET /status HTTP/1.1\r\nHost: localhost\r\n\r\n"
UNSTABLE = b"GET /unstable HTTP/1.1\r\nHost: localhost\r\n\r\n"
BOUND = 1.0
faults = []
tried = 0


def want(what, is_right, got):
    global tried
    tried += 1
    if not is_right:
        faults.append("%s: %s" % (what, got))


def connect(port):
    return socket.create_connection(("127.0.0.1", port), timeout=60)


def read_all(client):
    parts = []
    while True:
        part = client.recv(1 << 16)
        if not part:
            return b"".join(parts)
        parts.append(part)


def ask(port, request=STATUS):
    with connect(port) as client:
        client.sendall(request)
        return read_all(client)


def beside(what, port):
    """Another client's status comes within the bound."""
    start = time.monotonic()
    reply = ask(port)
    seconds = time.monotonic() - start
    want(what, reply.endswith(b"\n") and b"\r\n\r\nready " in reply and seconds < BOUND,
         "%.2f s, %r" % (seconds, reply[-60:]))


def close_all(clients):
    for client in clients:
        client.close()


def silent(port, count):
    clients = [connect(port) for _ in range(count)]
    time.sleep(0.2)
    beside("%d silent clients" % count, port)
    return clients


def is_closed_after(client, least, most):
    """Whether the service closes a connection in this span of seconds, counted from now."""
    start = time.monotonic()
    client.settimeout(most)
    try:
        ended = client.recv(1) == b""
    except ConnectionResetError:
        ended = True
    except TimeoutError:
        ended = False
    return ended and least <= time.monotonic() - start


def half_asked(port, front):
    client = connect(port)
    client.sendall(front)
    return client


def spare(port):
    """What a browser does: it opens connections in advance and sends its request on one of them."""
    clients = [connect(port) for _ in range(6)]
    clients[3].sendall(STATUS)
    want("a browser's second connection", b"ready" in read_all(clients[3]), "no status")
    beside("a browser's spare connections", port)
    close_all(clients)


def slow_reader(port):
    """A client that takes a long reply a few bytes at a time; the reply is whole in the end."""
    with socket.socket() as client:
        client.setsockopt(socket.SOL_SOCKET, socket.SO_RCVBUF, 4096)
        client.settimeout(60)
        client.connect(("127.0.0.1", port))
        client.sendall(UNSTABLE)
        first = client.recv(4096)
        beside("a slow reader", port)
        for _ in range(20):
            first += client.recv(4096)
            time.sleep(0.05)
        beside("a slow reader that goes on", port)
        reply = first + read_all(client)
    want("what a slow reader gets", reply == ask(port, UNSTABLE), "another reply than others get")
    return len(reply)


def trickle(port, request):
    """A request that comes a byte at a time is answered, and nobody waits for it."""
    with connect(port) as client:
        for place in range(len(request)):
            client.sendall(request[place:place + 1])
            time.sleep(0.02)
            if place == len(request) // 2:
                beside("a client that sends a byte at a time", port)
        want("a request a byte at a time", b"ready" in read_all(client), "no status")


def many_hints(port):
    """A trial of as many hints as fit into a body is refused at once."""
    hints = b"remove source-with-a-long-name-00001/1.0-1\n" * 1500
    start = time.monotonic()
    reply = ask(port, b"POST /try HTTP/1.1\r\nHost: localhost\r\nContent-Length: %d\r\n\r\n%s" % (len(hints), hints))
    seconds = time.monotonic() - start
    want("a trial of many hints", reply.endswith(b"refused TooManyHints\n") and seconds < BOUND, reply[-60:])
    beside("a trial of many hints", port)


def builds(count):
    """A bag of uploads and builds, so that the text of unstable is long."""
    parts = []
    for number in range(1, count + 1):
        name = "source-with-a-long-name-%05d" % number
        upload = ("From: ftp\nNumber: %d\nKind: upload\nSource: %s\nVersion: 1.0-1\nUrgency: medium\nDay: 2025-03-01\n"
                  % (number, name))
        build = "From: bd\nNumber: %d\nKind: build\n" % number
        build += "".join("\nPackage: %s-%02d\nVersion: 1.0-1\nArchitecture: amd64\nSource: %s\nDepends: %s-00\n"
                         % (name, package, name, name) for package in range(60))
        parts += [upload, build]
    return b"".join(b"mail %d\n" % len(text.encode()) + text.encode() for text in parts)


def main():
    program = os.path.abspath(sys.argv[1])
    port = int(sys.argv[2]) if len(sys.argv) > 2 else 18770
    with tempfile.TemporaryDirectory() as folder:
        store = os.path.join(folder, "store.db")
        subprocess.run([program, "replay", "--conf", CONF, "--db", store], input=builds(700), check=True,
                       stdout=subprocess.DEVNULL)
        with Service(program, "--db", store, port=port) as service:
            run(port)
            want("the service goes on", service.runs, "it ended")
    for fault in faults:
        print("FAIL", fault)
    print("%d tried, %d faults" % (tried, len(faults)))
    sys.exit(1 if faults else 0)


def run(port):
    beside("nobody else", port)
    spare(port)
    close_all(silent(port, 3))
    close_all(silent(port, 129))
    many = silent(port, 700)
    want("the first of 700 gives its place", is_closed_after(many[0], 0, 2), "it is still open")
    close_all(many)
    trickle(port, STATUS)
    many_hints(port)
    long = slow_reader(port)
    want("the long reply", long > 2_000_000, "%d bytes" % long)
    start = time.monotonic()
    silent_one = connect(port)
    headless = half_asked(port, b"GET /sta")
    bodiless = half_asked(port, b"POST /mail HTTP/1.1\r\nHost: localhost\r\nContent-Length: 60000\r\n\r\nFrom: ")
    beside("clients that stop in the middle", port)
    want("a silent client's time", is_closed_after(silent_one, 8, 13), "it isn't closed after 10 s")
    want("a head's time", is_closed_after(headless, 0, 3), "it isn't closed after 10 s")
    beside("a body that doesn't come", port)
    want("a body's time", is_closed_after(bodiless, 0, 36) and time.monotonic() - start > 36,
         "closed after %.1f s" % (time.monotonic() - start))
    beside("nobody any more", port)


main()
