#!/usr/bin/env python3
"""Clients of the service on loopback: good ones, slow ones and broken ones, one after the other.

  clients.py PROGRAM [PORT]

PROGRAM is the built program, `crates/office/out/office`. Exit status 0 where each client saw what it should.
"""
import os
import resource
import socket
import sys
import tempfile
import time
sys.dont_write_bytecode = True
sys.path.insert(0, os.path.join(os.path.dirname(os.path.abspath(__file__)), ".."))
from serving import Service

SETUP = b"""Architectures: amd64 arm64

Sender: ftp
Role: upload

Sender: bd
Role: build

Sender: bts
Role: bugs

Sender: rt
Role: release

Sender: clock
Role: runs
"""
NONE = b"From: ftp\nNumber: %d\nKind: none\n"


def connect(port):
    return socket.create_connection(("127.0.0.1", port), timeout=20)


def read_all(client):
    reply = b""
    while True:
        part = client.recv(65536)
        if not part:
            return reply
        reply += part


def exchange(port, request, pause=0.0, step=0):
    """Sends a request, all at once or a few bytes at a time, and reads the whole reply."""
    with connect(port) as client:
        if step:
            for at in range(0, len(request), step):
                client.sendall(request[at:at + step])
                time.sleep(pause)
        else:
            client.sendall(request)
        return read_all(client)


def post(text):
    return b"POST /mail HTTP/1.1\r\nHost: x\r\nContent-Length: %d\r\n\r\n" % len(text) + text


def status(port):
    return exchange(port, b"GET /status HTTP/1.1\r\nHost: x\r\n\r\n").split(b"\r\n\r\n", 1)[-1]


def early_end(port, request):
    """Sends a front of a request, and ends."""
    with connect(port) as client:
        client.sendall(request)
        client.shutdown(socket.SHUT_WR)
        return read_all(client)


def unread(port, request):
    """Sends a request, and goes without its reply."""
    with connect(port) as client:
        client.sendall(request)


def waiting(port, text):
    """Sends the head of a request, waits for 100 Continue, then sends the body."""
    head, body = post(text).replace(b"Host: x", b"Host: x\r\nExpect: 100-continue").split(b"\r\n\r\n", 1)
    with connect(port) as client:
        client.settimeout(10)
        client.sendall(head + b"\r\n\r\n")
        asked = b""
        while not asked.endswith(b"\r\n\r\n"):
            asked += client.recv(1)
        client.sendall(body)
        return asked + read_all(client)


def slow(port, front, pause):
    """Sends a front of a request, then a byte in each pause, until the service ends; the reply, and the seconds."""
    start = time.time()
    reply = b""
    with connect(port) as client:
        client.settimeout(pause)
        client.sendall(front)
        while time.time() - start < 60:
            try:
                part = client.recv(65536)
                if not part:
                    break
                reply += part
            except TimeoutError:
                if front:
                    client.sendall(b"x")
            except OSError:
                break
    return reply, time.time() - start


def lingering(port):
    """Gets its reply, and continues to send a byte at a time; the seconds until the service serves the next."""
    with connect(port) as client:
        client.sendall(b"GET /status HTTP/1.1\r\nHost: x\r\n\r\n")
        client.recv(65536)
        start = time.time()
        with connect(port) as other:
            other.sendall(b"GET /status HTTP/1.1\r\nHost: x\r\n\r\n")
            other.settimeout(0.1)
            while time.time() - start < 20:
                try:
                    client.sendall(b"x")
                except OSError:
                    pass
                try:
                    if other.recv(65536):
                        break
                except TimeoutError:
                    pass
        return time.time() - start


def few_files(files):
    """What makes a program open at most that many files."""
    hard = resource.getrlimit(resource.RLIMIT_NOFILE)[1]
    return lambda: resource.setrlimit(resource.RLIMIT_NOFILE, (files, hard))


def main():
    program = os.path.abspath(sys.argv[1])
    port = int(sys.argv[2]) if len(sys.argv) > 2 else 18731
    faults = []

    def want(what, due, got):
        if not got.startswith(due):
            faults.append("%s: due %r, got %r" % (what, due, got[:200]))

    with tempfile.TemporaryDirectory() as folder:
        conf = os.path.join(folder, "setup.conf")
        with open(conf, "wb") as f:
            f.write(SETUP)
        ok = b"HTTP/1.1 200 OK\r\n"
        service = Service(program, conf=conf, port=port, connections=19)
        want("first line", "True", str(service.start()))
        want("1 status", b"ready 0 finished 0\n", status(port))
        want("2 a byte at a time", ok, exchange(port, post(NONE % 1), 0.002, 1))
        want("3 waits for continue", b"HTTP/1.1 100 Continue\r\n\r\n" + ok, exchange(
            port, post(NONE % 2).replace(b"Host: x", b"Host: x\r\nExpect: 100-continue")))
        want("4 end within the head", b"HTTP/1.1 400 ", early_end(port, b"GET /status HT"))
        want("5 end within the body", b"HTTP/1.1 400 ", early_end(port, post(NONE % 3)[:-1]))
        want("6 nothing", b"", early_end(port, b""))
        unread(port, post(NONE % 3))
        want("8 a thousand fields", b"HTTP/1.1 431 ", exchange(
            port, b"GET /status HTTP/1.1\r\n" + b"X: y\r\n" * 1000 + b"\r\n"))
        want("9 a long field", b"HTTP/1.1 431 ", exchange(
            port, b"GET /status HTTP/1.1\r\nX: " + b"y" * 20000 + b"\r\n\r\n"))
        want("10 a body that is too long", b"HTTP/1.1 413 ", exchange(port, post(b"x" * 65537)))
        want("11 the longest body", ok, exchange(
            port, post((NONE % 4 + b"Note: ").ljust(65535, b"x") + b"\n")))
        want("12 two requests", ok, exchange(port, b"GET /status HTTP/1.1\r\nHost: x\r\n\r\n" * 2))
        want("13 waits for continue, then sends its body", b"HTTP/1.1 100 Continue\r\n\r\n" + ok,
             waiting(port, NONE % 5))
        for row, front, pause in (("14 a silent client", b"", 35), ("15 a slow client", b"GET /", 1)):
            reply, seconds = slow(port, front, pause)
            want(row, b"", reply)
            if reply or not 9 < seconds < 14:
                faults.append("%s: %r after %.1f seconds" % (row, reply[:200], seconds))
        want("16 one that is behind them", b"ready 0 finished 0\n", status(port))
        seconds = lingering(port)
        if seconds > 2:
            faults.append("17 and 18 a client that goes on sending: %.1f seconds" % seconds)
        want("19 status", b"ready 0 finished 0\n", status(port))
        ended = service.wait(20)
        if ended != 0:
            faults.append("exit status %d, %r" % (ended, service.said))

        # a service that can open no more files takes the connection once it can
        service = Service(program, conf=conf, port=port, connections=1, preexec_fn=few_files(5))
        service.start()
        with connect(port) as client:
            client.sendall(b"GET /status HTTP/1.1\r\nHost: x\r\n\r\n")
            time.sleep(1)
            hard = resource.getrlimit(resource.RLIMIT_NOFILE)[1]
            resource.prlimit(service.process.pid, resource.RLIMIT_NOFILE, (64, hard))
            want("20 an accept that fails for a while", ok, read_all(client))
        ended = service.wait(20)
        want("20 what is told", "office: a connection wasn't taken: Too many open files", service.said)
        if ended != 0:
            faults.append("20: exit status %d" % ended)

        # and where it never can it ends
        service = Service(program, conf=conf, port=port, connections=1, preexec_fn=few_files(5))
        service.start()
        with connect(port):
            ended = service.wait()
        lines = service.said.count("\n")
        if ended != 4 or lines != 101:
            faults.append("21 accepts that fail: exit status %d, %d lines" % (ended, lines))
    for fault in faults:
        print("FAIL", fault)
    print("21 rows, %d faults" % len(faults))
    sys.exit(1 if faults else 0)


main()
