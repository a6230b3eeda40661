#!/usr/bin/env python3
"""Heads by which one server may be led to read another request than the next one: each is refused, or read in one way.

  framing.py PROGRAM [PORT]

PROGRAM is the built program, `crates/office/out/office`. What is due is by RFC 9112 and part 13 of docs/RULES.md.
Behind each head stands the same message, and behind that a second request, which nobody may answer. Exit status 0 if
each reply was one, with its code, and if no more was kept than the replies say.
"""
import os
import socket
import sys
sys.dont_write_bytecode = True
sys.path.insert(0, os.path.join(os.path.dirname(os.path.abspath(__file__)), ".."))
from serving import Service

BODY = b"From: ftp\nNumber: 1\nKind: none\n"
SECOND = b"POST /mail HTTP/1.1\r\nHost: x\r\nContent-Length: 31\r\n\r\nFrom: ftp\nNumber: 7\nKind: none\n"
MAIL, HOST, LENGTH = b"POST /mail HTTP/1.1", b"Host: x", b"Content-Length: 31"
CHUNKED = b"Transfer-Encoding: chunked"
# The lines of a head, each with what is due.
HEADS = [
    (200, [MAIL, HOST, LENGTH]), (200, [MAIL, HOST, b"content-LENGTH:31"]), (200, [MAIL, HOST, b"Content-Length: \t31 "]),
    (200, [MAIL, HOST, b"Content-Length: 0031"]), (200, [b"POST /mail?x=/settle HTTP/1.1", HOST, LENGTH]),
    # the length
    (400, [MAIL, HOST, LENGTH, LENGTH]), (400, [MAIL, HOST, LENGTH, b"Content-Length: 30"]),
    (400, [MAIL, HOST, b"Content-Length: 31, 31"]), (400, [MAIL, HOST, b"Content-Length: +31"]),
    (400, [MAIL, HOST, b"Content-Length: 0x1f"]), (400, [MAIL, HOST, b"Content-Length: -1"]),
    (400, [MAIL, HOST, b"Content-Length:"]), (400, [MAIL, HOST, b"Content-Length: 3 1"]),
    (400, [MAIL, HOST, b"Content-Length: 31;"]), (400, [MAIL, HOST, b"Content-Length : 31"]),
    (413, [MAIL, HOST, b"Content-Length: 4294967327"]), (413, [MAIL, HOST, b"Content-Length: 18446744073709551647"]),
    (411, [MAIL, HOST]), (411, [MAIL, HOST, CHUNKED]), (411, [MAIL, HOST, b"Content_Length: 31"]),
    (400, [MAIL, HOST, LENGTH, CHUNKED]), (400, [MAIL, HOST, CHUNKED, LENGTH]),
    (400, [MAIL, HOST, LENGTH, b"Transfer-Encoding: identity"]), (400, [MAIL, HOST, LENGTH, b"Transfer-Encoding: x"]),
    (400, [MAIL, HOST, LENGTH, b"Transfer-Encoding:"]), (400, [MAIL, HOST, LENGTH, b"transfer-encoding:\tchunked"]),
    # the grammar
    (400, [MAIL, HOST, LENGTH, b" folded"]), (400, [MAIL, HOST, LENGTH, b"X: a\x00b"]),
    (400, [MAIL, HOST, LENGTH, b"X: a\rb"]),
    (400, [MAIL, HOST, LENGTH, b"X\x0b: a"]), (400, [MAIL, HOST, LENGTH, b"X"]), (400, [MAIL, HOST, LENGTH, b": a"]),
    (400, [b"POST /mail HTTP/1.2", HOST, LENGTH]), (400, [b"POST /mail HTTP/2.0", HOST, LENGTH]),
    (400, [b"POST /mail http/1.1", HOST, LENGTH]), (400, [b"POST /mail", HOST, LENGTH]),
    (400, [b"POST  /mail HTTP/1.1", HOST, LENGTH]), (400, [b"POST\t/mail HTTP/1.1", HOST, LENGTH]),
    (400, [b"PRI * HTTP/2.0", b"", b"SM"]), (400, [b"\x16\x03\x01\x02\x00\x01\x00\x01\xfc\x03\x03"]),
    # the host
    (400, [MAIL, LENGTH]), (400, [MAIL, HOST, HOST, LENGTH]), (400, [MAIL, HOST, b"host: y", LENGTH]),
    (400, [b"POST /mail HTTP/1.0", HOST, HOST, LENGTH]), (200, [b"POST /mail HTTP/1.0", LENGTH]),
    # the path
    *[(404, [b"POST %s HTTP/1.1" % path, HOST, LENGTH]) for path in (
        b"/mail/", b"//mail", b"/%6dail", b"/./mail", b"/x/../mail", b"/mail#x", b"/Mail", b"mail", b"*",
        b"http://x/mail", b"/mail/ftp/", b"/mail/f%74p", b"/mail/none", b"/mail;x", b"/mail\\")],
    # the method
    (405, [b"GET /mail HTTP/1.1", HOST]), (405, [b"post /mail HTTP/1.1", HOST, LENGTH]),
    (405, [b"PUT /mail HTTP/1.1", HOST, LENGTH]),
    (405, [b"POST /status HTTP/1.1", HOST, LENGTH]), (405, [b"HEAD /status HTTP/1.1", HOST]),
]
faults = []


def reply_to(port, request):
    with socket.create_connection(("127.0.0.1", port), timeout=30) as client:
        client.sendall(request)
        client.shutdown(socket.SHUT_WR)
        return client.makefile("rb").read()


def want(what, due, got):
    if due != got:
        faults.append("%s: due %r, got %r" % (what, due, got))


def try_heads(port):
    for code, lines in HEADS:
        for end in (b"\r\n", b"\n"):
            reply = reply_to(port, end.join([*lines, b"", b""]) + BODY + SECOND)
            want("%r, ends %r" % (lines, end), (code, 1), (int(reply[9:12] or b"0"), reply.count(b"HTTP/1.1 ")))
    kept = reply_to(port, b"GET /kept HTTP/1.1\r\nHost: x\r\n\r\n").split(b"\r\n\r\n")[1]
    want("what is kept", b"mail ftp 1 kept, 1 to 1, greatest 1\n", kept[:kept.index(b"\n") + 1])


def main():
    program = os.path.abspath(sys.argv[1])
    port = int(sys.argv[2]) if len(sys.argv) > 2 else 18790
    with Service(program, port=port):
        try_heads(port)
    for fault in faults:
        print("FAIL", fault)
    print("%d tried, %d faults" % (2 * len(HEADS) + 1, len(faults)))
    sys.exit(1 if faults else 0)


main()
