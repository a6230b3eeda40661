#!/usr/bin/env python3
"""The proxy of share/README.md: nginx lets each user post as the sender of that name, as the page's text has it.

  proxy.py PROGRAM [PORT [PAGE]]

PROGRAM is the built program, `crates/office/out/office`. The text is read from the page, or from the file PAGE, and
only its ports and the file of its users are others. The service listens at PORT (18760), nginx at the next one. Where
nginx isn't installed, nothing is tried, and the last line says so. Exit status 0 where each request was answered as it
is due.
"""
import base64
import http.client
import os
import re
import shutil
import subprocess
import sys
import tempfile
import time
TOP = os.path.join(os.path.dirname(os.path.abspath(__file__)), "..", "..")
sys.dont_write_bytecode = True
sys.path.insert(0, os.path.join(TOP, "tests"))
from serving import CONF, Service

program = os.path.abspath(sys.argv[1])
port = int(sys.argv[2]) if len(sys.argv) > 2 else 18760
PAGE = sys.argv[3] if len(sys.argv) > 3 else os.path.join(TOP, "share", "README.md")
NGINX = shutil.which("nginx", path=os.environ["PATH"] + ":/usr/sbin")
USERS = ["ftp", "bd", "bts", "rt", "clock", "op"]
# The lines around the page's text: all files are in the folder, and nothing runs in the background.
AROUND = """daemon off; pid nginx.pid; error_log error.log; worker_processes 1;%s
events { worker_connections 64; }
http {
access_log off;
client_body_temp_path body; proxy_temp_path proxy; fastcgi_temp_path f; uwsgi_temp_path u; scgi_temp_path s;
%s
}
"""
NONE = b"From: %s\nNumber: %d\nKind: none\n"
HINT = b"From: rt\nNumber: %d\nKind: hint\nHint: block-all source\n"
faults = []
tried = 0


def want(what, due, got):
    global tried
    tried += 1
    if due != got:
        faults.append("%s: due %r, got %r" % (what, due, got))


def text_of_the_page():
    """The block of the page that configures nginx, for this test's ports and users."""
    with open(PAGE, encoding="utf-8") as page:
        blocks = re.findall(r"(?m)(?:^(?:    .*)?\n)+", page.read())
    text = next(block for block in blocks if "upstream office" in block)
    for old, new in [("listen 443 ssl;", "listen 127.0.0.1:%d;" % (port + 1)), ("/etc/nginx/office.users", "users"),
                     ("server 127.0.0.1:8080;", "server 127.0.0.1:%d;" % port)]:
        assert old in text, old
        text = text.replace(old, new)
    return text


def ask(method, path, body=None, user=None, headers=(), password="secret", at=1):
    """The code and the body of an answer; a chunked body is a list of its parts."""
    fields = dict(headers)
    if user:
        fields["Authorization"] = "Basic " + base64.b64encode(("%s:%s" % (user, password)).encode()).decode()
    connection = http.client.HTTPConnection("127.0.0.1", port + at, timeout=20)
    connection.request(method, path, iter(body) if isinstance(body, list) else body, fields)
    reply = connection.getresponse()
    told = reply.read()
    connection.close()
    return reply.status, told


# A user, a method, a path, a body, and what is due: the code, and the answer where it isn't nginx's.
OTHER, STRANGER = (403, b"refused OtherUser\n"), (403, b"refused OtherSender\n")
OF_FTP, OF_RT = NONE % (b"ftp", 1), NONE % (b"rt", 1)
ROWS = [
    ("ftp", "POST", "/mail/ftp", OF_FTP, (200, b"held ftp 1\n")),
    ("ftp", "POST", "/mail/ftp", OF_FTP, (200, b"held ftp 1\n")),
    ("bd", "POST", "/mail/bd", NONE % (b"bd", 1), (200, b"held bd 1\n")),
    # another sender's path
    ("ftp", "POST", "/mail/rt", HINT % 1, OTHER),
    ("ftp", "POST", "/mail/rt", OF_FTP, OTHER),
    ("rt", "POST", "/mail/clock", HINT % 1, OTHER),
    ("ftp", "POST", "/mail", OF_FTP, OTHER),
    ("rt", "POST", "/mail", HINT % 1, OTHER),
    # another sender's message at one's own path: the office refuses it
    ("ftp", "POST", "/mail/ftp", HINT % 1, STRANGER),
    ("ftp", "POST", "/mail/ftp", NONE % (b"bd", 2), STRANGER),
    ("ftp", "POST", "/mail/ftp", NONE % (b"bd", 1), STRANGER),
    ("ftp", "POST", "/mail/ftp", b"from: rt\nNumber: 1\nKind: none\n", STRANGER),
    ("ftp", "POST", "/mail/ftp", b"X: y\nFrom: rt\nNumber: 1\nKind: none\n", STRANGER),
    ("ftp", "POST", "/mail/ftp", b"\n \n" + OF_RT, STRANGER),
    ("ftp", "POST", "/mail/ftp", b"From:\n rt\nNumber: 1\nKind: none\n", STRANGER),
    ("ftp", "POST", "/mail/ftp", b"From: rt\r\nNumber: 1\r\nKind: none\r\n", STRANGER),
    ("ftp", "POST", "/mail/ftp", [b"From: r", b"t\nNumber: 1\nKind: none\n"], STRANGER),
    # texts that are no messages
    ("ftp", "POST", "/mail/ftp", b"", (400, b"refused MissingField From\n")),
    ("ftp", "POST", "/mail/ftp", b"From: ftp\n\n" + OF_RT, (400, b"refused MissingField Number\n")),
    ("ftp", "POST", "/mail/ftp", b"From: ftp\nFrom: rt\nNumber: 1\nKind: none\n", (400, b"refused BadParagraph\n")),
    ("ftp", "POST", "/mail/ftp", b"From: ftp\n rt\nNumber: 1\nKind: none\n", (400, b"refused UnknownSender\n")),
    ("ftp", "POST", "/mail/ftp", OF_FTP + b"X: y\n", (409, b"refused OtherText\n")),
    # long ones, and in parts
    ("ftp", "POST", "/mail/ftp", NONE % (b"ftp", 2) + b"Note: " + b"x" * 65400, (200, b"held ftp 2\n")),
    ("ftp", "POST", "/mail/ftp", [NONE % (b"ftp", 3), b"Note: in parts\n"], (200, b"held ftp 3\n")),
    ("ftp", "POST", "/mail/ftp", b"x" * 65537, (413, None)),
    # tricks in the path
    ("ftp", "POST", "/mail/%72t", HINT % 1, OTHER),
    ("ftp", "POST", "/m%61il/rt", HINT % 1, OTHER),
    ("ftp", "POST", "//mail/rt", HINT % 1, OTHER),
    ("ftp", "POST", "/mail//rt", HINT % 1, OTHER),
    ("ftp", "POST", "/mail/rt/../ftp", HINT % 1, STRANGER),
    ("ftp", "POST", "/mail/ftp/../rt", HINT % 1, OTHER),
    ("ftp", "POST", "/mail/rt%2f..%2fftp", HINT % 1, STRANGER),
    ("ftp", "POST", "/mail/ftp%2f..%2frt", HINT % 1, OTHER),
    ("ftp", "POST", "/kept/../mail/rt", HINT % 1, OTHER),
    ("ftp", "POST", "/mail/ftp/..", HINT % 1, (403, None)),
    ("ftp", "POST", "/mail/ftp/../../mail", HINT % 1, OTHER),
    ("ftp", "POST", "/lint/../mail", HINT % 1, OTHER),
    ("ftp", "POST", "/try/%2e%2e/mail", HINT % 1, OTHER),
    ("ftp", "POST", "/mail/ftp?x=/mail/rt", HINT % 1, STRANGER),
    ("ftp", "POST", "/mail?/lint", HINT % 1, OTHER),
    ("ftp", "POST", "/mail/rt?/../ftp", HINT % 1, OTHER),
    ("ftp", "POST", "/mail/rt%3f/../../ftp", HINT % 1, (403, None)),
    ("ftp", "POST", "/mail%3f/../lint", HINT % 1, (200, b"held rt 1\n")),
    ("ftp", "POST", "/mail#/../lint", HINT % 1, OTHER),
    ("ftp", "POST", "/mail/ftp%0a", HINT % 1, (403, None)),
    ("ftp", "POST", "/mail/ftp%00", HINT % 1, (400, None)),
    ("ftp", "POST", "/mail/FTP", OF_FTP, (403, None)),
    ("ftp", "POST", "/mail/", HINT % 1, (403, None)),
    ("ftp", "POST", "/MAIL", HINT % 1, (403, None)),
    ("ftp", "POST", "/settle/", b"", (403, None)),
    # other methods, and other routes
    ("ftp", "PUT", "/mail/ftp", NONE % (b"ftp", 4), (403, None)),
    ("ftp", "GET", "/mail/ftp", None, (403, None)),
    ("bd", "POST", "/settle", b"", OTHER),
    ("op", "POST", "/settle", b"", (200, b"ready 0 finished 0\n")),
    ("op", "POST", "/mail", NONE % (b"bts", 1), (200, b"held bts 1\n")),
    ("op", "POST", "/mail/bts", NONE % (b"bts", 2), OTHER),
    ("op", "POST", "/mail", b"\n" + HINT % 1, (200, b"held rt 1\n")),
    ("ftp", "POST", "/status", b"", (403, None)),
    ("ftp", "DELETE", "/kept/ftp/1", None, (403, None)),
    ("bts", "GET", "/kept/ftp/1", None, (200, OF_FTP)),
    ("bts", "GET", "/status", None, (200, b"ready 0 finished 0\n")),
    ("bts", "GET", "/bag/ftp/4", None, (200, b"")),
    ("bts", "GET", "/hints", None, (200, b"hints 0\nrt 1 new block-all source: in force\n")),
    ("bts", "GET", "/unstable", None, (200, b"unstable 0\n")),
    ("bts", "GET", "/order/2025-03-20", None, (200, b"From: clock\nNumber: 1\nKind: run\nDay: 2025-03-20\n"
                                               b"Covers: ftp 3, bd 1, bts 1, rt 1\n")),
    ("bts", "GET", "/propose", None, (404, b"refused NoRun\n")),
    ("bts", "GET", "/propose/2025-03-20", None, (200, b"")),
    ("bts", "POST", "/breaks", b"greeter", (404, b"refused NoRun\n")),
    ("bts", "GET", "/breaks/greeter", None, (404, b"refused NoRun\n")),
    ("bts", "GET", "/breaks", None, (403, None)),
    ("rt", "POST", "/lint", HINT % 2, (200, b"held rt 2\n")),
    ("ftp", "POST", "/lint", HINT % 2, (200, b"held rt 2\n")),
    ("rt", "POST", "/try", b"block-all source\n", (404, b"refused NoRun\n")),
    ("rt", "POST", "/try/2025-03-20", b"block-all source\n", (200, b"try 1 2025-03-20 rt 2 block-all source\n")),
    ("rt", "POST", "/try/x", b"block-all source\n", (403, None)),
    ("rt", "GET", "/try/2025-03-20", None, (403, None)),
    (None, "GET", "/status", None, (401, None)),
    (None, "POST", "/mail/ftp", NONE % (b"ftp", 4), OTHER),
]


def requests():
    for user, method, path, body, (code, told) in ROWS:
        got, answer = ask(method, path, body, user)
        what = "%s %s %s %.60r" % (user, method, path, body)
        want(what, (code, told), (got, answer if told is not None else None))
    good = NONE % (b"ftp", 4)
    want("a wrong password", 401, ask("POST", "/mail/ftp", good, "ftp", password="other")[0])
    want("no user's name", OTHER, ask("POST", "/mail/ftp", good, headers=[("Authorization", "Basic ftp")]))
    want("an expectation", (200, b"held ftp 4\n"), ask("POST", "/mail/ftp", good, "ftp", [("Expect", "100-continue")]))
    # what a browser sends for a page, also for a user who is logged in
    for fields in ([("Origin", "https://evil.example")], [("Origin", "null")], [("Sec-Fetch-Site", "cross-site")],
                   [("Sec-Fetch-Site", "same-site")]):
        for path in ("/mail/ftp", "/lint", "/try/2025-03-20", "/breaks"):
            want("a page's POST %s, %s" % (path, fields), (403, b"refused OtherOrigin\n"),
                 ask("POST", path, NONE % (b"ftp", 5), "ftp", fields))
        want("a page's POST without a login", OTHER, ask("POST", "/mail/ftp", NONE % (b"ftp", 5), headers=fields))
    # a page under a name of its own reads nothing past the proxy, whose own name the office needn't know
    for host, due in [("evil.example", (403, b"refused OtherHost\n")), ("localhost", (200, b"ready 0 finished 0\n"))]:
        want("Host: %s" % host, due, ask("GET", "/status", headers=[("Host", host)], at=0))
        want("Host: %s, by the proxy" % host, (200, b"ready 0 finished 0\n"),
             ask("GET", "/status", user="ftp", headers=[("Host", host)]))
    want("a page looks", (200, b"ready 0 finished 0\n"), ask("GET", "/status", user="ftp", headers=[("Origin", "x")]))
    want("a proposal for a source", (404, b"refused NoRun\n"), ask("GET", "/propose/lib+x.y", user="bts"))
    want("what is kept", b"mail ftp 4 kept, 1 to 4, greatest 4\nmail bd 1 kept, 1 to 1, greatest 1\n"
         b"mail bts 1 kept, 1 to 1, greatest 1\nmail rt 1 kept, 1 to 1, greatest 1\nmail clock 0 kept\n",
         ask("GET", "/kept", user="op")[1])


def tools(folder):
    """The tools through the proxy: a sender's mail by office-lint, all mail by office-mirror, an order."""
    place = os.path.join(folder, "message")
    with open(place, "wb") as message:
        message.write(NONE % (b"ftp", 5))
    url, conf = "127.0.0.1:%d" % (port + 1), ["--conf", CONF]
    absent = "office-lint: ~/.netrc has no password of bd at 127.0.0.1\n"
    unknown = "office-lint: http://%s/kept: 401: Unauthorized\n" % url
    for user, words, due in [
            ("bd", ["office-lint", "--url", "http://" + url, *conf, "--user", "bd", "--send", place],
             (3, place + ": refused OtherUser\n", "")),
            ("ftp", ["office-lint", "--url", "http://" + url, *conf, "--user", "ftp", "--send", place],
             (0, place + ": held ftp 5\n", "")),
            ("ftp", ["office-lint", "--url", "http://" + url, *conf, "--user", "bd", place], (2, "", absent)),
            ("ftp", ["office-lint", "--url", "http://" + url, *conf, place], (4, "", unknown)),
            ("op", ["office-mirror", "http://op@" + url, "http://op:secret@" + url],
             (0, "", "office-mirror: http://%s: sent 8\n" % url)),
            ("clock", ["office-order", "2025-03-20", "--url", "http://clock@" + url, "--send"],
             (0, "held clock 1\n", ""))]:
        netrc = os.path.join(folder, ".netrc")
        with open(netrc, "w", encoding="utf-8") as known:
            known.write("machine 127.0.0.1 login %s password secret\n" % user)
        os.chmod(netrc, 0o600)
        ran = subprocess.run([os.path.join(TOP, "tools", "bin", words[0]), *words[1:]], capture_output=True, text=True,
                             env={**os.environ, "HOME": folder, "OFFICE": program}, timeout=60)
        want(" ".join(words), due, (ran.returncode, ran.stdout, ran.stderr))


def started(proxy):
    """Waits until the proxy answers."""
    for _ in range(100):
        if proxy.poll() is not None:
            return
        try:
            ask("GET", "/status")
            return
        except OSError:
            time.sleep(0.05)


def over_a_service():
    """All of it, over a service that runs meanwhile."""
    with tempfile.TemporaryDirectory() as folder:
        os.chmod(folder, 0o755)
        with open(os.path.join(folder, "conf"), "w", encoding="utf-8") as conf:
            conf.write(AROUND % (" user root;" if os.geteuid() == 0 else "", text_of_the_page()))
        with open(os.path.join(folder, "users"), "w", encoding="utf-8") as users:
            users.write("".join("%s:{PLAIN}secret\n" % user for user in USERS))
        with Service(program, "--host", "localhost", port=port):
            words = [NGINX, "-p", folder, "-e", "error.log", "-c", "conf"]
            proxy = subprocess.Popen(words, stdout=subprocess.DEVNULL, stderr=subprocess.PIPE, cwd=folder)
            try:
                started(proxy)
                if proxy.poll() is None:
                    requests()
                    tools(folder)
                else:
                    want("nginx", "", proxy.stderr.read().decode())
            finally:
                proxy.terminate()
                proxy.wait()


def main():
    if NGINX is None:
        print("0 tried, 0 faults: nginx isn't installed")
        return
    over_a_service()
    for fault in faults:
        print("FAIL", fault)
    print("%d tried, %d faults" % (tried, len(faults)))
    sys.exit(1 if faults else 0)


main()
