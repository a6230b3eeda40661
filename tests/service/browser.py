#!/usr/bin/env python3
"""What a page in a browser may do to a service: it posts nothing, and under a name of its own it reads nothing.

  browser.py PROGRAM [PORT]

PROGRAM is the built program, `crates/office/out/office`. The first rows are requests with a browser's fields, to a
service that is told its hosts, and to one that isn't. If chromium and python3-selenium are installed, a page of another
site then tries to post by fetch, sendBeacon and a form, also under a name that was rebound to 127.0.0.1, and to read
there; else the last line says that this wasn't tried. Run it by the system's Python: /usr/bin/python3. Exit status 0 if
nothing was kept, and nothing was read under another name.
"""
import http.client
import http.server
import os
import shutil
import socket
import sys
import threading
import time
sys.dont_write_bytecode = True
sys.path.insert(0, os.path.join(os.path.dirname(os.path.abspath(__file__)), ".."))
import serving

HINT = "From: rt\nNumber: %d\nKind: hint\nHint: block-all source\n"
REFUSED = (403, b"refused OtherOrigin\n")
OTHER_HOST = (403, b"refused OtherHost\n")
BAD = (400, b"refused BadRequest\n")
READY = (200, b"ready 0 finished 0\n")
# Fields `Host` of a service that is told the names office.example and b, and of them those that it takes.
KNOWN = ["office.example", "OFFICE.Example:18780", "office.example:", "b", "b:1", "127.0.0.1", "127.0.0.1:80",
         "localhost", "LocalHost:65536", "[::1]", "[::1]:8080"]
UNKNOWN = ["evil.example", "office.example.evil", "evil.office.example", "office.example:x", "office.example: 1",
           "office.example.", "a@office.example", "office.example/", "", ":80", "127.0.0.1.evil.example", "127.0.0.2",
           "localhost.evil.example", "::1", "[::1", "[::1]x", "office.exampl", "bb"]
# The paths that a POST takes, each with a body.
POSTS = [("/mail", HINT % 1), ("/mail/rt", HINT % 1), ("/lint", HINT % 1), ("/settle", ""), ("/try", "block-all source\n"),
         ("/breaks", "greeter"),
         ("/try/2025-03-20", "block-all source\n")]
faults = []
tried = 0


def want(what, due, got):
    global tried
    tried += 1
    if due != got:
        faults.append("%s: due %r, got %r" % (what, due, got))


def ask(port, method, path, body="", fields=()):
    connection = http.client.HTTPConnection("127.0.0.1", port, timeout=30)
    connection.putrequest(method, path, skip_host=any(name.lower() == "host" for name, _ in fields))
    for name, value in fields:
        connection.putheader(name, value)
    if method == "POST":
        connection.putheader("Content-Length", str(len(body)))
    connection.endheaders(body.encode() if body else None)
    reply = connection.getresponse()
    answer = reply.status, reply.read()
    connection.close()
    return answer


def try_fields(port):
    """Requests with the fields that a browser adds, without a browser."""
    for path, body in POSTS:
        for fields in ([("Origin", "http://evil.example")], [("origin", "null")], [("Origin", "")],
                       [("Sec-Fetch-Site", "cross-site")], [("sec-fetch-site", "same-site")],
                       [("Sec-Fetch-Site", "none"), ("Sec-Fetch-Site", "cross-site")],
                       [("Sec-Fetch-Site", "NONE")], [("Origin", "http://127.0.0.1:%d" % port), ("Expect", "100-continue")]):
            want("POST %s, %s" % (path, fields), REFUSED, ask(port, "POST", path, body, fields))
    want("GET with Origin", 200, ask(port, "GET", "/status", fields=[("Origin", "http://evil.example")])[0])
    want("GET /mail with Origin", 405, ask(port, "GET", "/mail", fields=[("Origin", "x")])[0])
    want("POST /nothing with Origin", 404, ask(port, "POST", "/nothing", "x", [("Origin", "x")])[0])
    want("kept", b"", ask(port, "GET", "/kept/rt/1")[1].replace(b"refused NoMessage\n", b""))
    for fields in ([], [("Sec-Fetch-Site", "none")], [("Sec-Fetch-Site", "same-origin")], [("Origins", "x")]):
        want("POST /lint, %s" % fields, (200, b"held rt 1\n"), ask(port, "POST", "/lint", HINT % 1, fields))


def ask_plainly(port, head):
    """The code and the body for a head as it is."""
    with socket.create_connection(("127.0.0.1", port), timeout=30) as connection:
        connection.sendall(head)
        reply = connection.makefile("rb").read()
    front, _, body = reply.partition(b"\r\n\r\n")
    return int(front.split()[1]), body


def try_hosts(port):
    """A service that is told its names answers for these, and for the machine itself."""
    for host in KNOWN:
        want("Host: %s" % host, READY, ask(port, "GET", "/status", fields=[("Host", host)]))
    for host in UNKNOWN:
        for method, path, body in [("GET", "/status", ""), ("GET", "/nothing", ""), ("PUT", "/mail", ""),
                                   *[("POST", path, body) for path, body in POSTS]]:
            want("%s %s, Host: %s" % (method, path, host), OTHER_HOST, ask(port, method, path, body, [("Host", host)]))
        want("HEAD, Host: %s" % host, (403, b""), ask(port, "HEAD", "/status", fields=[("Host", host)]))
        want("waits, Host: %s" % host, OTHER_HOST,
             ask(port, "POST", "/mail", HINT % 1, [("Expect", "100-continue"), ("Host", host)]))
    want("no host", OTHER_HOST, ask_plainly(port, b"GET /status HTTP/1.1\r\n\r\n"))
    want("no host, by 1.0", OTHER_HOST, ask_plainly(port, b"GET /status HTTP/1.0\r\n\r\n"))
    want("two hosts", BAD, ask(port, "GET", "/status", fields=[("Host", "b"), ("Host", "evil.example")]))
    want("kept for another host", 404, ask(port, "GET", "/kept/rt/1")[0])
    want("held for its own", (200, b"held rt 1\n"), ask(port, "POST", "/lint", HINT % 1, [("Host", "b:80")]))


def try_any_host(port):
    """A service that isn't told its names answers for each, if a request names one."""
    for host in KNOWN + UNKNOWN:
        want("any host: %s" % host, READY, ask(port, "GET", "/status", fields=[("Host", host)]))
    for head, due in [(b"HTTP/1.1\r\n\r\n", BAD), (b"HTTP/1.0\r\n\r\n", READY),
                      (b"HTTP/1.1\r\nHost: a\r\nHost: a\r\n\r\n", BAD),
                      (b"HTTP/1.0\r\nHost: a\r\nhost: b\r\n\r\n", BAD), (b"HTTP/1.1\r\nhOST:a\r\n\r\n", READY)]:
        want("any host, %s" % head, due, ask_plainly(port, b"GET /status " + head))


PAGE = """<!doctype html><title>page</title><body><script>
const base = "http://%(host)s:%(port)d";
const text = number => "From: rt\\nNumber: " + number + "\\nKind: hint\\nHint: block-all source\\n";
async function attack() {
  const done = [];
  try { await fetch(base + "/mail", {method: "POST", mode: "no-cors", body: text(1)}); done.push("fetch"); } catch (e) {}
  try { await fetch(base + "/mail/rt", {method: "POST", mode: "no-cors", body: text(1)}); } catch (e) {}
  try { await fetch(base + "/settle", {method: "POST", mode: "no-cors"}); } catch (e) {}
  navigator.sendBeacon(base + "/mail", text(1));
  const form = document.createElement("form");
  form.method = "post"; form.enctype = "text/plain"; form.action = base + "/mail"; form.target = "frame";
  const field = document.createElement("textarea");
  field.name = text(1) + "Note: "; field.value = "x";
  form.append(field);
  const frame = document.createElement("iframe"); frame.name = "frame";
  document.body.append(frame, form);
  form.submit();
  setTimeout(() => { document.title = "done"; }, 1500);
}
attack();
</script>"""


class Pages(http.server.BaseHTTPRequestHandler):
    """The page of another site, which posts to the host that its path names."""
    office = 0

    def do_GET(self):
        body = (PAGE % {"host": self.path.strip("/") or "127.0.0.1", "port": Pages.office}).encode()
        self.send_response(200)
        self.send_header("Content-Type", "text/html")
        self.send_header("Content-Length", str(len(body)))
        self.end_headers()
        self.wfile.write(body)

    def log_message(self, *words):
        pass


def try_browser(port):
    """Chromium opens the page of another site."""
    from selenium import webdriver
    from selenium.webdriver.chrome.service import Service
    Pages.office = port
    site = http.server.ThreadingHTTPServer(("127.0.0.1", 0), Pages)
    threading.Thread(target=site.serve_forever, daemon=True).start()
    options = webdriver.ChromeOptions()
    options.binary_location = shutil.which("chromium")
    for word in ("--headless=new", "--no-sandbox", "--disable-gpu", "--disable-dev-shm-usage",
                 "--host-resolver-rules=MAP evil.example 127.0.0.1, MAP rebound.example 127.0.0.1"):
        options.add_argument(word)
    driver = webdriver.Chrome(service=Service(shutil.which("chromedriver")), options=options)
    try:
        for host in ("127.0.0.1", "localhost", "rebound.example"):
            driver.get("http://evil.example:%d/%s" % (site.server_port, host))
            end = time.monotonic() + 30
            while driver.title != "done" and time.monotonic() < end:
                time.sleep(0.1)
            want("the page that posts to %s" % host, "done", driver.title)
            want("kept of it", 404, ask(port, "GET", "/kept/rt/1")[0])
        # under its rebound name a page is of the office's own origin
        driver.get("http://rebound.example:%d/status" % port)
        driver.execute_async_script("const end = arguments[0]; fetch('/mail', {method: 'POST', body: "
                                    "'From: rt\\nNumber: 1\\nKind: hint\\nHint: block-all source\\n'}).then(() => end(1), () => end(0));")
        want("kept of a rebound page", 404, ask(port, "GET", "/kept/rt/1")[0])
        for host, due in (("rebound.example", "refused OtherHost"), ("localhost", "ready 0 finished 0")):
            driver.get("http://%s:%d/status" % (host, port))
            want("what a page reads as %s" % host, due, driver.find_element("tag name", "body").text)
    finally:
        driver.quit()
        site.shutdown()


def has_browser():
    try:
        import selenium  # noqa: F401
    except ImportError:
        return False
    return bool(shutil.which("chromium") and shutil.which("chromedriver"))


def main():
    program = os.path.abspath(sys.argv[1])
    port = int(sys.argv[2]) if len(sys.argv) > 2 else 18780
    browser = has_browser()
    with serving.Service(program, port=port):
        try_fields(port)
        try_any_host(port)
    with serving.Service(program, "--host", "office.example", "--host=b", port=port):
        try_fields(port)
        try_hosts(port)
        if browser:
            try_browser(port)
    for fault in faults:
        print("FAIL", fault)
    if not browser:
        print("not tried: a browser: chromium, chromium-driver or python3-selenium isn't installed")
    print("%d tried, %d faults" % (tried, len(faults)))
    sys.exit(1 if faults else 0)


main()
