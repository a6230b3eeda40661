"""A stand-in for `office serve` with reports that are drawn by hand, for the tests of office-pages."""
import http.server
import threading
from typing import Mapping, Optional

RUNS = {
    1: "run 1 2025-03-04 excuses 2 candidates 2 accept 2 easy 0 remove 0 wait 0\n",
    2: "run 2 2025-03-20 excuses 3 candidates 1 accept 0 easy 0 remove 0 wait 1\n",
    3: "run 3 2025-03-21 excuses 3 candidates 1 accept 0 easy 1 remove 0 wait 0\n"}

EXCUSES = {
    1: """excuses 1 2025-03-04
greeter - 0.9-2
 age 3 of 3
 candidate
libgreet - 1.2-1
 age 3 of 3
 candidate
""", 2: """excuses 2 2025-03-20
app - 1-1
 age 2 of 5
 too young
 new bug 1042
 not a candidate
libgreet 1.2-1 2.0-1
 age 15 of 10
 missing on all
 blocked
 not a candidate
stuck - 2-1
 age 12 of 10
 candidate
""", 3: """excuses 3 2025-03-21
app - 1-1
 age 3 of 5
 too young
 new bug 1042
 not a candidate
libgreet 1.2-1 2.0-1
 age 16 of 10
 missing on all
 blocked
 not a candidate
stuck - 2-1
 age 13 of 10
 candidate
"""}

UPDATES = {
    1: "update 1 2025-03-04\naccept libgreet 1.2-1\naccept greeter 0.9-2\n",
    2: "update 2 2025-03-20\neasy 9 refuse uninstallable amd64 app\nwait stuck 2-1 uninstallable amd64 greeter\n",
    3: "update 3 2025-03-21\neasy 8 accept stuck 2-1\neasy 9 refuse uninstallable amd64 app\n"}

BEFORE = """source greeter 0.9-2
source libgreet 1.2-1
"""
ROWS = """binary amd64 greeter 0.9-2 greeter
binary amd64 libgreet1 1.2-1 libgreet
binary arm64 greeter 0.9-2 greeter
binary arm64 libgreet1 1.2-1 libgreet
"""
DOCUMENTATION = "binary all libgreet-doc 1.2-1 libgreet\n"

TESTING = {
    1: "testing 1\n" + BEFORE + ROWS + DOCUMENTATION,
    2: "testing 2\n" + BEFORE + ROWS + DOCUMENTATION,
    3: "testing 3\n" + BEFORE + "source stuck 2-1\n" + ROWS + DOCUMENTATION}

APP = """app - 1-1
 age {age} of 5
 too young
 new bug 1042
 not a candidate
upload ftp 5 2025-03-18
old enough on 2025-03-23 by urgency
new bug 1042 by bts 1
easy 9 refuse uninstallable amd64 app
"""
LIBGREET = """libgreet 1.2-1 2.0-1
 age {age} of 10
 missing on all
 blocked
 not a candidate
upload ftp 3 2025-03-05
missing on all libgreet-doc 1.2-1 of 1.2-1 by bd 1
blocked by rt 2
"""
STUCK = """stuck - 2-1
 age 12 of 10
 candidate
upload ftp 4 2025-03-08
wait stuck 2-1 uninstallable amd64 greeter
1 greeter 0.9-2 of greeter in testing, needs libgreet1 (>= 1.0) | libold: 2
2 libgreet1 1.2-1 of libgreet in testing, needs libgreet-doc: nothing
leaves libgreet-doc 1.2-1
unstable libgreet-doc 1.2-1 of libgreet isn't current
"""
WHY = {
    2: {"app": APP.format(age=2), "libgreet": LIBGREET.format(age=15), "stuck": STUCK},
    3: {"app": APP.format(age=3), "libgreet": LIBGREET.format(age=16)}}

KEPT = {
    ("rt", 2): "From: rt\nNumber: 2\nKind: hint\nHint: block libgreet\n",
    ("rt", 8): "From: rt\nNumber: 8\nKind: hint\nHint: easy stuck/2-1\n",
    ("rt", 9): ("From: rt\nNumber: 9\nKind: hint\nBy: Ada Low <ada@example.org>\nComment: goes\n with app\n"
                "Hint: easy libgreet/2.0-1 stuck/2-1\n"),
    ("ftp", 2): "From: ftp\nNumber: 2\nKind: upload\nSource: greeter\nVersion: 0.9-2\nUrgency: low\nDay: 2025-03-01\n"}


HINTS = """hints {finished}
rt 2 covered block libgreet: in force
rt 9 new easy libgreet/2.0-1: in force
rt 9 new easy stuck/2-0: unstable 2-1
"""
BLOCK = """stuck stuck 2-1 uninstallable amd64 greeter
1 greeter 0.9-2 of greeter in testing, needs libgreet1: nothing
unstable nothing
"""

BAG = ""
UNSTABLE = "unstable {finished}\n"


def routes(finished: int) -> Mapping[str, str]:
    """What the office answers once that many of the runs are finished."""
    found = {"/runs": "".join(RUNS[run] for run in range(1, finished + 1)),
             "/testing": TESTING.get(finished, "testing 0\n"), "/hints": HINTS.format(finished=finished),
             "/propose": "", "/propose/stuck": BLOCK,
             "/kept": "mail ftp 5 kept, 1 to 5, greatest 5\nmail rt 9 kept, 1 to 9, greatest 9\n"}
    for run in range(1, finished + 1):
        found |= {f"/excuses/{run}": EXCUSES[run], f"/update/{run}": UPDATES[run]}
    for source, told in WHY.get(finished, {}).items():
        found[f"/why/{source}"] = f"why {finished} {source}\n{told}"
    found |= {"/bag/ftp/1": BAG, "/bag/rt/1": BAG, "/unstable": UNSTABLE.format(finished=finished)}
    return found | {f"/kept/{sender}/{number}": text for (sender, number), text in KEPT.items()}


class FakeOffice:
    """A service for a `with`. `answers` may be changed meanwhile; `asked` are the paths in order."""

    def __init__(self, finished: int) -> None:
        self.answers = dict(routes(finished))
        self.asked: list[str] = []
        self.is_older = False
        self.first: dict[str, str] = {}  # answers that are given once, in front of the others

    def __enter__(self) -> "FakeOffice":
        office = self

        class Handler(http.server.BaseHTTPRequestHandler):
            """Answers as the service does: text, or 404 with the refusal."""

            def do_GET(self) -> None:  # noqa: N802 (the library's name)
                office.asked.append(self.path)
                told: Optional[str] = office.first.pop(self.path, None) or office.answers.get(self.path)
                body = (told if told is not None else office.refusal(self.path)).encode()
                self.send_response(200 if told is not None else 404)
                self.send_header("Content-Length", str(len(body)))
                self.end_headers()
                self.wfile.write(body)

            def log_message(self, *_: object) -> None:
                """Nothing is printed."""

        self.server = http.server.ThreadingHTTPServer(("127.0.0.1", 0), Handler)
        self.url = f"http://127.0.0.1:{self.server.server_address[1]}"
        threading.Thread(target=self.server.serve_forever, args=(0.01,), daemon=True).start()
        return self

    def __exit__(self, *_: object) -> None:
        self.server.shutdown()
        self.server.server_close()

    def refusal(self, path: str) -> str:
        """The body of a 404."""
        if self.is_older and path.startswith(("/hints", "/propose")):
            return "refused NoRoute\n"
        return "refused NoMessage\n" if path.startswith("/kept/") else "refused NoRun\n"
