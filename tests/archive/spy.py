"""A proxy between a feed and the office: it sees each text that is sent, and ends the feed at a message."""
import contextlib
import http.server
import os
import signal
import threading
import urllib.error
import urllib.request
from typing import Optional

from stage import Failed, fields


class Spy:
    """The proxy. `seen` has each message's texts, whether the office got them or not.

    Once `armed` with a process and a count, that process is ended by SIGKILL at the message of this count: before the
    office gets it, or after that and before it is answered.
    """

    def __init__(self, url: str) -> None:
        self.target = url
        self.seen: dict[tuple[str, int], set[bytes]] = {}
        self.count = 0
        self.process: Optional[int] = None
        self.at = 0
        self.is_behind = False
        spy = self

        class Handler(http.server.BaseHTTPRequestHandler):
            """A connection."""

            def log_message(self, *_: object) -> None:
                """Says nothing."""

            def do_GET(self) -> None:
                """Asks the office. If that was ended, the connection ends without a reply."""
                with contextlib.suppress(OSError):
                    self.tell(*spy.ask(self.path, None))

            def do_POST(self) -> None:
                """Sees a message, and hands it on."""
                text = self.rfile.read(int(self.headers["Content-Length"]))
                is_mail = self.path.startswith("/mail")
                if is_mail and spy.is_ended(text, False):
                    return
                with contextlib.suppress(OSError):
                    answer = spy.ask(self.path, text)
                    if not is_mail or not spy.is_ended(text, True):
                        self.tell(*answer)

            def tell(self, status: int, body: bytes) -> None:
                """Answers."""
                self.send_response(status)
                self.send_header("Content-Length", str(len(body)))
                self.end_headers()
                self.wfile.write(body)

        self.server = http.server.HTTPServer(("127.0.0.1", 0), Handler)
        self.url = f"http://127.0.0.1:{self.server.server_port}"
        threading.Thread(target=self.server.serve_forever, daemon=True).start()

    def ask(self, path: str, body: Optional[bytes]) -> tuple[int, bytes]:
        """What the office answers."""
        try:
            with urllib.request.urlopen(urllib.request.Request(self.target + path, data=body), timeout=60) as reply:
                return reply.status, reply.read()
        except urllib.error.HTTPError as fault:
            return fault.code, fault.read()

    def is_ended(self, text: bytes, is_behind: bool) -> bool:
        """Sees a text, and ends the feed where that is due."""
        if not is_behind:
            first = fields(text)[0]
            key = first.value("From") or "", int(first.value("Number") or 0)
            self.seen.setdefault(key, set()).add(text)
            self.count += 1
        if self.process is None or self.count != self.at or is_behind != self.is_behind:
            return False
        os.kill(self.process, signal.SIGKILL)
        self.process = None
        return True

    def arm(self, process: int, at: int, is_behind: bool) -> None:
        """Ends the process at the message that comes as this one from here on."""
        self.at, self.is_behind, self.process = self.count + at, is_behind, process

    def check(self) -> None:
        """No number was sent with two texts."""
        twice = sorted(key for key, texts in self.seen.items() if len(texts) > 1)
        if twice:
            raise Failed(f"numbers with two texts: {twice}")

    def close(self) -> None:
        """Ends the proxy."""
        self.server.shutdown()
        self.server.server_close()
