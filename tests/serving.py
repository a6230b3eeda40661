"""A running `office serve` for the scripts of tests/: it is started, asked, and ended."""
import http.client
import os
import signal
import socket
import subprocess
import tempfile
from typing import Any, Mapping, Optional, Sequence, TypeVar

CONF = os.path.join(os.path.dirname(os.path.dirname(os.path.realpath(__file__))), "examples", "setup.conf")
SECONDS = 60
Self = TypeVar("Self", bound="Server")


def free_port() -> int:
    """A port of 127.0.0.1 on which nothing listens."""
    with socket.socket() as free:
        free.bind(("127.0.0.1", 0))
        return int(free.getsockname()[1])


class Server:
    """A process that prints `listening PORT` once it does. A `with` starts it, fails if it doesn't listen, and ends it.

    What it prints on standard error goes to a file without a name, which is removed with it.
    """

    def __init__(self, words: Sequence[str], port: int, ends_by: int = signal.SIGKILL, **how: Any) -> None:
        """`ends_by` is the signal at the end of the `with`, and `how` is for `subprocess.Popen`."""
        self.words, self.port, self.ends_by, self.how = words, port, ends_by, how
        self.url = f"http://127.0.0.1:{self.port}"
        self.said = ""
        self.process: Optional["subprocess.Popen[bytes]"] = None

    @property
    def runs(self) -> bool:
        """Whether it was started, and has not ended."""
        return self.process is not None and self.process.poll() is None

    def start(self) -> bool:
        """Starts it, and waits until it listens: whether it does."""
        # pylint: disable=consider-using-with
        self.errors = tempfile.TemporaryFile()
        self.process = subprocess.Popen(self.words, stdout=subprocess.PIPE, stderr=self.errors, **self.how)
        assert self.process.stdout is not None
        return self.process.stdout.readline() == b"listening %d\n" % self.port

    def wait(self, seconds: float = SECONDS) -> int:
        """Waits for its end: its exit status. `said` is then what it printed on standard error."""
        assert self.process is not None and self.process.stdout is not None
        status = self.process.wait(seconds)
        self.process.stdout.close()
        if not self.errors.closed:
            self.errors.seek(0)
            self.said = self.errors.read().decode()
            self.errors.close()
        return status

    def end(self, number: int = signal.SIGKILL) -> int:
        """Ends it by a signal, if it hasn't ended: its exit status."""
        if self.process is not None and self.runs:
            self.process.send_signal(number)
        return self.wait()

    def __enter__(self: Self) -> Self:
        if not self.start():
            self.end()
            raise RuntimeError(f"{' '.join(self.words)}: it doesn't listen: {self.said}")
        return self

    def __exit__(self, *_: object) -> None:
        self.end(self.ends_by)


class Service(Server):
    """The service of a program. With a number of connections it ends on its own after these, and the end of the `with`
    waits for that.
    """

    def __init__(self, program: str, *words: str, conf: str = CONF, port: int = 0, connections: int = 0,
                 **how: Any) -> None:
        """`words` follow the others."""
        self.connections, port = connections, port or free_port()
        super().__init__([program, "serve", "--conf", conf, "--port", str(port),
                          *(["--connections", str(connections)] if connections else []), *words], port, **how)

    def __exit__(self, *fault: object) -> None:
        if self.connections and not any(fault):
            self.wait()
        else:
            super().__exit__()

    def ask(self, method: str, path: str, body: Optional[bytes] = None,
            fields: Mapping[str, str] = {}) -> tuple[int, bytes]:
        """The code and the body of the answer to one request."""
        connection = http.client.HTTPConnection("127.0.0.1", self.port, timeout=SECONDS)
        try:
            connection.request(method, path, body, dict(fields))
            reply = connection.getresponse()
            return reply.status, reply.read()
        finally:
            connection.close()

    def get(self, path: str) -> str:
        """The text of a page, whatever its code is."""
        return self.ask("GET", path)[1].decode()

    def post(self, path: str, text: str) -> str:
        """The text of the answer to a body."""
        return self.ask("POST", path, text.encode())[1].decode()
