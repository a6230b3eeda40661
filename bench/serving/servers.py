"""A server that is asked, and the processor time that it takes."""
import os
import signal
import socket
import sys

sys.path.insert(0, os.path.join(os.path.dirname(os.path.realpath(__file__)), "..", "..", "tests"))
import serving  # noqa: E402


class Server(serving.Server):
    """A server on a port of its own, and its requests. In its words `{port}` stands for the port."""

    def __init__(self, words):
        port = serving.free_port()
        super().__init__([word.format(port=port) for word in words], port)
        self.__enter__()

    def ask(self, request):
        with socket.create_connection(("127.0.0.1", self.port)) as client:
            client.sendall(request)
            reply = b""
            while part := client.recv(1 << 20):
                reply += part
        if not reply.startswith(b"HTTP/1.1 200"):
            sys.exit(f"answered: {reply[:200]!r}")
        return reply

    def processor_time(self):
        """Nanoseconds that its one thread has run."""
        with open(f"/proc/{self.process.pid}/schedstat", encoding="ascii") as said:
            return int(said.read().split()[0])

    def time(self, request, count):
        """Microseconds of processor for each of that many requests."""
        before = self.processor_time()
        for _ in range(count):
            self.ask(request)
        return (self.processor_time() - before) / count / 1000

    def end(self, number=signal.SIGTERM):
        return super().end(number)


def get(path):
    return f"GET {path} HTTP/1.1\r\nHost: here\r\n\r\n".encode()


def post_to(path, body):
    return b"POST %s HTTP/1.1\r\nHost: here\r\nContent-Length: %d\r\n\r\n%s" % (path.encode(), len(body), body)


def post(message):
    return post_to("/mail", message)
