"""What the scripts of this folder share that ask a program and a service many questions: counts, calls, requests."""
import os
import subprocess
import sys
sys.path.insert(0, os.path.join(os.path.dirname(os.path.abspath(__file__)), ".."))
import serving

CONF = serving.CONF


class Service(serving.Service):
    """A running service whose questions and answers are texts."""

    def ask(self, method, path, body=None):
        """The code and the text of an answer."""
        code, told = super().ask(method, path, body if body is None else body.encode())
        return code, told.decode()


class Tries:
    """What was tried of the program that the words of a script name, and what wasn't as it is due."""

    def __init__(self, words, port):
        self.program = os.path.abspath(words[1])
        self.stated = words[2] if len(words) > 2 else ""
        self.port = int(words[3]) if len(words) > 3 else port
        self.faults, self.tried = [], 0

    def want(self, what, due, got):
        self.tried += 1
        if due != got:
            self.faults.append("%s: due %r, got %r" % (what, due, got))

    def seeds(self, usual):
        first, _, last = (self.stated or usual).partition("-")
        return range(int(first), int(last or first) + 1)

    def run(self, *words, bag=""):
        """What a command prints, what it prints on standard error, and its status."""
        ran = subprocess.run([self.program, *words], input=bag.encode(), capture_output=True, timeout=60)
        return ran.stdout.decode(), ran.stderr.decode(), ran.returncode

    def call(self, *words, bag=""):
        """What a command prints, and its status."""
        told, _, status = self.run(*words, bag=bag)
        return told, status

    def serving(self, connections, *more):
        """A service that ends after that many connections."""
        return Service(self.program, *more, port=self.port, connections=connections)

    @staticmethod
    def bytes_of(path):
        with open(path, "rb") as file:
            return file.read()

    def end(self):
        """Prints the result, and ends with a status that says so."""
        for fault in self.faults:
            print("FAIL", fault)
        print("%d tried, %d faults" % (self.tried, len(self.faults)))
        sys.exit(1 if self.faults else 0)
