"""The questions of the program `office`, answered by a running office.

Each function returns the bytes that the command of the same name prints over a stopped store, and its exit status. A
route answers most of them. The others are put to the program over a copy of the office's mail.
"""
import http.client
import re
from dataclasses import dataclass
from typing import Optional, Sequence

from office_tools.ask.copy import Answer, Copy
from office_tools.faults import Exit, Fault
from office_tools.service import Reply, Service
from office_tools.trials import lines_of

LONGEST_BODY = 65536  # bytes of a request's body
SHORTEST_CUT = 3_900_000  # an answer that the service cuts has more bytes
CUT = re.compile(rb"\nleft out \d+ lines\n\Z")
SOURCE = re.compile(r"[a-z0-9][a-z0-9+.-]+")
CHANGE = re.compile(rb"^[-+](excuse|update|testing) ", re.MULTILINE)
HINT_REFUSED = re.compile(r"'.*': refused ", re.DOTALL)
UNKNOWN = re.compile(rb"^unknown ", re.MULTILINE)
UNMOVED = ("stuck ", "unknown ", "in testing ", "source ")  # how a proposal's lines on a source that doesn't move begin
WAITS_FOR_MAIL = re.compile(rb"^run \d+ waits for \S+ \d+ of \d+$", re.MULTILINE)
LAST_RUNS_DAY = "1970-01-01"  # a trial takes the later of its day and the last run's
UNDATED = "office-ask: no run is finished: name the day of the next one by --day\n"


@dataclass(frozen=True)
class Next:
    """What is asked of the next run: its day, if one is stated, and whether it covers all mail."""

    day: Optional[str]
    is_all: bool

    @property
    def words(self) -> Sequence[str]:
        """The same as words of a command."""
        return [*(["--day", self.day] if self.day else []), *(["--all"] if self.is_all else [])]


class Questions:
    """A running office, and the copy of it for what no route answers."""

    def __init__(self, service: Service, copy: Copy) -> None:
        self.service = service
        self.copy = copy

    def plain(self, path: str, words: Sequence[str]) -> Answer:
        """What a command prints that a route answers; a text that is cut comes from the copy, over a store."""
        body = self.service.good(path)
        return self.copy.ask_store(words) if is_cut(body) else Answer(body)

    def mail(self, is_list: bool) -> Answer:
        """How much mail is kept of each sender, or each message in a line."""
        return self.copy.ask_store(["mail", "--list"]) if is_list else self.plain("/kept", ["mail"])

    def waiting(self) -> Answer:
        """What the first run that isn't ready waits for: status 1 if an ordered run waits for mail."""
        body = self.service.good("/waiting")
        return Answer(body, Exit.NEGATIVE if WAITS_FOR_MAIL.search(body) else Exit.DONE)

    def report(self, path: str) -> Answer:
        """A report: nothing and status 1 if its run isn't finished."""
        reply = self.service.get(path)
        if is_refused(reply, "NoRun"):
            return Answer(b"", Exit.NEGATIVE, self.unfinished(path.rpartition("/")[2]))
        return Answer(self.service.body(path, reply))

    def unfinished(self, run: str) -> str:
        """The sentence on a run that isn't finished."""
        return f"office-ask: run {run} isn't finished: {self.service.status().finished} are\n"

    def why(self, sources: Sequence[str], run: Optional[int]) -> Answer:
        """Why sources are where a run left them: the last one if none is named."""
        finished = self.service.status().finished
        if run is not None and run < finished:
            return self.copy.ask(["why", "--run", str(run), *sources])
        if not finished or (run is not None and run > finished):
            return Answer(b"", Exit.NEGATIVE, self.unfinished(str(run or 1)))
        parts = [self.why_source(source, finished) for source in sources]
        if any(is_cut(part.text) for part in parts):
            return self.copy.ask(["why", *sources])
        return joined(parts)

    def why_source(self, source: str, finished: int) -> Answer:
        """Why a source is where the last run left it. No route has a word that is no name of a source."""
        unknown = Answer(f"why {finished} {source}\nunknown {source}\n".encode(), Exit.NEGATIVE)
        if not SOURCE.fullmatch(source):
            return unknown
        reply = self.service.get(f"/why/{source}")
        return unknown if is_refused(reply, "NoSource") else Answer(self.service.body(f"/why/{source}", reply))

    def why_hints(self, numbers: Sequence[str], run: Optional[int]) -> Answer:
        """What a run made of the hints of these numbers, by the copy: no route answers it."""
        asked = [] if run is None else ["--run", str(run)]
        return self.copy.ask(["why", "--hint", *asked, *numbers])

    def breaks(self, changes: Sequence[str], run: Optional[int]) -> Answer:
        """What changes would break where a run left testing: the last one if none is named."""
        finished = self.service.status().finished
        words = ["breaks", *([] if run is None else ["--run", str(run)]), *changes]
        if run is not None and run < finished:
            return self.copy.ask(words)
        if not finished or (run is not None and run > finished):
            return Answer(b"", Exit.NEGATIVE, self.unfinished(str(run or 1)))
        parts: list[Answer] = []
        for change in changes:
            part = self.breaks_by(change)
            if part is None or is_cut(part.text):
                return self.copy.ask(words)
            parts.append(part)
            if part.status == Exit.REFUSED:
                break
        return joined(parts)

    def breaks_by(self, change: str) -> Optional[Answer]:
        """What a change would break where the last run left testing; None if no request asks for it."""
        body = change.encode()
        if len(body) > LONGEST_BODY or "\n" in change or change.endswith("\r"):
            return None
        reply = self.service.post("/breaks", body)
        if is_refused(reply, "NoRoute"):
            return None
        if reply.status == http.client.BAD_REQUEST and HINT_REFUSED.match(reply.text):
            return Answer(b"", Exit.REFUSED, f"office-ask: {reply.text}\n")
        told = self.service.body("/breaks", reply)
        return Answer(told, Exit.NEGATIVE if UNKNOWN.search(told) else Exit.DONE)

    def trial(self, hints: Sequence[str], on: Next) -> Answer:
        """What hints would change in the next run: status 1 if nothing, 3 if one of them is refused."""
        body = lines_of(hints)
        has_line_ends = any("\n" in hint or hint.endswith("\r") for hint in hints)
        if has_line_ends or len(body) > LONGEST_BODY or (on.day and not on.is_all):
            return self.copy.ask(["try", *on.words, *hints])
        if not on.day and not self.service.status().finished:
            return Answer(b"", Exit.REFUSED, UNDATED)
        path = f"/try/{on.day or LAST_RUNS_DAY}" if on.is_all else "/try"
        reply = self.service.post(path, body)
        if reply.status == http.client.BAD_REQUEST and HINT_REFUSED.match(reply.text):
            return Answer(b"", Exit.REFUSED, f"office-ask: {reply.text}\n")
        if is_refused(reply, "TooManyHints"):
            return self.copy.ask(["try", *on.words, *hints])
        told = self.service.body(path, reply)
        if is_cut(told):
            return self.copy.ask(["try", *on.words, *hints])
        return Answer(told, Exit.DONE if CHANGE.search(told) else Exit.NEGATIVE)

    def propose(self, sources: Sequence[str], on: Next) -> Answer:
        """Hints for groups that would move: status 1 if there is none, or if the run doesn't move a named source."""
        words = ["propose", *on.words, *sources]
        for source in sources:
            if not SOURCE.fullmatch(source):
                return Answer(b"", Exit.USAGE, f"office-ask: {source!r}: no name of a source\n")
        is_dated = bool(on.is_all and not sources and (on.day or self.service.status().finished))
        if len(sources) > 1 or (on.words and not is_dated):
            return self.copy.ask(words)
        path = f"/propose/{on.day or LAST_RUNS_DAY}" if is_dated else "/".join(["/propose", *sources])
        reply = self.service.get(path)
        if is_refused(reply, "NoRun"):
            return Answer(b"", Exit.REFUSED, UNDATED)
        body = self.service.body(path, reply)
        status = proposal_status(body, sources)
        return self.copy.ask(words) if is_cut(body) or status is None else Answer(body, status)


def is_refused(reply: Reply, name: str) -> bool:
    """Whether an answer is the refusal of this name."""
    return not reply.is_good and reply.text == f"refused {name}"


def proposal_status(body: bytes, sources: Sequence[str]) -> Optional[int]:
    """The exit status of a proposal; None if its text doesn't say whether the run moves the source."""
    if not sources:
        return Exit.DONE if body else Exit.NEGATIVE
    lines = body.decode(errors="backslashreplace").splitlines()
    if any(line.startswith(UNMOVED) for line in lines):
        return Exit.NEGATIVE
    return 0 if any(f" {sources[0]}/" in line for line in lines if line.startswith("easy ")) else None


def joined(parts: Sequence[Answer]) -> Answer:
    """Several answers as one, with the greatest status."""
    return Answer(b"".join(part.text for part in parts), max(part.status for part in parts),
                  "".join(part.told for part in parts))


def is_cut(body: bytes) -> bool:
    """Whether the service left out the end of an answer."""
    return len(body) > SHORTEST_CUT and CUT.search(body[-100:]) is not None


def path_of(words: Sequence[str]) -> str:
    """The route of a report by the words that follow `report`; words that name none are a `Fault` of status 2."""
    if list(words) in (["testing"], ["unstable"]):
        return f"/{words[0]}"
    found = re.fullmatch(r"\+?0*([1-9][0-9]{0,9}) (excuses|update)", " ".join(words))
    if found is None:
        raise Fault(f"{' '.join(words)!r}: no report: name testing or unstable, or a run and excuses or update",
                    Exit.USAGE)
    return f"/{found[2]}/{found[1]}"
