"""office-ask: puts the questions of the program to a running office."""
import argparse
import re
import sys
from typing import Callable, Mapping, Sequence

from office_tools.ask.copy import Answer, Copy
from office_tools.ask.questions import Next, Questions, path_of
from office_tools.days import day
from office_tools.service import DEFAULT_URL, service_at

CONF = "/etc/office/setup.conf"
SECONDS = 600.0  # a proposal over a large archive takes long, and the service answers one request at a time

FEWEST: Mapping[str, int] = {"why": 1, "breaks": 1, "try": 1, "propose": 0, "hints": 0, "runs": 0, "waiting": 0,
                             "report": 1, "unstable": 0, "mail": 0, "order": 0}
"""The questions, and how many words each needs behind it."""

HAS_WORDS = ("why", "breaks", "try", "propose", "report")
OPTIONS: Mapping[str, Sequence[str]] = {"run": ("why", "breaks"), "hint": ("why",), "day": ("try", "propose", "order"),
                                        "all": ("try", "propose"), "list": ("mail",)}
"""Which questions take an option that not all take."""


def number(text: str) -> int:
    """A number from 1 on, as the program takes it: decimal digits, maybe with a plus sign and leading zeros."""
    if not re.fullmatch(r"\+?0*[1-9][0-9]{0,18}", text):
        raise ValueError(text)
    return int(text.lstrip("+0"))


def parser() -> argparse.ArgumentParser:
    """The command's words."""
    words = argparse.ArgumentParser(
        prog="office-ask",
        description="Asks a running office what the program office answers over the store of a stopped one: the same "
                    "text, and the same exit status.",
        epilog="Status 0: done. 1: no, as the command of the program has it. 2: the words are wrong. 3: a hint was "
               "refused, or the next run has no day. 4: no office answers.")
    words.add_argument("--url", metavar="URL", default=DEFAULT_URL, help=f"the service ({DEFAULT_URL})")
    words.add_argument("--conf", metavar="SETUP", default=CONF,
                       help=f"the office's setup, for questions that no route answers ({CONF})")
    words.add_argument("--run", type=number, metavar="RUN", help="why, breaks: a finished run; without it the last one")
    words.add_argument("--hint", action="store_true", help="why: the words are numbers of hints")
    words.add_argument("--day", type=day, metavar="DAY", help="try, propose, order: the day of the next run")
    words.add_argument("--all", action="store_true", help="try, propose: the run covers all mail without a gap")
    words.add_argument("--list", action="store_true", help="mail: each message in a line")
    words.add_argument("question", metavar="QUESTION", choices=FEWEST,
                       help="why SOURCE.., breaks SOURCE|HINT.., try HINT.., propose [SOURCE..], hints, runs, waiting, "
                            "report RUN excuses, report RUN update, report testing, unstable, mail, or order")
    words.add_argument("words", metavar="WORD", nargs="*", help="what it asks about")
    return words


def read_words(words: Sequence[str]) -> argparse.Namespace:
    """The words, read; the process ends with status 2 if they are wrong."""
    known = parser()
    asked = known.parse_intermixed_args(words)
    question = asked.question
    for option, takers in OPTIONS.items():
        if getattr(asked, option) not in (None, False) and question not in takers:
            known.error(f"--{option} doesn't go with {question}")
    if len(asked.words) < FEWEST[question]:
        known.error(f"{question} needs a word")
    if asked.words and question not in HAS_WORDS:
        known.error(f"{question} takes no word: {asked.words[0]!r}")
    if question == "order" and not asked.day:
        known.error("order needs --day")
    for word in asked.words:
        if any("\udc80" <= character <= "\udcff" for character in word):
            known.error("the words can't be read: one isn't UTF-8")
    return asked


def answer(asked: argparse.Namespace) -> Answer:
    """The answer to what the words ask for."""
    service = service_at(asked.url, seconds=SECONDS)
    questions = Questions(service, Copy(service, asked.conf))
    answers: Mapping[str, Callable[[], Answer]] = {
        "why": lambda: (questions.why_hints if asked.hint else questions.why)(asked.words, asked.run),
        "breaks": lambda: questions.breaks(asked.words, asked.run),
        "try": lambda: questions.trial(asked.words, next_of(asked)),
        "propose": lambda: questions.propose(asked.words, next_of(asked)),
        "report": lambda: questions.report(path_of(asked.words)),
        "unstable": lambda: questions.report("/unstable"),
        "mail": lambda: questions.mail(asked.list),
        "order": lambda: Answer(service.order(asked.day)),
        "hints": lambda: questions.plain("/hints", ["hints"]), "runs": lambda: questions.plain("/runs", ["runs"]),
        "waiting": questions.waiting}
    return answers[asked.question]()


def next_of(asked: argparse.Namespace) -> Next:
    """What is asked of the next run."""
    return Next(asked.day.isoformat() if asked.day else None, asked.all)


def main(words: Sequence[str]) -> int:
    """Prints the answer."""
    found = answer(read_words(words))
    sys.stdout.buffer.write(found.text)
    sys.stdout.buffer.flush()
    sys.stderr.write(found.told)
    return found.status
