"""The rows of the rules in crates/cases_libraries, and what is due for them."""
import os
from datetime import date
from judge import Suite, run
from mail import SENDERS, Mail

HERE = os.path.dirname(os.path.abspath(__file__))
CRATE = os.path.join(HERE, "..", "..", "crates", "cases_libraries")
ROWS = os.path.join(CRATE, "data", "rule_rows")
SUITES = os.path.join(CRATE, "data", "random_suites")
DRAWN = os.path.join(CRATE, "data", "drawn_rows")
DUE = os.path.join(CRATE, "stdout")
STATEMENTS = os.path.join(HERE, "statements")


def read(path):
    with open(path, encoding="utf-8") as f:
        return f.read()


def rows_of(text):
    """The rows of a text: each what it is about, and the lines below that. Text before the first row is none."""
    return [row.partition("\n")[::2] for row in ("\n" + text[:-1]).split("\n=== ")[1:]]


def parts():
    """The parts of stdout: what is due for the rows of the low libraries, the last one drawn, and for these."""
    text, last = read(DUE), "=== %s\n" % rows_of(read(DRAWN))[-1][0]
    end = text.index("\n=== ", text.index(last)) + 1
    return text[:end], text[end:]


def given(mail, suite, lines):
    """Puts rows into testing, each with its source: a line names a sender, a number and a place."""
    for line in lines:
        sender, number, place = line.split()
        at = (SENDERS.index(sender), int(number), int(place))
        suite.put(next(row for row in mail.builds if row.at == at))


def due(steps):
    """What is due for the steps of a row."""
    mail, suite, runs, lines = Mail(), Suite(), 0, []
    for step in ("\n" + steps).split("\n> ")[1:]:
        what, _, text = step.partition("\n")
        word, _, value = what.partition(" ")
        if word == "mail":
            for message in text.split("\n--\n"):
                mail.take(message)
        elif word == "given":
            runs = int(value)
            given(mail, suite, text.split("\n"))
            lines += suite.text(runs)
        else:
            assert word == "run", step
            runs += 1
            said, suite = run(mail, suite, runs, date.fromisoformat(value))
            lines += said
    return "".join(line + "\n" for line in lines)


def due_rows(text):
    """What is due for each row of a text."""
    return [(about, due(steps)) for about, steps in rows_of(text)]


def printed(rows):
    return "".join("=== %s\n%s" % row for row in rows)
