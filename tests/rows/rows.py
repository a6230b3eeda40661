"""Reads the rows and their statements, and gives what is due: by the statement where it is whole, else by model.py."""
import os
import re
from model import Office, SENDERS

HERE = os.path.dirname(os.path.abspath(__file__))
CRATE = os.path.join(HERE, "..", "..", "crates", "cases_program")
# What the program prints after the rows: its parts, each with `right`.
PARTS = re.compile(r"\n((?:[a-z]+, [a-z ]+: right\n)+)\Z")
LETTERS = {"n": "\n", "r": "\r", "f": "\xff", "x": "x" * 65498, "y": "y" * 8167}
OMITTED = ".."
OVER_TABLES = "over tables:\n"


def read(folder, name):
    with open(os.path.join(folder, name), encoding="utf-8") as f:
        return f.read()


def printed():
    """What the program prints for the rows, and what it prints after them for its parts."""
    text = read(CRATE, "stdout")
    place = PARTS.search(text).start(1)
    return text[:place], text[place:]


def rows_of(text):
    """The rows of a text: the name of each, and its lines."""
    assert text.startswith("=== ") and text.endswith("\n")
    parts = [part.partition("\n") for part in ("\n" + text[:-1]).split("\n=== ")[1:]]
    return [(name, rest + "\n" if end else "") for name, end, rest in parts]


def steps_of(lines):
    """The steps of a row: the words of each, and its text without the last line end."""
    parts = [part.partition("\n") for part in ("\n" + lines).rstrip("\n").split("\n> ")[1:]]
    return [(what, text) for what, _, text in parts]


def mail(texts):
    return "".join("mail %d\n%s" % (len(text), text) for text in texts)


def chain(builds, last):
    """The bag of a chain: each package depends on the next one, and the last one on another name."""
    texts = ["From: ftp\nNumber: 1\nKind: upload\nSource: chain\nVersion: 1\nUrgency: critical\nDay: 2025-03-01\n"]
    for b in range(builds):
        text = "From: bd\nNumber: %d\nKind: build\n" % (b + 1)
        for p in range(b * 50, b * 50 + 50):
            depends = last if p + 1 == builds * 50 else "c%d" % (p + 1)
            text += "\nPackage: c%d\nVersion: 1\nArchitecture: amd64\nSource: chain\nDepends: %s\n" % (p, depends)
        texts.append(text)
    return mail(texts + ["From: clock\nNumber: 1\nKind: run\nDay: 2025-03-01\nCovers: ftp 1, bd %d\n" % builds])


def bag_of(what, text):
    """The bytes of the bag of a step that replays one, each as a letter, else None."""
    if what == "bag" or what.startswith("fail-"):
        return mail([t + "\n" for t in text.split("\n--\n")] if text else [])
    if what == "bytes":
        return re.sub(r"\\(.)", lambda m: LETTERS.get(m.group(1), m.group(1)), text.replace("\n", ""))
    if what.startswith("chain "):
        return chain(int(what.split()[1]), what.split()[2])
    return None


def texts_of(bag):
    """The whole messages of a bag, and how it is refused, if it is."""
    texts = []
    while bag:
        m = re.match(r"mail (0|[1-9][0-9]{0,8})\n", bag)
        if m is None:
            return texts, "Truncated" if re.fullmatch(r"m?|ma|mai|mail|mail ([1-9][0-9]{0,8}|0)?", bag) else "BadHeader"
        end = m.end() + int(m.group(1))
        if len(bag) < end:
            return texts, "Truncated"
        texts.append(bag[m.end():end])
        bag = bag[end:]
    return texts, None


def replayed(office, what, text, stated):
    """What the model prints for a step that replays a bag, where the statement of this step gives the refusals of texts."""
    bag, fault, number = bag_of(what, text), None, int(what.split()[1]) if what.startswith("fail-") else 0
    if what.startswith("fail-read") and 0 < number <= len(bag) + 1:
        bag, fault = bag[:number - 1], "ReadFault"
    texts, cut = texts_of(bag)
    fault = fault or cut
    lines = [line for line in stated if re.match("held |refused ", line)]
    told = [(line, t) if line.startswith("refused ") and line != "refused OtherText" else t
            for line, t in zip(lines, texts)]
    out = office.replay(told + texts[len(told):], "bag refused %s\n" % fault if fault else "")
    status = 3 if fault else 0
    if what.startswith("fail-write"):
        whole = len(out)
        out = out[:number - 1] if 0 < number <= whole else out
        return "output of %d bytes\n%s\nstatus %d\n" % (len(out), out, 4 if len(out) < whole else status)
    return "%sstatus %d\n" % (out, status)


def judged(lines, statement):
    """What the model prints for a row in memory, or None where the row has a step that it doesn't know."""
    parts, office, out = [], Office(), ""
    for line in statement.split("\n"):
        if not parts or parts[-1][-1:] and parts[-1][-1].startswith("status "):
            parts.append([])
        parts[-1].append(line)
    steps = steps_of(lines)
    for place, (what, text) in enumerate(steps, 1):
        if what == "reopen" or what.startswith("sql ") or what == "check" and place < len(steps):
            continue
        if what == "check":
            out += "whole %d runs\nstatus 0\n" % office.finished
            continue
        if what == "asked":
            out += "".join(line + "\n" for line in statement.split("\n") if re.match("counted |asked ", line))
            continue
        if what == "facts":
            out += office.told()
            continue
        if bag_of(what, text) is None:
            return None
        out += replayed(office, what, text, parts.pop(0) if parts else [])
    return out


def agrees(statement, due):
    """Whether what is due is the statement; a line `..` means any lines."""
    form = "".join("(?:.*\n)*?" if line == OMITTED else re.escape(line + "\n") for line in statement.split("\n")[:-1])
    return re.fullmatch(form, due) is not None


def in_memory(statement):
    """What a statement says of the office in memory."""
    return statement.partition(OVER_TABLES)[0]


def is_whole(statement):
    return OMITTED not in statement.split("\n")


def random_rows():
    """The random rows: the name and the lines of each."""
    return rows_of(read(CRATE, "data/random_rows"))


def all_rows():
    """Each row: its name, its lines, its statement. Of a random row nothing is stated."""
    rows, stated = rows_of(read(CRATE, "stdin")), rows_of(read(HERE, "statements"))
    assert [name for name, _ in rows] == [name for name, _ in stated], "the rows and the statements have other names"
    all_of_them = [(name, lines, statement) for (name, lines), (_, statement) in zip(rows, stated)]
    all_of_them += [(name, lines, OMITTED + "\n") for name, lines in random_rows()]
    assert len({name for name, _, _ in all_of_them}) == len(all_of_them), "two rows have one name"
    return all_of_them


def due(lines, statement):
    return statement if is_whole(statement) else judged(lines, statement)
