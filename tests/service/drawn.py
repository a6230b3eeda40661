"""Mail and hints that are drawn by seeds, for the scripts of this folder."""
import random
from asked import RELEASE, unbroken
from model import SENDERS, paragraphs
from reopened_rows import row_of
from rows import rows_of, steps_of


def texts_of(seed):
    """The mail of a seed, without some of its messages."""
    ((_, lines),) = rows_of(row_of(seed))
    texts = [text + "\n" for what, step in steps_of(lines) if what == "bag" for text in step.split("\n--\n")]
    draw = random.Random(seed)
    lost = draw.choice([0, 0.05, 0.05, 0.15, 0.3])
    return [text for text in texts if draw.random() >= lost]


def versions_of(office):
    """The sources that the mail names, each with versions that some message names or testing has, and one that none
    does."""
    found = {}
    for text in office.kept.values():
        first = paragraphs(text)[0]
        if first["kind"] == "upload":
            found.setdefault(first["source"], []).append(first["version"])
    for name, version in office.sources.items():
        found.setdefault(name, []).extend([version, "0:" + version])
    return {name: versions + ["9"] for name, versions in sorted(found.items())} or {"greeter": ["1"]}


def drawn_wishes(draw, office):
    """One to three hints, most meaning something."""
    versions = versions_of(office)
    names = [*versions, "nobody"]

    def item(name):
        return "%s/%s" % (name, draw.choice(versions.get(name, ["1"])))

    forms = [
        lambda: "block " + " ".join(draw.sample(names, draw.randint(1, 2))),
        lambda: "block-all source",
        lambda: "unblock " + item(draw.choice(names)),
        lambda: "remove " + item(draw.choice(names)),
        lambda: "age-days %d %s" % (draw.choice([0, 7, 9999]), item(draw.choice(names))),
        lambda: "easy " + " ".join(map(item, draw.sample(names, min(len(names), draw.randint(1, 3))))),
    ]
    return [draw.choice(forms)() for _ in range(draw.randint(1, 3))]


def none(sender, number, size=0):
    """A message that says nothing, of that many bytes if that is enough."""
    text = "From: %s\nNumber: %d\nKind: none\n" % (sender, number)
    return text if size <= len(text) + 7 else text + "Note: " + "x" * (size - len(text) - 7) + "\n"


def long_mail(draw, number):
    """Messages of a sender from a number on, so long that its bag has several parts, some of them just full."""
    texts, room = [], 65536
    for _ in range(draw.randint(2, 6)):
        size = draw.choice([200, 9000, 30000, 65536, room - 11, room - 10, room - 9])  # its line `mail N` has 11 bytes
        texts.append(none("bts", number, min(max(size, 60), 65536)))
        number += draw.choice([1, 1, 1, 1, 3])
        room = room - len(texts[-1]) - 11 if room > len(texts[-1]) + 100 else 65536
    return texts


def more_mail(draw, office):
    """Mail after what an office keeps: hints and their cancelling, long messages, and some after a gap."""
    number, texts = unbroken(office.kept, RELEASE) + 1, []
    for _ in range(draw.randint(1, 4)):
        for wish in drawn_wishes(draw, office):
            texts.append(
                "From: rt\nNumber: %d\nKind: hint\nHint: %s\n"
                % (number, wish.replace(" ", draw.choice([" ", "  "]), 1))
            )
            number += draw.choice([1] * 9 + [2])
        if draw.random() < 0.4:
            texts.append("From: rt\nNumber: %d\nKind: unhint\nCancels: %d\n" % (number, draw.randint(1, number)))
            number += 1
    if draw.random() < 0.4:
        texts += long_mail(draw, unbroken(office.kept, SENDERS.index("bts")) + 1)
    if draw.random() < 0.3:
        texts.append(none("ftp", unbroken(office.kept, 0) + draw.randint(1, 3)))
    taken = {(SENDERS[of], number) for of, number in office.kept}
    return [text for text in texts if (paragraphs(text)[0]["from"], int(paragraphs(text)[0]["number"])) not in taken]
