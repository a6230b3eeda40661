"""What a running office prints in addition to its reports, by model.py: its hints, unstable, the next order, and parts
of its mail as a bag. Also the replies to mail bound to a sender or only looked at, and trials over all mail."""
from asked import CLOCK, RELEASE, next_run, tried, unbroken
from model import ARCHS, SENDERS, paragraphs, vcmp


ROOM = 65536  # bytes of a part of a bag; its first message stands there whatever its length is
ANY_DAY = "1970-01-01"


def reached(office):
    """Up to which number of each sender no mail is missing."""
    return [unbroken(office.kept, place) for place in range(len(SENDERS))]


def seen(office):
    """What the next run knows if its order covers all mail without a gap."""
    return next_run(office, reached(office), ANY_DAY, []).known


def is_at(version, other):
    return other is not None and vcmp(version, other) == 0


def state_of(word, name, version, unstable, testing):
    """The state of an item of a hint in force; one of `block` has no version."""
    if word == "block-all":
        return "in force"
    if unstable is None:
        return "no source"
    if not version:
        return "in force"
    if is_at(version, testing):
        return "in force" if word == "remove" else "moved"
    return "in force" if is_at(version, unstable) else "unstable " + unstable


def hints(office):
    """Each item of each hint in force, and its state."""
    known = seen(office)
    cover = office.covers(office.finished)[0][RELEASE] if office.finished else 0
    text = "hints %d\n" % office.finished
    for number, words in known.hints:
        front = words[:2] if words[0] == "age-days" else words[:1]
        for item in words[len(front) :]:
            name, _, version = item.partition("/")
            unstable = known.sources[name][1] if name in known.sources else None
            state = state_of(words[0], name, version, unstable, office.sources.get(name))
            age = "covered" if number <= cover else "new"
            text += "%s %d %s %s %s: %s\n" % (SENDERS[RELEASE], number, age, " ".join(front), item, state)
    return text


def unstable(office):
    """The sources and the rows that the next run sees if its order covers all mail without a gap."""
    known = seen(office)
    text = "unstable %d\n" % office.finished
    text += "".join("source %s %s\n" % (name, known.sources[name][1]) for name in sorted(known.sources))
    places = ARCHS + ["all"]
    for arch, package in sorted(known.rows, key=lambda key: (places.index(key[0]), key[1])):
        row = known.rows[arch, package]
        text += "binary %s %s %s %s\n" % (arch, package, row["version"], row["source"])
    return text


def order(office, day):
    """The next order, over all mail without a gap; a sender of whom nothing is kept isn't named."""
    numbers = reached(office)
    covers = ["%s %d" % (SENDERS[place], number) for place, number in enumerate(numbers) if place != CLOCK and number]
    front = "From: %s\nNumber: %d\nKind: run\nDay: %s\n" % (SENDERS[CLOCK], numbers[CLOCK] + 1, day)
    return (
        front
        + "Covers:"
        + "".join(" " + covers[0] if place == 0 else ", " + cover for place, cover in enumerate(covers))
        + "\n"
    )


def framed(text):
    return "mail %d\n%s" % (len(text.encode()), text)


def bag(office, sender, first):
    """The mail of a sender from a number on, as much of it as has room, and one message at least where there is one."""
    part = ""
    for (of, number), text in sorted(office.kept.items()):
        if of == sender and number >= first:
            if part and len((part + framed(text)).encode()) > ROOM:
                break
            part += framed(text)
    return part


def parts(office, sender):
    """All parts of the bag of a sender: the number from which each one is asked for, and its text."""
    first, told = 1, []
    while True:
        part = bag(office, sender, first)
        told.append((first, part))
        if not part:
            return told
        numbers = sorted(number for of, number in office.kept if of == sender and number >= first)
        first = numbers[part.count("From: ") - 1] + 1  # each message of this mail has this field once


def reply(office, text, refusal=None):
    """The code and the reply to a message that is delivered. `refusal` says how a text that is no message is
    refused."""
    if refusal:
        return 413 if refusal == "TooLong" else 400, "refused %s\n" % refusal
    first = paragraphs(text)[0]
    key = SENDERS.index(first["from"]), int(first["number"])
    if office.kept.get(key, text) != text:
        return 409, "refused OtherText\n"
    return 200, "held %s %d\n" % (first["from"], key[1])


def bound_reply(office, name, text, refusal=None):
    """The same where the message is posted as mail of one sender."""
    if name not in SENDERS:
        return 404, "refused NoRoute\n"
    if not refusal and paragraphs(text)[0]["from"] != name:
        return 403, "refused OtherSender\n"
    return reply(office, text, refusal)


def tried_on(office, wishes, day):
    """What a trial over all mail prints, on this day or the last run's, whichever is later."""
    return tried(office, wishes, day, True)[0]
