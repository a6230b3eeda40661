"""What `office breaks` tells, by model.py: two whole solutions of each architecture, and the rows between them."""
from asked import shown_fault, state
from model import ARCHS, Refused, vcmp, works

# How many broken rows of an architecture have lines.
TOLD = 100


def is_same(version, other):
    return version is not None and other is not None and vcmp(version, other) == 0


def change_of(office, words):
    """The sources that come in by a change, those that leave, and the lines of what can't change; None for words that
    name no change."""
    first, *items = words.split()
    unstable = {name: upload[1] for name, upload in office.known.sources.items()}
    pairs = [item.split("/", 1) for item in items]
    if not items:
        moving = first in unstable and not is_same(office.sources.get(first), unstable[first])
        return [first] if moving else [], [], [] if first in unstable else ["unknown " + first]
    if first == "easy":
        offered = [(name, version) for name, version in pairs if is_same(unstable.get(name), version)]
        unknown = ["unknown %s/%s" % pair for pair in map(tuple, pairs) if pair not in offered]
        return [name for name, version in offered if not is_same(office.sources.get(name), version)], [], unknown
    if first == "remove":
        there = [name for name, version in pairs if is_same(office.sources.get(name), version)]
        return [], there, ["unknown %s/%s" % (n, v) for n, v in pairs if not is_same(office.sources.get(n), v)]
    return None


def broken_on(place, old, new, coming):
    """The rows of an architecture that are watched, came in or worked, and don't work: those of its own first, by name."""
    (_, before), (_, after) = works(old), works(new)
    here = [key for key in new if key[0] == ARCHS[place] or (key[0] == "all" and place == 0)]
    named = [key for key in here if (new[key]["source"] in coming or (place, key[1], key[0]) in before)
             and (place, key[1], key[0]) not in after]
    return [new[key] for key in sorted(named, key=lambda key: (key[0] == "all", key[1]))]


def lines_of(office, change, arch, broken):
    """The lines of an architecture."""
    lines = ["broken %s %d" % (arch, len(broken))]
    for row in broken[:TOLD]:
        lines.append("uninstallable %s %s %s of %s" % (arch, row["package"], row["version"], row["source"]))
        offer = office.known.rows.get((row["arch"], row["package"]))
        lines.append("unstable nothing" if offer is None else "unstable %s %s of %s %s" % (
            offer["package"], offer["version"], offer["source"], state(office.known, change, offer)))
    return lines + (["and %d more" % (len(broken) - TOLD)] if len(broken) > TOLD else [])


def breaks_fault(office, words, text):
    """What is wrong with a text on what a change breaks where an office's last run left testing; None if nothing is."""
    coming, leaving, unknown = change_of(office, words)
    new, came = office.known.moved(coming)
    rows = {key: row for key, row in new.items() if row["source"] not in leaving}
    change = Refused(0, office.known.offender(rows, came), coming, office.rows, rows, office.known.excuse)
    due = ["breaks %d %s" % (office.finished, words), *unknown]
    for place, arch in enumerate(ARCHS):
        due += lines_of(office, change, arch, broken_on(place, office.rows, rows, coming))
    lines = text.splitlines()
    if lines[:len(due)] != due:
        return "due %r, got %r" % (due, lines)
    shown = lines[len(due):]
    if coming and change.offender:
        return shown_fault(office.known, change, shown)
    return "more lines than are due: %r" % shown if shown else None
