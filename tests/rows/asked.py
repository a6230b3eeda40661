"""What `office try` prints, by model.py, and what is wrong with a text of `office why`."""
import copy
import datetime
import re
from model import ARCHS, Office, Refused, SENDERS, satisfies, vcmp

RELEASE, CLOCK = SENDERS.index("rt"), SENDERS.index("clock")
NEED = re.compile(r"(\d+) (\S+) (\S+) of (\S+) (comes in|in testing), needs (.+): "
                  r"(nothing|\d+(?: and \d+)*?)(?: and (\d+) more)?")
# How many numbers of lines a line prints, and how many refusals a trial explains.
TOLD, MOST_EXPLAINED = 12, 3


def unbroken(kept, sender):
    number = 0
    while (sender, number + 1) in kept:
        number += 1
    return number


def office_after(office, run):
    """An office as a run left it: all mail, but for the orders of later runs."""
    left = Office()
    for (sender, number), text in sorted(office.kept.items()):
        if sender != CLOCK or number <= run:
            left.deliver(text)
    return left


def next_run(office, covers, day, hints):
    """The office after its next run, of these covers and this day, with these hints after the covered ones."""
    late, run = copy.deepcopy(office), office.finished + 1
    last = [run - 1 if s == CLOCK else n for s, n in enumerate(covers)]
    late.kept = {(s, n): text for (s, n), text in office.kept.items() if n <= last[s]}
    for number, hint in enumerate(hints, covers[RELEASE] + 1):
        late.kept[RELEASE, number] = "From: rt\nNumber: %d\nKind: hint\nHint: %s\n" % (number, hint)
    covers = [*covers]
    covers[RELEASE] += len(hints)
    stated = ", ".join("%s %d" % (SENDERS[s], n) for s, n in enumerate(covers) if s != CLOCK and n)
    late.kept[CLOCK, run] = "From: clock\nNumber: %d\nKind: run\nDay: %s\nCovers: %s\n" % (run, day, stated)
    late.finished = run
    late.run(run)
    return late


def excuse_lines(report):
    """The lines of excuses, each inner one after its first line."""
    lines, front = [], ""
    for line in report.splitlines():
        front = front if line.startswith(" ") else line
        lines.append(front + line if line.startswith(" ") else line)
    return lines


def changes(kind, first, second):
    gone = ["-%s %s\n" % (kind, line) for line in first if line not in second]
    return "".join(gone + ["+%s %s\n" % (kind, line) for line in second if line not in first])


def tried(office, hints, day=None, of_all=False):
    """What hints would change in the next run, and the exit status of who asks; None where there is no date."""
    covers, last = office.covers(office.finished) if office.finished else ([0] * len(SENDERS), None)
    date = max(filter(None, [last, day]), default=None)
    if date is None:
        return None
    covers = [unbroken(office.kept, s) if s != CLOCK and (of_all or s == RELEASE) else n for s, n in enumerate(covers)]
    without, late = next_run(office, covers, date, []), next_run(office, covers, date, hints)
    run = office.finished + 1
    numbered = enumerate(hints, covers[RELEASE] + 1)
    text = "".join("try %d %s rt %d %s\n" % (run, date, number, hint) for number, hint in numbered)
    (excuses, update), (others, decided) = without.reports[run], late.reports[run]
    changed = changes("excuse", excuse_lines(excuses), excuse_lines(others))
    changed += changes("update", update.splitlines(), decided.splitlines())
    changed += changes("testing", without.testing().splitlines(), late.testing().splitlines())
    told = TriedText(text + changed)
    told.late, told.behind = late, covers[RELEASE]
    return told, 0 if changed else 1


class TriedText(str):
    """The text of a trial up to the lines on why hints are refused. It equals each text that continues with lines that
    show it."""

    def __eq__(self, told):
        due = [change for change in self.late.refused if change.number > self.behind]
        return told.startswith(str(self)) and trial_fault(self.late, due, told[len(self) :]) is None

    def __ne__(self, told):
        return not self == told

    __hash__ = str.__hash__


def sent_by(row):
    sender, number, _ = row["message"]
    return "%s %d" % (SENDERS[sender], number)


def later_lines(office, source, version):
    """Unstable's rows of a source at this version that testing doesn't have."""
    places, lines = ARCHS + ["all"], []
    for key, row in sorted(office.known.rows.items(), key=lambda it: (places.index(it[0][0]), it[0][1])):
        there = office.rows.get(key)
        if row["source"] == source and vcmp(row["source_version"], version) == 0 \
                and (there is None or vcmp(there["version"], row["version"]) != 0):
            lines.append("%s %s %s %s by %s" % ("rebuilt" if there else "not in testing", *key, row["version"],
                                                sent_by(row)))
    return lines


def origin_lines(office, source):
    """The state of a source, and the origin of the reasons that keep it out, over the testing that an office's last run
    left."""
    known, upload = office.known, office.known.sources.get(source)
    if upload is None:
        return ["unknown " + source]
    _, version, _, day, sender, number = upload
    lines, old = ["upload %s %d %s" % (SENDERS[sender], number, day)], office.sources.get(source)
    if old is not None and vcmp(old, version) == 0:
        lines = ["in testing " + version, *later_lines(office, source, version), *lines]
    _, need, aged, why = known.excuse(source) or (0, 0, [], [])
    for reason in why:
        words = reason.split()
        if reason == "too young":
            when = datetime.date.fromisoformat(day) + datetime.timedelta(days=need)
            lines.append("old enough on %s by %s" % (when, "rt %d" % max(aged) if aged else "urgency"))
        elif words[:2] == ["new", "bug"]:
            lines.append("new bug %s by bts %d" % (words[2], known.bugs[int(words[2])][0]))
        elif words[:2] == ["missing", "on"]:
            rows = sorted((key, r) for key, r in known.rows.items() if key[0] == words[2] and r["source"] == source)
            lines += ["missing on %s %s %s of %s by %s" % (*key, r["version"], r["source_version"], sent_by(r))
                      for key, r in rows]
        elif reason == "blocked":
            blocks = [n for n, h in known.hints if h[0] == "block-all" or h[0] == "block" and source in h[1:]]
            lines += ["blocked by rt %d" % n for n in blocks]
        elif reason == "removal asked":
            asked = known.named("remove", source, version) + (known.named("remove", source, old) if old else [])
            lines += ["removal asked by rt %d" % n for n in sorted({*asked})]
    return lines


def clause_text(clause):
    return " | ".join(name if op is None else "%s (%s %s)" % (name, {"<": "<=", ">": ">="}.get(op, op), version)
                      for name, op, version in clause)


def meets(row, clause):
    return any(satisfies(row, alternative) for alternative in clause)


def state(known, change, row):
    """The state of a row of unstable, if sources would come in."""
    of = row["source"]
    if of not in known.sources or vcmp(row["source_version"], known.sources[of][1]) != 0:
        return "isn't current"
    if of in change.coming:
        return "comes too"
    excuse = change.excuse(of)
    if excuse is None:
        return "is in testing"
    return "isn't a candidate: " + ", ".join(excuse[3]) if excuse[3] else "waits"


def on(arch, rows):
    """The rows on an architecture, in order."""
    places = ARCHS + ["all"]
    here = sorted((places.index(key[0]), key[1], key) for key in rows if key[0] in (arch, "all"))
    return [rows[key] for _, _, key in here]


def behind_nothing(known, change, clause):
    """The lines after one whose clause nothing meets."""
    arch = change.offender[0]
    lines = ["leaves %s %s" % (r["package"], r["version"]) for r in on(arch, change.old) if meets(r, clause)]
    offers = [r for r in on(arch, known.rows) if meets(r, clause)]
    lines += ["unstable %s %s of %s %s" % (r["package"], r["version"], r["source"], state(known, change, r))
              for r in offers]
    return lines if offers else lines + ["unstable nothing"]


def told_numbers(numbers, more):
    """The numbers of lines in a line, and how many more there are."""
    return [int(n) for n in numbers.split(" and ")] if numbers != "nothing" else [], int(more or 0)


def groundless_fault(needs, rows):
    """What is wrong with the numbers of lines: each line names the first of those whose rows meet its clause, and
    counts the others; None if nothing is."""
    for number, (_, clause, numbers, more) in enumerate(needs, 1):
        providers = sorted(id(r) for r in rows if meets(r, clause))
        due = [n for n, need in enumerate(needs, 1) if id(need[0]) in providers]
        if any(n <= number for n in due) or (numbers, more) != (due[:TOLD], max(len(due) - TOLD, 0)):
            return "line %d names another number" % number
        if sorted(id(needs[n - 1][0]) for n in due) != providers:
            return "line %d isn't groundless" % number
    return None


def need_of(line, rows, coming, number):
    """The row and the clause that a line of a refusal names, and which lines meet it; None for another line."""
    found = NEED.fullmatch(line)
    if found is None or int(found.group(1)) != number:
        return None
    _, package, version, of, place, text, numbers, more = found.groups()
    for row in rows:
        for clause in row["clauses"]:
            if (row["package"], row["version"], row["source"], clause_text(clause)) == (package, version, of, text) \
                    and (place == "comes in") == (of in coming):
                return row, clause, *told_numbers(numbers, more)
    return None


def shown_fault(known, change, lines):
    """What is wrong with the lines that show why a change is refused; None if nothing is."""
    arch, package = change.offender
    here, needs, rest = on(arch, change.new), [], [*lines]
    while rest:
        line, found = rest[0], need_of(rest[0], here, change.coming, len(needs) + 1)
        if found is None:
            return "no line of a refusal: %r" % line
        needs.append(found)
        due = behind_nothing(known, change, found[1]) if not found[2] else []
        if rest[1:1 + len(due)] != due:
            return "behind %r: due %r" % (line, due)
        rest = rest[1 + len(due):]
    if not needs or needs[0][0]["package"] != package:
        return "another package than %s comes first" % package
    return groundless_fault(needs, here)


def refusal_fault(office, source, lines):
    """What is wrong with the lines that show why a source can't move alone; None if nothing is."""
    known = office.known
    rows, coming = known.moved([source])
    return shown_fault(known, Refused(0, known.offender(rows, coming), [source], office.rows, rows, known.excuse), lines)


def reasons_fault(office, due, text):
    """What is wrong with a text on why these changes were refused by an office's last run; None if nothing is."""
    first, *parts = re.split("(?m)^(?=refused )", text) if text else [""]
    if first or len(parts) != len(due):
        return "%d refusals are due: %r" % (len(due), text)
    for change, part in zip(due, parts):
        head, *lines = part.splitlines()
        if head != "refused rt %d uninstallable %s %s" % (change.number, *change.offender):
            return "another refusal is due than %r" % head
        fault = shown_fault(office.known, change, lines)
        if fault is not None:
            return "%s: %s" % (head, fault)
    return None


def trial_fault(office, due, text):
    """What is wrong with a trial's text on why these changes were refused; None if nothing is. It explains the first three."""
    more = len(due) - len(due[:MOST_EXPLAINED])
    end = "and %d more are refused\n" % more if more else ""
    if not text.endswith(end):
        return "%r is due at the end of %r" % (end, text)
    return reasons_fault(office, due[:MOST_EXPLAINED], text[: len(text) - len(end)])


def hint_standing(office, number):
    """The state of a hint on which an office's last run decided nothing."""
    cover = office.covers(office.finished)[0][RELEASE]
    if number > cover or "\nHint: " not in office.kept[RELEASE, number]:
        return "unknown"
    return "nothing decided" if number in [n for n, _ in office.known.hints] else "cancelled"


def hint_fault(office, number, text):
    """What is wrong with a text on what an office's last run made of a hint; None if nothing is."""
    fronts = ("easy %d " % number, "remove %d " % number)
    named = [line for line in office.reports[office.finished][1].splitlines() if line.startswith(fronts)]
    front = ["why %d rt %d" % (office.finished, number), *(named or [hint_standing(office, number)])]
    told = "".join(line + "\n" for line in front)
    if not text.startswith(told):
        return "due %r, got %r" % (told, text)
    return reasons_fault(office, [change for change in office.refused if change.number == number], text[len(told) :])


def why_fault(office, source, said, text):
    """What is wrong with a text on a source of an office's last run, given the lines of its excuse, and those of the
    update that name it; None if nothing is."""
    own, named = said
    front = ["why %d %s" % (office.finished, source), *own, *origin_lines(office, source), *named]
    lines = text.splitlines()
    if lines[:len(front)] != front:
        return "due %r, got %r" % (front, lines)
    waits = any(line.startswith("wait %s " % source) for line in named)
    if not waits:
        return "more lines than are due: %r" % lines[len(front):] if lines[len(front):] else None
    return refusal_fault(office, source, lines[len(front):])
