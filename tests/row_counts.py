"""What the random rows of the gate are about, counted by what is due for them: tests/rows/counts.py and
tests/judges/counts.py say of how many rows."""
import re

ENOUGH = 10


def runs_of(due):
    """For each run of a row the lines of its excuses, by source, and those of its update."""
    runs = []
    for part in re.split(r"^excuses \d+ .*\n", due, flags=re.M)[1:]:
        excuses, _, rest = part.partition("update ")
        update = rest.split("\n")[1:]
        source, told = None, {}
        for line in excuses.split("\n")[:-1]:
            if line[0] != " ":
                source = line.split()[0]
                told[source] = [line]
            else:
                told[source].append(line[1:])
        end = next(i for i, line in enumerate(update) if re.match("testing |status ", line) or not line)
        runs.append((told, update[:end]))
    return runs


def count_update(counts, line):
    words = line.split()
    if words[0] == "wait":
        counts["candidates that wait"] += 1
    elif words[0] in ("easy", "remove"):
        if words[2] == "accept":
            counts["%s hints accepted" % words[0]] += 1
        elif "uninstallable" in words:
            counts["%s hints refused, uninstallable" % words[0]] += 1
        else:
            counts["easy hints refused, no candidate"] += 1


def moved_by(line):
    words = line.split()
    if words[0] == "accept":
        return [words[1]]
    return words[3::2] if words[0] == "easy" and words[2] == "accept" else []


def count_runs(counts, runs):
    fallen, bugs = set(), {}
    for told, update in runs:
        for source, lines in told.items():
            if source in fallen:
                counts["excuses of a source that fell, whose uploads count again"] += 1
            now = {line for line in lines if line.startswith("new bug ")}
            before = bugs.get(source, now)
            counts["bugs that came"] += len(now - before)
            counts["bugs that went"] += len(before - now)
            bugs[source] = now
        for line in update:
            count_update(counts, line)
            if line.startswith("remove") and line.split()[2] == "accept":
                fallen.add(line.split()[3])
            for source in moved_by(line):
                counts["sources that came back"] += source in fallen
                fallen.discard(source)


def silenced(lines, is_silenced):
    """A row in which some messages say nothing, and hold their numbers still."""
    def said(text):
        if not is_silenced(text):
            return text
        return re.sub(r"\nKind: .*", "\nKind: none", text, flags=re.S)
    steps = re.split(r"(^> .*\n)", lines, flags=re.M)
    return "".join(step if step.startswith("> ") or not step else
                   "\n--\n".join(said(text) for text in step[:-1].split("\n--\n")) + "\n" for step in steps)


def later_bug():
    """Whether a text is another message on a bug that was reported before."""
    seen = set()

    def is_later(text):
        bug = re.search(r"^Bug: (\d+)", text, flags=re.M)
        first = bug is None or bug.group(1) not in seen
        if bug:
            seen.add(bug.group(1))
        return not first
    return is_later


def of_kind(kind):
    return lambda: lambda text: "\nKind: %s\n" % kind in text


def of_hint(word):
    return lambda: lambda text: "\nHint: %s " % word in text


SILENCED = {"drops": of_kind("drop"), "delays": of_kind("delays"), "bugs": of_kind("bug"),
            "later messages on a bug": later_bug, "cancelled hints": of_kind("unhint"), "easy hints": of_hint("easy"),
            "removals": of_hint("remove"), "blocks": of_hint("block"), "unblocks": of_hint("unblock"),
            "days by hint": of_hint("age-days")}
UPDATES = ["easy hints accepted", "easy hints refused, no candidate", "easy hints refused, uninstallable",
           "remove hints accepted", "remove hints refused, uninstallable", "candidates that wait"]
CHANGES = ["excuses of a source that fell, whose uploads count again", "sources that came back", "bugs that came",
           "bugs that went"]
NEEDS = ["rows that need " + what for what in SILENCED]


def needs_of(lines, due, judged):
    """What a row needs: the messages without which the judge says something else of it."""
    return ["rows that need " + what for what, chosen in SILENCED.items() if judged(silenced(lines, chosen())) != due]


def print_counts(sums):
    """Prints each count, and returns whether each is enough."""
    for what, count in sums.items():
        print("%5d %s%s" % (count, what, "" if count >= ENOUGH else ": too few"))
    return min(sums.values()) >= ENOUGH
