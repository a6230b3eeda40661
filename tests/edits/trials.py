#!/usr/bin/env python3
"""Tries the must-fail edits that the gate leaves out: the prover must refuse each.

  trials.py [--gate] [--jobs N] [CRATE..]

An edit is a wrong body, in the kit's form: `file:`, and pairs of `old:` and `new:`. Those of `tests/edits/CRATE` are
tried, with --gate those of `crates/CRATE/must-fail` too, and of all crates if none is named. N crates are tried side by
side (2). It runs in any folder of a checkout in which `.ci/run` has passed, over the libraries that this left there.

The gate proves a crate once more, and then checks all of it for each of its edits. Here a check is of a copy of the
crate, and of few functions: those that the edits change, and one more, the control. Each other function has a hole for
its proof there, and a body that calls nothing, so the prover takes it by its contract. Three things have to hold:

1. With no edit, the prover proves all of these functions in that copy. If it doesn't prove a function there, the
   function's edits are tried on the whole crate.
2. An edit is refused: its function isn't proved, for a complaint at its lines or in its proof files. That it calls
   another function that isn't proved is no such complaint, nor is that a proof file names what the edit took away.
3. In the same check the control is changed by a blank, which changes nothing, and is proved.

Edits of different functions are tried in one check. If the borrow checker refuses one of them, that check has no
verdict on the others and the control, so each is tried alone. An edit that changes a constant, or two functions, is
tried on the whole crate too. The last line is `N passed, N failed`, and the exit status is 1 if one failed. It needs
the kit of `rt`, whose functions it calls.
"""
import argparse
import concurrent.futures
import contextlib
import copy
import functools
import importlib.machinery
import importlib.util
import os
import re
import shutil
import sys
import tempfile
from pathlib import Path
from typing import NamedTuple

TOP = Path(__file__).resolve().parents[2]
PARTS = ("src", "specs", "proofs")
FUNCTION = re.compile(r"(?m)^( *)(?:pub(?:\([a-z]+\))? )?fn (\w+)")
# The line above methods, and that of an `impl`, with its trait and its type.
HEAD = re.compile(r"(?m)^(?:impl\b|(?:pub(?:\([a-z]+\))? )?(?:trait|mod) ).*$")
BLOCK = re.compile(r"impl(?:<[^>]*>)? (?:(\w+) for )?(\w+)(?:<[^>]*>)? \{")
TYPE = re.compile(r"(?m)^(?:pub(?:\([a-z]+\))? )?(?:struct|enum) (\w+)")
# The body of a function, between its braces, for the function's indentation.
BODY = r"(?m)^%s(?:\S.* )?\{(|\n(?:.*\n)*?%s)\}$"
# The prover's verdict on a function. It holds if its proof needs no more than the proofs that are holes.
VERDICT = re.compile(r"(?m)^fn (\S+): (.*)$")
HOLDS = ("no holes", "depends on a hole")
FAILS = re.compile(r"not proved|no proof(?!: it (?:calls|passes|stands on))")
# A line of the prover on a goal that is open, at its place in the function or in its proof file.
COMPLAINT = re.compile(r"(?m)^(?:note: )?([^\s:]+):(\d+):\d+: (?:it is not proved|error).*$")
# One that only says that a proof file names what the edit took away, which shows nothing of the contract.
NAMES = re.compile(r"(?:note: )?(?:\./)?proofs/.*(?:has no field|is not in scope|has no `|was not admitted)")
HOLE = """use Rattle.%s.Statement.{statement}

pub %s_spec : {M : Type 1} → statement M
%s_spec = ?
"""


def kit_of_rt():
    """The command `rt`, as a module."""
    if not shutil.which("rt"):
        sys.exit(__doc__)
    kit = os.path.dirname(os.path.realpath(shutil.which("rt")))
    sys.path.insert(0, kit)
    sys.dont_write_bytecode = True
    loader = importlib.machinery.SourceFileLoader("rt", os.path.join(kit, "rt"))
    module = importlib.util.module_from_spec(importlib.util.spec_from_loader("rt", loader))
    loader.exec_module(module)
    return module


rt = kit_of_rt()


class Function(NamedTuple):
    """A function: its path below the crate, its file, and the places in the file's text where it begins, with its
    comment, where its body begins, and where that ends."""

    path: str
    file: str
    start: int
    body: int
    end: int

    @property
    def name(self):
        return self.path.rpartition("::")[2]

    @property
    def proofs(self):
        """The folder of its proof files."""
        return "proofs/" + self.path.replace("::", "/")


class Change(NamedTuple):
    """What an edit changes of a file: the text from one place to another, in one function."""

    edit: str
    function: Function
    start: int
    end: int
    new: str


@functools.cache
def text_of(folder, path):
    with open(f"{folder}/{path}", encoding="utf-8") as file:
        return file.read()


def module_of(file):
    """The modules of what is in a source file."""
    return [it for it in file.removesuffix(".rt").split("/")[1:] if it not in ("lib", "main", "mod")]


def path_of(file, text, found, types):
    """The path of a function below its crate. A method's begins with the module of its type, and so does that of
    `drop`. A function of a trait, or of a generic trait's `impl`, has none here."""
    if not found[1]:
        return "::".join([*module_of(file), found[2]])
    heads = HEAD.findall(text, 0, found.start())
    block = heads and BLOCK.fullmatch(heads[-1])
    of_trait, of_type = block.groups() if block else (None, None)
    if of_type in types and of_trait in (None, "Drop"):
        return "::".join([*types[of_type], of_type, found[2]])
    return "::".join([*module_of(file), of_type + of_trait, found[2]]) if of_trait else None


@functools.cache
def functions_of(folder):
    """The functions of a crate whose paths can be read from its source."""
    names = [f"{at}/{name}" for at, _, names in os.walk(f"{folder}/src") for name in sorted(names)]
    texts = {file: text_of(folder, file) for file in (os.path.relpath(it, folder) for it in names)}
    types = {name: module_of(file) for file, text in texts.items() for name in TYPE.findall(text)}
    functions = []
    for file, text in texts.items():
        for found in FUNCTION.finditer(text):
            path = path_of(file, text, found, types)
            start = max(text.rfind(it, 0, found.start()) + 2 for it in ("\n\n", "{\n"))
            body = re.compile(BODY % (found[1], found[1])).search(text, found.start())
            if path and body:
                functions.append(Function(path, file, start, *body.span(1)))
    return functions


def change_of(folder, edit, texts):
    """What an edit with these texts changes, if that is the body of one function alone."""
    if len(texts) != 1:
        return None
    file, text = next(iter(texts.items()))
    old = text_of(folder, file)
    start = len(os.path.commonprefix([old, text]))
    behind = min(len(os.path.commonprefix([old[::-1], text[::-1]])), len(old) - start, len(text) - start)
    for function in functions_of(folder):
        if function.file == file and function.body <= start and len(old) - behind <= function.end:
            return Change(edit, function, start, len(old) - behind, text[start : len(text) - behind])
    return None


def without_body(folder, function):
    """A change of a function's body to one that calls nothing, in as many lines. A body of no line stays as it is."""
    lines = text_of(folder, function.file).count("\n", function.body, function.end)
    return Change("", function, function.body, function.end, " loop {}" + "\n" * lines if lines else "")


def with_a_blank(function):
    """A change of a function that changes nothing."""
    return Change("", function, function.body, function.body, " ")


def with_changes(folder, changes):
    """The crate's files that the changes change, with all of them."""
    texts = {}
    for change in sorted(changes, key=lambda it: it.start, reverse=True):
        text = texts.get(change.function.file) or text_of(folder, change.function.file)
        texts[change.function.file] = text[: change.start] + change.new + text[change.end :]
    return texts


def control_for(folder, changed):
    """The shortest function of the crate that names no changed one. One without a proof file comes first, since no
    lemma is read for it."""

    def is_apart(function):
        text = text_of(folder, function.file)[function.start : function.end]
        named = any(re.search(rf"\b{it.name}\b", text) for it in changed)
        return not named and "\n" in text_of(folder, function.file)[function.body : function.end]

    apart = [it for it in functions_of(folder) if it not in changed and is_apart(it)]
    return min(apart, key=lambda it: (os.path.isdir(f"{folder}/{it.proofs}"), it.end - it.start), default=None)


def copy_with_holes(crate, folder, holes):
    """Copies a crate's files to a folder, with a hole for the proof of each of these functions."""
    for part in PARTS:
        if os.path.isdir(f"{crate.folder}/{part}"):
            shutil.copytree(f"{crate.folder}/{part}", f"{folder}/{part}")
    for function in holes:
        proofs = f"{folder}/{function.proofs}"
        os.makedirs(proofs, exist_ok=True)
        for name in ("Answers", "Invariants"):
            with contextlib.suppress(FileNotFoundError):
                os.remove(f"{proofs}/{name}.antt")
        module = f"{crate.name}/{function.proofs}".replace("/", ".")
        with open(f"{proofs}/Proof.antt", "w", encoding="utf-8") as file:
            file.write(HOLE % (module, function.name, function.name))


def is_of(path, changed):
    """Whether a function is changed, or is a closure of one that is: `M::fn::F::all` is one of `M::F`."""
    path = path.replace("::fn::", "::").removeprefix("fn::")
    return any(path == it.path or path.startswith(f"{it.path}::") for it in changed)


class Check:
    """What the prover says of some functions of a crate, with some changes of them."""

    def __init__(self, crate, asked, changes):
        self.crate, self.asked = crate, asked
        copied = copy.copy(crate)
        words = ["--jobs", "1", "--allow-holes", *(word for it in asked for word in ("--only", it.path))]
        with tempfile.TemporaryDirectory(prefix=f"edit-trials-{os.getpid()}-") as copied.folder:
            holes = [it for it in functions_of(crate.folder) if it not in asked]
            copy_with_holes(crate, copied.folder, holes)
            emptied = [without_body(crate.folder, it) for it in holes]
            ran = rt.checked(copied, with_changes(crate.folder, [*changes, *emptied]), words, None)
        self.said, self.status = ran.stdout, ran.returncode
        found = VERDICT.findall(self.said)
        self.verdicts = {path.removeprefix(f"{crate.name}::"): verdict for path, verdict in found}

    def holds(self, function):
        """Whether the function, and each closure of it, is proved."""
        own = [verdict for path, verdict in self.verdicts.items() if is_of(path, [function])]
        return function.path in self.verdicts and all(it.startswith(HOLDS) for it in own)

    def others_hold(self, changed):
        """Whether all that is reported is proved, except these functions."""
        return all(it.startswith(HOLDS) for path, it in self.verdicts.items() if not is_of(path, changed))

    def complaint(self, function):
        """The first line in which the prover says that something of a function isn't proved, but for names alone."""
        text = text_of(self.crate.folder, function.file)
        first, last = (text.count("\n", 0, place) + 1 for place in (function.start, function.end))
        for found in COMPLAINT.finditer(self.said):
            is_inside = found[1] == function.file and first <= int(found[2]) <= last
            if (is_inside or found[1].startswith(f"./{function.proofs}/")) and not NAMES.match(found[0]):
                return found[0]
        return None

    def refusal(self, function):
        """The prover's complaint of a function, if it doesn't prove it."""
        fails = FAILS.match(self.verdicts.get(function.path, ""))
        return self.complaint(function) if fails else None


def rounds_of(changes):
    """The changes in lists without a repeated function."""
    left, rounds = changes, []
    while left:
        first = {it.function: it for it in reversed(left)}
        rounds.append([it for it in left if first[it.function] is it])
        left = [it for it in left if first[it.function] is not it]
    return rounds


def try_round(crate, changes, control):
    """Tries edits of different functions in one check, and yields each with its result: the complaint, or None. If that
    check says nothing of the control, it tries each alone."""
    functions = [it.function for it in changes]
    check = Check(crate, [*functions, control], [*changes, with_a_blank(control)])
    is_sound = check.status == 1 and check.holds(control) and check.others_hold(functions)
    if is_sound or len(changes) == 1:
        for change in changes:
            yield change.edit, check.refusal(change.function) if is_sound else None
        return
    for change in changes:
        yield from try_round(crate, [change], control)


def try_whole(crate, edit):
    """Tries an edit on the whole crate, and returns the line that refuses it, or None."""
    verdict, said = rt.must_fail(crate, edit, ["--jobs", "1"])
    return said if verdict in (rt.REFUSED, rt.AT_LIMIT) and "only because a proof file names" not in said else None


def try_crate(crate, edits):
    """Tries a crate's edits, and yields for each its name and why the prover refuses it, or None."""
    changes, others = [], []
    for edit in edits:
        texts, why = rt.read_edit(edit, crate.folder)
        change = change_of(crate.folder, edit, texts) if texts else None
        if why:
            yield edit, None
        elif change:
            changes.append(change)
        else:
            others.append(edit)
    functions = list(dict.fromkeys(it.function for it in changes))
    control = control_for(crate.folder, functions)
    if changes and control:
        check = Check(crate, [*functions, control], [])
        sound = [it for it in changes if check.holds(it.function)]
        for batch in rounds_of(sound):
            yield from try_round(crate, batch, control)
        others += [it.edit for it in changes if it not in sound]
    for edit in others if control else edits:
        yield edit, try_whole(crate, edit)


def tell_crate(crate, edits):
    """Tries a crate's edits, prints a line for each, and returns how many were refused."""
    refused = 0
    for edit, why in try_crate(crate, edits):
        refused += why is not None
        label = f"{crate.name}/{os.path.basename(edit)}"
        print(f"{label}: {'refused: ' + why[:160] if why else 'NOT REFUSED'}", flush=True)
    return refused


def edits_of(crate, with_gate):
    """The files of a crate's edits."""
    folders = [TOP / "tests/edits" / crate.name, *([Path(crate.folder) / "must-fail"] if with_gate else [])]
    return [str(it) for folder in folders for it in sorted(folder.glob("*.edit"))]


def main():
    parser = argparse.ArgumentParser(usage=__doc__.splitlines()[2].strip())
    parser.add_argument("--gate", action="store_true")
    parser.add_argument("--jobs", type=int, default=2)
    parser.add_argument("crates", nargs="*")
    words = parser.parse_args()
    os.chdir(TOP)
    rt.rtlib.Crate = rt.Crate
    rt.Crate.cuts_libraries = True
    crates = [it for it in rt.rtlib.crates_below(str(TOP)) if not words.crates or it.name in words.crates]
    tried = {crate: edits for crate in crates if (edits := edits_of(crate, words.gate))}
    for crate in tried:
        for low in crate.below():
            if not os.path.isfile(f"{low.folder}/out/rlib/{low.name}.rlib/format"):
                sys.exit(f"there is no library of {low.name}: run .ci/run here first")
    # (the kit sets its signals at its first check, which only the main thread may do)
    rt.rtlib.guarded()
    with concurrent.futures.ThreadPoolExecutor(words.jobs) as pool:
        refused = sum(pool.map(lambda it: tell_crate(*it), tried.items()))
    total = sum(map(len, tried.values()))
    print(f"{refused} passed, {total - refused} failed")
    sys.exit(refused < total)


if __name__ == "__main__":
    main()
