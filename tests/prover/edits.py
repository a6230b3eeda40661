#!/usr/bin/env python3
"""Tries must-fail edits of a crate one by one, and prints what each check cost and where it was refused.

  edits.py CRATE [EDIT..]

It runs at the top of a checkout, over a copy of what `rt check` kept of the crate CRATE, so a try takes seconds. If no
edit is named, all edits of the crate are tried. For each there are its processor seconds, the prover's first complaint,
and the stages of its check. The exit status is 1 if an edit isn't refused. It needs the kit of `rt`, whose functions it
calls.

Of the stages, front-end and making grow with the crate. Session is the proof of what changed, and of what the edit
before had changed. Offers comes only if the goal that the edit breaks has no answer in proofs/.
"""
import importlib.machinery
import importlib.util
import os
import resource
import shutil
import sys
import tempfile

if len(sys.argv) < 2 or not shutil.which("rt"):
    sys.exit(__doc__)
kit = os.path.dirname(os.path.realpath(shutil.which("rt")))
sys.path.insert(0, kit)
sys.dont_write_bytecode = True
loader = importlib.machinery.SourceFileLoader("rt", os.path.join(kit, "rt"))
rt = importlib.util.module_from_spec(importlib.util.spec_from_loader("rt", loader))
loader.exec_module(rt)
SHOWN = 0.5


def processor_seconds():
    used = resource.getrusage(resource.RUSAGE_CHILDREN)
    return used.ru_utime + used.ru_stime


def stages_in(file):
    """The stages that took longest, as the prover writes them: `stage NAME SECONDS KIB`."""
    with open(file, encoding="utf-8") as lines:
        stages = [line.split()[1:3] for line in lines if line.startswith("stage ")]
    return ", ".join("%s %.1f" % (name, float(seconds)) for name, seconds in stages if float(seconds) >= SHOWN)


def try_edit(crate, edit, kept, stages):
    """Tries one edit, and returns whether it is refused."""
    before = processor_seconds()
    verdict, said = rt.must_fail(crate, edit, ["--jobs", "1", "--stage-times", stages], kept)
    print("%6.1f s  %s\n          %s" % (processor_seconds() - before, said, stages_in(stages)), flush=True)
    # (kit 13b says whether it is refused, and 13f how it went)
    return verdict in (rt.REFUSED, rt.AT_LIMIT) if hasattr(rt, "REFUSED") else verdict


def main():
    rt.rtlib.Crate = rt.Crate
    rt.Crate.cuts_libraries = True
    crate = next((one for one in rt.rtlib.crates_below(os.getcwd()) if one.name == sys.argv[1]), None)
    if crate is None or not os.path.isdir(f"{crate.folder}/out/incremental"):
        sys.exit("no such crate, or nothing is kept of it: run rt check in its folder first")
    names = {"%s.edit" % name for name in sys.argv[2:]}
    chosen = [edit for edit in rt.edits_of(crate)[0] if not names or os.path.basename(edit) in names]
    with tempfile.TemporaryDirectory() as room:
        shutil.copytree(f"{crate.folder}/out/incremental", f"{room}/kept")
        tried = [try_edit(crate, edit, f"{room}/kept", f"{room}/stages") for edit in chosen]
    print("%d refused of %d" % (sum(tried), len(tried)))
    sys.exit(0 if all(tried) else 1)


main()
