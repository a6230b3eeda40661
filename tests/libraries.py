#!/usr/bin/env python3
"""Gives a checkout the libraries that the gate built in another, so that a check of a crate above begins at once.

  libraries.py GATE CHECKOUT

GATE is a checkout in which `.ci/run` runs or has run, CHECKOUT one to work in. Each library that the gate has built of the
text that CHECKOUT has, and over the same libraries, is linked to its `out/`, with the stamp by which `rt check` takes it.
Two lines list which crates got theirs, and which have none yet. It needs the kit of `rt`, whose functions it calls.
"""
import functools
import importlib.machinery
import importlib.util
import os
import shutil
import sys

if len(sys.argv) != 3 or not shutil.which("rt"):
    sys.exit(__doc__)
kit = os.path.dirname(os.path.realpath(shutil.which("rt")))
sys.path.insert(0, kit)
sys.dont_write_bytecode = True
loader = importlib.machinery.SourceFileLoader("rt", os.path.join(kit, "rt"))
rt = importlib.util.module_from_spec(importlib.util.spec_from_loader("rt", loader))
loader.exec_module(rt)
# (the kit walks each path down to a library again)
below, stamp = functools.cache(rt.Crate.below), functools.cache(rt.Crate.stamp)
rt.Crate.below, rt.Crate.stamp = lambda crate: [*below(crate)], lambda crate: stamp(crate)


def crates_in(checkout):
    """The crates of a checkout, by name, lowest first."""
    os.chdir(checkout)
    rt.rtlib.Crate = rt.Crate
    return {crate.name: crate for crate in rt.rtlib.crates_below(checkout)}


def give(crate, made):
    """Gives a crate the library that was made of it elsewhere, and returns whether it has one now."""
    library = f"{made.folder}/out/rlib/{made.name}.rlib"
    if made.stamp() != crate.stamp() or not os.path.isfile(f"{library}/format"):
        return False
    folder = f"{crate.folder}/out/rlib"
    if not crate.is_built():
        shutil.rmtree(folder, ignore_errors=True)
        os.makedirs(folder)
        shutil.copytree(library, f"{folder}/{crate.name}.rlib", copy_function=os.link)
        with open(f"{folder}/stamp", "w", encoding="utf-8") as stamp:
            stamp.write(crate.stamp())
    return True


def main():
    gate, checkout = (os.path.abspath(folder) for folder in sys.argv[1:])
    made = crates_in(gate)
    given, lacking = [], []
    for name, crate in crates_in(checkout).items():
        if not crate.is_program:
            (given if name in made and give(crate, made[name]) else lacking).append(name)
    print("given:", *given)
    print("lacking:", *lacking)


main()
