#!/usr/bin/env python3
"""Builds a program before its proof, so that a change can be measured first.

  unproved.py CRATE TO

CRATE is the folder of a program's crate (crates/office), TO the file to write. `rt try` compiles the program with
checks at each access to memory. Here its code is caught before that, freed of the checks, and compiled as `rt ci` has
it. Such a program is for measurements alone: nothing of it is proved, and what `rt try` would refuse goes wrong.
It rests on how the kit 13f calls its compiler. It needs `rt`, and takes some minutes.
"""
import os
import shlex
import shutil
import subprocess
import sys
import tempfile

if len(sys.argv) != 3 or not shutil.which("rt"):
    sys.exit(__doc__)
KIT = os.path.dirname(os.path.dirname(os.path.realpath(shutil.which("rt"))))
CLANG = f"{KIT}/toolchain/bin/clang"
# The whole program is larger than this, and each part that `rt try` compiles before is smaller.
LEAST = 1_000_000
# In the place of the kit's compiler: it keeps the whole program and its own words, and ends.
CATCH = """#!/bin/sh
if [ -f module.bc ] && [ "$(stat -c %s module.bc)" -gt {least} ]; then
  cp module.bc {folder}/program.bc
  printf '%s\\n' "$@" > {folder}/words
  exit 1
fi
exec {clang} "$@"
"""
# What of the compiler's words is of the checks or names the files.
LEFT_OUT = {"-O0", "-fsanitize=address", "-Werror", "module.bc", "-o", "module.o"}


# The kit's folders that are made again. All else in them is linked.
FOLDERS = ("", "bin", "toolchain", "toolchain/bin")


def kit_that_catches(folder):
    """Makes a folder that is as the kit's, but for the compiler."""
    for at in FOLDERS:
        os.makedirs(f"{folder}/kit/{at}", exist_ok=True)
        for name in os.listdir(f"{KIT}/{at}"):
            if os.path.join(at, name) not in FOLDERS:
                os.symlink(f"{KIT}/{at}/{name}", f"{folder}/kit/{at}/{name}")
    for name in ("rt", "rtlib.py"):
        os.remove(f"{folder}/kit/bin/{name}")
        shutil.copy(f"{KIT}/bin/{name}", f"{folder}/kit/bin/{name}")
    clang = f"{folder}/kit/toolchain/bin/clang"
    os.remove(clang)
    with open(clang, "w", encoding="utf-8") as file:
        file.write(CATCH.format(least=LEAST, folder=shlex.quote(folder), clang=shlex.quote(CLANG)))
    os.chmod(clang, 0o755)


def is_check(line):
    """Whether a line of the program's code is of its checks."""
    return (
        "i8 -86," in line and "llvm.memset" in line
        or 'call void @"rattle-llvm-checks::' in line
        or "call void @llvm.trap()" in line
    )


def without_checks(folder):
    """Writes the program's code without its checks, and returns the words to compile it with."""
    run([CLANG, "-x", "ir", "program.bc", "-S", "-emit-llvm", "-O0", "-o", "program.ll"], folder)
    with open(f"{folder}/program.ll", encoding="utf-8") as code:
        lines = [line for line in code if not is_check(line)]
    with open(f"{folder}/freed.ll", "w", encoding="utf-8") as freed:
        for line in lines:
            freed.write(line.replace(" sanitize_address", "") if line.startswith("attributes #") else line)
    with open(f"{folder}/words", encoding="utf-8") as words:
        kept = [word for word in words.read().splitlines() if word not in LEFT_OUT]
    return [word.replace(f"{folder}/kit", KIT) for word in kept]


def run(words, folder):
    if subprocess.run(words, cwd=folder).returncode:
        sys.exit(f"failed: {' '.join(words)}")


def main():
    crate, to = map(os.path.abspath, sys.argv[1:])
    with tempfile.TemporaryDirectory() as folder:
        kit_that_catches(folder)
        words = [f"{folder}/kit/bin/rt", "try", "--steps", "10"]
        tried = subprocess.run(words, cwd=crate, stdin=subprocess.DEVNULL, capture_output=True, text=True)
        if not os.path.exists(f"{folder}/program.bc"):
            sys.exit(tried.stdout + tried.stderr)
        words = without_checks(folder)
        run([CLANG, *words, "freed.ll", "-o", "freed.o", "-O3"], folder)
        libraries = [f"{KIT}/c/libos_c.a", f"{KIT}/c/liblibc_c.a"]
        link = [f"{KIT}/bin/rattle-link", "--target", "x86_64-unknown-linux-gnu", "--toolchain", f"{KIT}/toolchain"]
        run([*link, "-o", to, "freed.o", *libraries], folder)


main()
