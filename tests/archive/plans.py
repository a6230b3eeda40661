#!/usr/bin/env python3
"""Plans of random suites by the program `office-plan`, beside sets of lines that are worked out here.

  plans.py OFFICE_PLAN [SUITES [SEED]]

Each plan is carried out over the suite's lines: then they are testing's, and the plan of the result is empty. A refusal
names exactly the lines that can't be copied, or that would go to a lower version by `dpkg --compare-versions`' order
(python3-apt), or how many leave. Status 0: no fault.
"""
import os
import random
import subprocess
import sys
import tempfile
from typing import Sequence

import apt_pkg

VERSIONS = ["1.0", "1.00", "1:0.5", "1.0~rc1", "2.0-1", "2.0-1+b1", "10-1", "9-2"]
NAMES = ["app", "app-data", "lib+", "lib1"]
ARCHITECTURES = ["all", "amd64", "source"]

Suite = dict[tuple[str, str], str]
"""The version of a name on an architecture."""


def drawn(seeds: random.Random, share: float) -> Suite:
    """A suite: a version for some of the names on some of the architectures."""
    return {(architecture, name): seeds.choice(VERSIONS) for architecture in ARCHITECTURES for name in NAMES
            if seeds.random() < share}


def near(seeds: random.Random, suite: Suite, share: float) -> Suite:
    """A suite with some other versions."""
    return {key: seeds.choice(VERSIONS) if seeds.random() < share else version for key, version in suite.items()
            if seeds.random() > share / 3}


def lines(suite: Suite) -> list[str]:
    """The lines of a suite, in no order."""
    return ["%s %s %s" % (name, version, architecture) for (architecture, name), version in suite.items()]


def due(testing: Suite, suite: Suite, origin: Suite, gone: int, back: bool) -> tuple[int, list[str]]:
    """The status and the lines that are due."""
    come = {key: version for key, version in testing.items() if suite.get(key) != version}
    lacks = {key: version for key, version in come.items() if origin.get(key) != version}
    lower = {key: version for key, version in come.items()
             if key in suite and apt_pkg.version_compare(version, suite[key]) < 0}
    leaving = [key for key in suite if key not in testing]
    if lacks:
        return 3, ["lacks " + line for line in lines(dict(sorted(lacks.items())))]
    if lower and not back:
        return 3, ["lower " + line for line in lines(dict(sorted(lower.items())))]
    if len(leaving) > gone:
        return 3, ["leaving %d" % len(leaving)]
    go = {key: version for key, version in suite.items() if testing.get(key) != version}
    return 0, ["copy " + line for line in lines(dict(sorted(come.items())))] + \
        ["remove " + line for line in lines(dict(sorted(go.items())))]


def answered(program: str, folder: str, suites: Sequence[Sequence[str]], words: Sequence[str]) -> tuple[int, list[str]]:
    """What a program prints of three lists, and its status."""
    paths = []
    for name, suite in zip(("first", "second", "third"), suites):
        paths.append(os.path.join(folder, name))
        with open(paths[-1], "w", encoding="utf-8") as file:
            file.write("".join(line + "\n" for line in suite))
    ran = subprocess.run([program, *paths, *words], capture_output=True, text=True, timeout=60, check=False)
    return ran.returncode, ran.stdout.splitlines()


def planned(program: str, folder: str, suites: Sequence[Sequence[str]], gone: int,
            back: bool) -> tuple[int, list[str]]:
    """The status of a plan, and its lines."""
    return answered(program, folder, suites, ["--gone", str(gone), *(["--back"] if back else [])])


def main() -> None:
    """Tries suites of a seed."""
    program, count = os.path.abspath(sys.argv[1]), int(sys.argv[2]) if len(sys.argv) > 2 else 1000
    seeds, faults, made = random.Random(int(sys.argv[3]) if len(sys.argv) > 3 else 1), 0, 0
    apt_pkg.init_system()
    with tempfile.TemporaryDirectory() as folder:
        for number in range(count):
            suite = drawn(seeds, 0.6)
            testing = near(seeds, suite, 0.3) | (drawn(seeds, 0.1) if seeds.random() < 0.5 else {})
            origin = near(seeds, testing, 0.1) if seeds.random() < 0.4 else dict(testing)
            gone, back = seeds.choice([0, 1, 2, 100]), seeds.random() < 0.5
            texts = [seeds.sample(lines(it), len(it)) for it in (testing, suite, origin)]
            status, told = planned(program, folder, texts, gone, back)
            want = due(testing, suite, origin, gone, back)
            if (status, told) != want:
                faults += 1
                print("FAIL %d: due %r, got %r" % (number, want, (status, told)))
            elif status == 0:
                made += 1
                after = set(texts[1]) | {line[5:] for line in told if line.startswith("copy ")}
                after -= {line[7:] for line in told if line.startswith("remove ")}
                again = planned(program, folder, [texts[0], sorted(after), texts[2]], 0, False)
                if after != set(texts[0]) or again != (0, []):
                    faults += 1
                    print("FAIL %d: after the plan: %r, then %r" % (number, sorted(after), again))
    print("%d suites, %d plans, %d faults" % (count, made, faults))
    sys.exit(1 if faults else 0)


if __name__ == "__main__":
    main()
