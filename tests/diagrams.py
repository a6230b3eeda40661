#!/usr/bin/env python3
"""Draws docs/layers.svg, the crates by layers, docs/way.svg, the way of one message, and docs/day.svg, a day's flow.

usage: diagrams.py [TOP] [--write | --check]

The layers and what each crate uses are those of crates.txt; a use that follows from others isn't drawn. The way is the
table "The way of one message" of docs/ARCHITECTURE.md, and the steps of a day are those of docs/ARCHIVE.md. Each
drawing ends with the checksum of what it was drawn from.
  --write  draws them by Graphviz (dot)
  --check  a line for each drawing that was drawn from something else; status 1 if there is one
"""
import hashlib
import re
import subprocess
import sys
from pathlib import Path

STYLE = 'node [shape=box, fontname="sans-serif", fontsize=11, height=0.3]; edge [arrowsize=0.6];'

FLOWS = (('unstable', 'ordered', 'Pull'), ('ordered', 'office', 'office-feed'), ('lists', 'office', 'office-bugs'),
         ('ordered', 'office', 'office-look'), ('office', 'testing', 'office-apply'))
"""What each step of a day takes from where to where, by a word of its name."""


def layers(text):
    """The layers of crates.txt: the name of each, and its crates with what they use of this repository."""
    found, crates = [], {}
    for line in text.split('\n'):
        title, (name, colon, uses) = re.match(r'# (\d+\. .*)', line), line.partition(':')
        if title:
            found.append((title[1], []))
        elif colon and not line.startswith('#'):
            crates[name] = [use for use in uses.split() if use in crates]
            found[-1][1].append(name)
    return found, crates


def all_below(crate, crates):
    """All crates that a crate rests on."""
    return set(crates[crate]).union(*(all_below(use, crates) for use in crates[crate]))


def drawn_uses(crate, crates):
    """The uses of a crate that don't follow from its other uses."""
    implied = set().union(*(all_below(use, crates) for use in crates[crate]))
    return [use for use in crates[crate] if use not in implied]


def layers_dot(top):
    """The crates by layers, the highest above."""
    found, crates = layers((top / 'crates.txt').read_text())
    lines = ['digraph layers {', 'rankdir=TB; newrank=true; fontname="sans-serif";', STYLE]
    for place, (title, names) in enumerate(found):
        lines += [f'subgraph cluster_{place} {{ label="{title}"; color=gray;', ' '.join(f'{name};' for name in names), '}']
    lines += [f'{name} -> {use};' for name in crates for use in drawn_uses(name, crates)]
    return '\n'.join(lines + ['}', ''])


def way_dot(top):
    """The steps of one message, each with its first call, in rows of five."""
    rows = re.findall(r'(?m)^\| (\d+\. [^|]*?) \| ([^|]*?) \|', (top / 'docs' / 'ARCHITECTURE.md').read_text())
    steps = [(step, (re.findall(r'`([^`]+)`', calls) or [''])[0]) for step, calls in rows]
    lines = ['digraph way {', 'rankdir=LR; fontname="sans-serif";', STYLE]
    lines += [f's{place} [label="{step}\\n{call}"];' for place, (step, call) in enumerate(steps)]
    for place in range(1, len(steps)):
        turn = ' [constraint=false]' if place % 5 == 0 else ''
        lines.append(f's{place - 1} -> s{place}{turn};')
    return '\n'.join(lines + ['}', ''])


def day_dot(top):
    """The steps of a day, each numbered at the way of what it moves."""
    table = re.search(r'(?ms)^\| Step \| What it does \|$.*?\n\n', (top / 'docs' / 'ARCHIVE.md').read_text())
    steps = [step.replace('`', '') for step in re.findall(r'(?m)^\| ([^|-]+[^|]*?) \|', table[0] if table else '')[1:]]
    lines = ['digraph day {', 'rankdir=LR; fontname="sans-serif"; edge [fontname="sans-serif", fontsize=10];', STYLE,
             'subgraph cluster_archive { label="the archive"; color=gray; unstable; ordered; testing; }',
             'lists [label="lists of bugs,\\nresults of tests"]; office [label="the office", style=bold];']
    drawn = set()
    for source, target, word in FLOWS:
        places = [place for place, step in enumerate(steps) if word in step]
        drawn.update(places)
        names = dict.fromkeys(steps[place] for place in places)
        lines.append(f'{source} -> {target} [label="{" and ".join(str(place + 1) for place in places)}. {", ".join(names)}"];')
    if drawn != set(range(len(steps))) or not steps:
        sys.exit(f'docs/ARCHIVE.md: no flow is known for the steps {steps}')
    return '\n'.join(lines + ['}', ''])


def main():
    words = [word for word in sys.argv[1:] if not word.startswith('--')]
    top = Path(words[0] if words else Path(__file__).resolve().parents[1])
    stale = []
    for name, dot in (('layers', layers_dot(top)), ('way', way_dot(top)), ('day', day_dot(top))):
        page = top / 'docs' / f'{name}.svg'
        end = f'<!-- drawn from {hashlib.sha256(dot.encode()).hexdigest()} -->\n'
        if '--write' in sys.argv:
            page.write_text(subprocess.run(['dot', '-Tsvg'], input=dot, capture_output=True, text=True, check=True).stdout + end)
        elif not page.exists() or not page.read_text().endswith(end):
            stale.append(f'docs/{name}.svg is drawn from something else (run tests/diagrams.py --write)')
    print(*stale, sep='\n', end='\n' * bool(stale))
    sys.exit(1 if stale else 0)


if __name__ == '__main__':
    main()
