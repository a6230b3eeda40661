#!/usr/bin/env python3
"""Counts in prose what reads as if it were translated. It is an aid, and no check: the exit status is always 0.

usage: prose.py [--show] [FILE..]

  FILE    a page or a source; of a source the comments are read. Without one: README, the pages of docs/, share/, bench/,
          tests/ and of each crate, the tools, and the comments of src/ and specs/ of all crates
  --show  prints each place with its line, too

A line for each file has the count of words of WORDS, of sentences of more than 30 words, and of sentences with two or
more of that, which, whose and where. Tables, code and quotations are left out. The last lines sum up by kind and by word.
"""
import re
import sys
from collections import Counter
from pathlib import Path

TOP = Path(__file__).resolve().parents[1]
LONGEST, RELATIVES = 30, re.compile(r'\b(?:that|which|whose|where)\b', re.I)
# What to write in the place of these words is next to them.
WORDS = {
    r'tells?|told|telling': 'prints, reports, lists, says',
    r'behind': 'after',
    r'beside': 'next to, with, alongside, and',
    r'stands?|stood': 'is in',
    r'hand(?:ed|s)? (?:in|on)': 'the input; passes on',
    r'(?:comes|came|come) to the same': 'has the same result as',
    r'so many': 'that many, the number',
    r'(?:is|are|was|isn\'t|aren\'t) there': 'exists, is missing',
    r'anew': 'again, from scratch',
    r'in front': 'the preceding one, before',
    r'a (?:line|word) more': 'one more line',
    r'(?:comes?|came) of (?:it|them|that)': 'the result',
    r'lack(?:s|ed|ing)?': 'is missing, needs',
    r'come to pass': 'happen',
    r'of its own accord|by itself': 'on its own',
    r'(?:and )?the like|of that kind': 'similar, like',
    r'grounds?': 'reason',
    r'gives? back|gave back|given back': 'returns',
    r'goes on|go on|went on': 'continues',
    r'of which|that which': 'two sentences',
}
PLACES = ['*.md', 'docs/*.md', 'share/*.md', 'share/man/*', 'bench/*.md', 'bench/*/*.md', 'tests/*.md', 'tests/*/*.md',
          'crates/*/README.md', 'tests/*.py', 'tests/*/*.py', 'tests/*.sh', 'bench/*/*.py', 'tools/office_tools/*.py',
          'tools/office_tools/*/*.py', 'crates/*/src/**/*.rt', 'crates/*/specs/**/*.antt']
LEFT_OUT = {TOP / 'docs' / 'BOOK.md'}


def comments(path, text):
    """The comments of a source by their lines, and each other line empty."""
    mark = {'.rt': r'\s*//[/!]?', '.antt': r'\s*--', '.sh': r'\s*#'}.get(path.suffix)
    if mark:
        return [re.sub(mark, '', line) if re.match(mark, line) else '' for line in text.split('\n')]
    inside, lines = False, []
    for line in text.split('\n'):
        quotes = line.count('"""')
        lines.append(line.replace('"""', ' ') if inside or quotes else re.sub('# ?', '', line) if re.match(r'\s*#', line) else '')
        inside ^= quotes % 2 == 1
    return lines


def prose(path):
    """The lines of a file that are prose, without code in backticks; each other line is empty."""
    text = path.read_text(errors='replace')
    lines = text.split('\n') if path.suffix == '.md' or path.parent.name == 'man' else comments(path, text)
    is_code, kept = False, []
    for line in lines:
        is_fence = line.startswith('```')
        is_code ^= is_fence
        other = is_fence or is_code or line.startswith(('|', '    ', '.', '>', '#')) and path.suffix != '.py'
        kept.append('' if other else re.sub(r'`[^`]*`', 'CODE', line))
    return kept


def sentences(lines):
    """Each sentence of prose with the number of its first line."""
    gathered, number = [], 1
    for place, line in enumerate(lines + [''], 1):
        starts = re.match(r'\s*(?:[-*]|\d+\.)\s', line)
        if gathered and (not line.strip() or starts):
            yield from ((number, part) for part in re.split(r'(?<=[.?!:;])\s+(?=[A-Z*(])', ' '.join(gathered)))
            gathered = []
        if line.strip():
            number = number if gathered else place
            gathered.append(line.strip())


def places(path):
    """What is found in a file: the number of a line, the kind, and the words."""
    lines = prose(path)
    for number, line in enumerate(lines, 1):
        for word in WORDS:
            yield from ((number, 'words', (word, found[0])) for found in re.finditer(rf'(?i)\b(?:{word})\b', line))
    for number, sentence in sentences(lines):
        count = len(re.findall(r"[\w'-]+", sentence))
        if count > LONGEST:
            yield number, 'long', ('', f'{count} words: {sentence[:100]}')
        if len(RELATIVES.findall(sentence)) > 1:
            yield number, 'relatives', ('', sentence[:100])


def main():
    named = [Path(word).resolve() for word in sys.argv[1:] if not word.startswith('--')]
    paths = named or sorted({path for place in PLACES for path in TOP.glob(place)
                             if path.is_file() and path not in LEFT_OUT and 'out' not in path.parts})
    sums, by_word = Counter(), Counter()
    print('words, long sentences, sentences with two relatives')
    for path in paths:
        found = [*places(path)]
        counts = Counter(kind for _, kind, _ in found)
        sums += counts
        by_word.update(word for _, kind, (word, _) in found if kind == 'words')
        name = path.relative_to(TOP) if TOP in path.parents else path
        if found:
            print(f'{counts["words"]:5} {counts["long"]:4} {counts["relatives"]:4}  {name}')
        for number, kind, (_, text) in found if '--show' in sys.argv else []:
            print(f'  {name}:{number}: {kind}: {text}')
    print(f'{sums["words"]:5} {sums["long"]:4} {sums["relatives"]:4}  in all')
    for word, count in by_word.most_common():
        print(f'{count:5}  {word}: write {WORDS[word]}')


if __name__ == '__main__':
    main()
