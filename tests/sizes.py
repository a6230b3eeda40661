#!/usr/bin/env python3
"""Counts what README.md says of the tree's size: thousands of lines, and wrong bodies.

usage: sizes.py [TOP] [--check | --write]     (no option: the counts; --check: a line for each that README hasn't)

Lines of code are those of src/ that are neither empty, nor a comment, nor a contract. A contract is an item that begins
with one of the words of CONTRACT, up to the end of its braces. Crates of tests alone (`cases_`) don't count.
"""
import re
import sys
from pathlib import Path

CONTRACT = re.compile(r'(requires|ensures|ghost|law|invariant|decreases)\b')
LINES = re.compile(r'\d+ thousand lines of code, \d+ of contracts,\s\d+ of definitions and \d+ of proof')
EDITS = re.compile(r'(?m)(?<=refuse\n)\d+(?= wrong bodies)')

def lines(top, kind, suffix):
    """Each line of the files of a folder of all crates that aren't of tests alone."""
    for path in sorted(Path(top).glob(f'crates/*/{kind}/**/*{suffix}')):
        if not path.relative_to(top).parts[1].startswith('cases_'):
            yield from path.read_text().splitlines()

def code_and_contracts(texts):
    """How many lines are of code, and how many of contracts."""
    code = contracts = depth = 0
    for text in map(str.strip, texts):
        is_contract = depth > 0 or bool(CONTRACT.match(text))
        if is_contract:
            contracts += 1
            depth = max(0, depth + text.count('{') - text.count('}'))
        elif text and not text.startswith('//'):
            code += 1
    return code, contracts

def counted(top):
    """The two phrases of README.md, as they should be."""
    code, contracts = code_and_contracts(lines(top, 'src', '.rt'))
    specs, proofs = (sum(1 for _ in lines(top, kind, '.antt')) for kind in ('specs', 'proofs'))
    code, contracts, specs, proofs = (round(count / 1000) for count in (code, contracts, specs, proofs))
    return (f'{code} thousand lines of code, {contracts} of contracts, {specs} of definitions and {proofs} of proof',
            str(len([*Path(top).glob('crates/*/must-fail/*.edit')])))

def main():
    options = [word for word in sys.argv[1:] if word.startswith('--')]
    top = next((word for word in sys.argv[1:] if word not in options), Path(__file__).resolve().parents[1])
    page = Path(top) / 'README.md'
    text, phrases = page.read_text(), counted(top)
    if '--write' in options:
        for form, phrase in zip((LINES, EDITS), phrases):
            text = form.sub(lambda old, new=phrase: keep_break(old[0], new), text)
        page.write_text(text)
        return
    if '--check' not in options:
        print('\n'.join(phrases))
        return
    found = [' '.join(form.search(text)[0].split()) if form.search(text) else '' for form in (LINES, EDITS)]
    faults = [f'README.md: it says "{old}", which is "{new}"' for old, new in zip(found, phrases) if old != new]
    print(*faults, sep='\n', end='\n' * bool(faults))
    sys.exit(bool(faults))

def keep_break(old, new):
    """The new phrase, with the line end where the old one has it."""
    if '\n' not in old:
        return new
    count = len(old.split('\n')[0].split())
    words = new.split()
    return ' '.join(words[:count]) + '\n' + ' '.join(words[count:])

if __name__ == '__main__':
    main()
