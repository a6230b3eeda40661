#!/usr/bin/env python3
"""Says which crates a change can reach: whose proofs may need another look before the gate.

usage: reach.py [BASE] [--top=TOP]

It compares the files of crates/ below TOP (the top of this repository), committed or not, with those of the commit where
the branch left another (main). For each crate that changed it takes two sums: what crates above can rest on, now and then.
  - each definition of specs/, with what its words mean
  - each type with its fields, each constant, each trait, and the ghost items of each impl
  - the head of each `pub` function and of each method of a trait: types, `requires`, `ensures`
  - each lemma's statement, and each definition of proofs/, for the crates that cite it by name
A body, a proof, a private function, a comment and what is new alone aren't in it: such a change reaches no other crate.
If something else changed or went, it reaches each crate above, by crates.txt; a lemma reaches those that cite it.
"""
import re
import subprocess
import sys
import tarfile
import tempfile
from pathlib import Path
sys.dont_write_bytecode = True
sys.path.append(str(Path(__file__).resolve().parents[1]))
from trusted import File, Module, words_of

WHOLE = {'struct', 'enum', 'type', 'const', 'static'}
# A definition whose equations others see. Any other is a lemma; they see only its statement.
IS_SEEN = re.compile(r'(?:pub )?(?:abbrev|unfoldable|data|record)\b')


def squeezed(text):
    """A text without what layout may change."""
    return ' '.join(text.split())


def tight(text):
    """A text of Rust without what `rt fmt` may change."""
    return re.sub(r',(?=[)}\]])', '', re.sub(r'\s*([](){},;[])\s*', r'\1', squeezed(text)))


def meaning(place, text):
    """What the words of a text mean by the `use` lines of its file, where these say it."""
    marks = {name for name in place.names if '◌' in name and all(part in text for part in name.split('◌'))}
    words = marks | {part for word in words_of(text) for part in (word, word.partition('.')[0])}
    return tuple(sorted((word, *map('.'.join, sorted(place.names[word]))) for word in words if word in place.names)
                 + sorted((word, '.'.join(place.files[word])) for word in words if word in place.files))


def statement(definition):
    """The statement of a lemma: its first line and those that are indented below it."""
    first, *rest = definition.text.split('\n')
    end = next((place for place, line in enumerate(rest) if not line.startswith(' ')), len(rest))
    return '\n'.join([first, *rest[:end]])


def files_of(folder, crate):
    """The files of definitions or of lemmas below a folder."""
    for path in sorted(folder.rglob('*.antt')):
        yield File(crate, path.relative_to(folder).with_suffix('').parts, path.read_text())


def modules_of(src, crate):
    """The modules of a crate, by their paths."""
    roots = [file for file in ('lib.rt', 'main.rt') if (src / file).exists()]
    todo = [((), file) for file in roots]
    for path, file in todo:
        module = Module(crate, path, (src / file).read_text())
        yield module
        below = [path + (name,) for name in module.mods]
        todo += [(at, '/'.join(at) + '.rt') for at in below if (src / '/'.join(at)).with_suffix('.rt').exists()]


def parts_of(module):
    """The parts of a module on which other crates can rest: what each is called, and its text."""
    for item in module.items.values():
        if item.kind in WHOLE:
            yield f'{item.kind} {item.name}', item.head + item.body
        elif item.kind == 'trait' or item.kind == 'fn' and item.public:
            yield f'{item.kind} {item.name}', item.head
        for name, text in item.ghosts:
            yield f'{item.name} {name}', text
        for method in item.inner:
            yield f'{item.name}::{method.name}', method.head
    for part in module.impls:
        called = squeezed('impl ' + re.split(r'\bwhere\b', part.head)[0])
        yield called, part.head
        yield from ((f'{called} {name}', text) for name, text in part.ghosts)
        yield from ((f'{called} {method.name}', method.head) for method in part.inner if method.public or part.trait)
    for path, name, public in module.uses:
        if public:
            yield f'pub use {name}', '::'.join(path)


def interface(top, crate):
    """What crates above can rest on: for each part of a crate its place, its name and what it says."""
    folder, found = Path(top) / 'crates' / crate, {}
    for file in files_of(folder / 'specs', crate):
        for at in file.definitions:
            found['specs/' + '/'.join(file.path), at.name] = squeezed(at.text), meaning(file, at.text)
        found['specs/' + '/'.join(file.path), 'use'] = tuple(line for line in file.uses if line.startswith('pub '))
    for file in files_of(folder / 'proofs', crate):
        for at in file.definitions:
            text = at.text if IS_SEEN.match(at.text) else statement(at)
            found['proofs/' + '/'.join(file.path), at.name] = squeezed(text), meaning(file, text)
    for module in modules_of(folder / 'src', crate):
        for called, text in parts_of(module):
            found['src/' + '/'.join(module.path), called] = tight(text), meaning(module, text)
    return found


def changes(old, new):
    """The parts that changed or went."""
    return sorted(part for part in old if new.get(part) != old[part])


def crates_below(top):
    """The crates that each crate of crates.txt names."""
    lines = [line.partition(':') for line in (Path(top) / 'crates.txt').read_text().split('\n')]
    return {name.split()[0]: rest.split() for name, colon, rest in lines if colon and not name.startswith('#')}


def above(crate, below):
    """The crates that rest on a crate, one above the other."""
    found = []
    for at in [crate, *below]:
        if at != crate and any(name == crate or name in found for name in below.get(at, ())):
            found.append(at)
    return found


def citing(top, crate, file, name, below):
    """The crates that cite a name of a file of a crate's proofs."""
    path = f'Rattle.{crate}.{file.replace("/", ".")}'
    cites = re.compile(rf'{re.escape(path)}(?:\.\{{[^}}]*(?<![\w-]){re.escape(name)}(?![\w-])| as )')
    for at in above(crate, below):
        texts = (path.read_text() for path in (Path(top) / 'crates' / at).rglob('*') if path.suffix in ('.rt', '.antt'))
        if any(cites.search(text) for text in texts):
            yield at


def rests_on(top, crate, part, below):
    """The crates that can rest on a part of a crate: those that cite a lemma, all above for any other part."""
    is_lemma = part[0].startswith('proofs/')
    return set(citing(top, crate, *part, below) if is_lemma else above(crate, below))


def git(top, *words):
    return subprocess.run(['git', '-C', top, *words], check=True, capture_output=True).stdout


def changed_crates(top, base):
    """The crates with a changed or new source, definition or proof."""
    names = git(top, 'diff', '--name-only', base, '--', 'crates')
    new = git(top, 'ls-files', '-o', '--exclude-standard', 'crates')
    found = re.findall(r'(?m)^crates/(\w+)/(?:src|specs|proofs)/.*\.(?:rt|antt)$', (names + new).decode())
    return sorted(set(found))


def files_then(top, base, crates, folder):
    """Puts the files of crates as a commit has them into a folder."""
    then = git(top, 'ls-tree', '--name-only', base, 'crates/').decode().split()
    known = [f'crates/{crate}' for crate in crates if f'crates/{crate}' in then]
    if known:
        with tempfile.TemporaryFile() as file:
            file.write(git(top, 'archive', base, *known))
            file.seek(0)
            with tarfile.open(fileobj=file) as archive:
                for at in (at for at in archive if at.isfile() and at.name.endswith(('.rt', '.antt'))):
                    to = Path(folder, at.name)
                    to.parent.mkdir(parents=True, exist_ok=True)
                    to.write_bytes(archive.extractfile(at).read())


def reached_by(top, base):
    """For each crate that changed its changed parts on which others can rest, and the crates that they reach."""
    base = git(top, 'merge-base', base, 'HEAD').decode().strip()
    crates, below = changed_crates(top, base), crates_below(top)
    with tempfile.TemporaryDirectory() as then:
        files_then(top, base, crates, then)
        for crate in crates:
            reached = {part: rests_on(top, crate, part, below)
                       for part in changes(interface(then, crate), interface(top, crate))}
            whole = set().union(*reached.values())
            yield crate, [part for part in reached if reached[part]], [at for at in below if at in whole]


def main():
    words = [word for word in sys.argv[1:] if not word.startswith('--')]
    tops = [word.partition('=')[2] for word in sys.argv[1:] if word.startswith('--top=')]
    if len(words) > 1 or len(tops) + len(words) < len(sys.argv) - 1:
        sys.exit(__doc__)
    whole, top = set(), tops[0] if tops else str(Path(__file__).resolve().parents[2])
    for crate, parts, reached in reached_by(top, words[0] if words else 'main'):
        print(f'{crate}: {len(parts)} changed parts on which crates above can rest')
        for file, name in parts:
            print(f'  {file}: {name}')
        whole |= set(reached)
    print('reaches: ' + (' '.join(at for at in crates_below(top) if at in whole) or 'no other crate'))


if __name__ == '__main__':
    main()
