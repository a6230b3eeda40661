#!/usr/bin/env python3
"""Makes docs/BOOK.md: the law `headline`, and all that it needs of crates/, by chapters.

usage: book.py [TOP] [--write | --check]

Which definitions and types the law needs is found by trusted.py. Their texts and comments are those of the files in
crates/; the chapters and their sentences are in CHAPTERS. A chapter has the files that begin with one of its paths;
the longest path counts. A file follows those that use it. In a file definitions keep their order. A line of more than
120 columns is broken: of a comment between words, of code at a space, where few brackets are open.
  TOP      the top of the repository (the one that this file is in)
  --write  puts the page into docs/BOOK.md; without it the page is printed
  --check  prints a line if docs/BOOK.md is another text; status 1 if it is
"""
import re
import sys
import textwrap
from collections import defaultdict, namedtuple
from itertools import groupby
from pathlib import Path
sys.dont_write_bytecode = True
from trusted import FIRST, Definition, Tree, added, close, lines_of

LAW = 'crates/office_core/src/laws.rt'
Chapter = namedtuple('Chapter', 'name paths text follows')
CHAPTERS = [
    Chapter(
        'What an office is',
        ['office_core', 'office_store_keeper', 'office_mail/specs/Kept.antt', 'office_mail/specs/Laws.antt',
         'office_mail/specs/Runs.antt'],
        'An office gets texts, and keeps under each sender and number the first text that is a message. Orders say '
        'which messages a run covers, and a run is ready when all of these are kept. The office finishes ready runs '
        'one after another, and its history is a list of such steps.',
        "Debian Developer's Reference 5.13 on what testing is. Senders, numbers and orders are this office's own."),
    Chapter(
        'What a run decides',
        ['office_core_facts', 'testing_rules_model', 'testing_rules_reports', 'testing_rules_items'],
        'A run reads the covered messages and the testing before it, and nothing else. Each source that is newer in '
        'unstable than in testing gets an excuse, which lists every reason that keeps it out. Then removals, groups '
        'and single sources move in this order, each if it breaks no package that worked, and the others wait.',
        "Debian Developer's Reference 5.13.2 with 5.13.2.1 and 5.13.2.3, Debian Policy 5.6.17 on urgencies. The "
        "words of hints are named after britney2's."),
    Chapter(
        'Which packages can be installed',
        ['testing_install'],
        'A package has clauses, and another package meets a clause by its name and version or by what it provides. '
        'A set of packages is closed if every clause of each member is met by a member. A package can be installed '
        'if some closed set of the packages on its architecture contains it.',
        'Debian Policy 7.1, 7.2 and 7.5: Depends, Pre-Depends and Provides. Conflicts and Breaks are left out.'),
    Chapter(
        'What a message says',
        ['office_mail', 'office_mail_setup', 'deb_control', 'testing_rules_items/src',
         'testing_rules_items/specs/Distinct.antt'],
        'A message is control data: paragraphs of fields, of which the first names the sender, the number and the '
        'kind. The kind decides which role the sender needs and which fields must be there. A text is a message, or '
        'it has one fault, the first in a fixed order.',
        'Debian Policy 5.1 on control data, 5.3 and 5.6 on fields, 7.1 on relations. The kinds of messages are this '
        "office's own."),
    Chapter(
        'What a version is',
        ['deb_version'],
        'A version has an epoch, an upstream version and a revision, which are compared in this order. An upstream '
        'version or a revision is cut into blocks, each of non-digits and then digits. Digits are compared as '
        'numbers, non-digits by weights, of which `~` has the least.',
        'Debian Policy 5.6.12.'),
]
NOTATION = [
    ('`A → B`', 'from A to B: of values a function, of statements "if A then B"'),
    ('`(x : A) → B`', 'B for every x of type A'),
    ('`(x : A) × B`, `A × B`', 'some x of type A with B; both A and B'),
    ('`A ⊎ B`, `A ↔ B`, `⊥`', 'A or B; each if the other; never'),
    ('`x ≡ y`, `x == y`', 'the statement that both are equal; the test, which is true or false'),
    ('`record`, `data`', 'all of the lines below it hold, or stand in it; one of the lines below it'),
    ('`record x { f = e }`', 'x, but for its field f, which is e'),
    ('`abbrev`, `unfoldable`', 'a definition by the equations below it, of which the first that fits counts'),
    ('`elim x [ p ↦ a | _ ↦ b ]`', 'a where x has the form p, and else b'),
    ('`x ∷ xs`, `xs ++ ys`, `[]`', 'x and then xs; xs and then ys; the empty list'),
    ('`λ x. e`, `f x y`', 'the function from x to e; f of x and y'),
    ('`do`, `>>=`, `Ok`, `Err`', 'steps in turn, of which the first fault is the answer; an answer; a fault'),
    ('`ℕ`, `ℤ`, `List ℕ`', 'numbers from 0; whole numbers; also a text, by its bytes'),
]


WIDEST, SHORTEST = 120, 30
# The cost of a break before a word, or after one, and for each open bracket.
BEFORE = {'→': 0, '↔': 0, 'then': 1, 'else': 1, '|': 1, '&&': 1, '||': 1, '×': 1, '++': 1, '>>=': 1, '∷': 3, '(': 5}
AFTER = {';': -3, ',': 1, 'in': 1, '=': 2, '↦': 5}
ANYWHERE, BRACKET = 7, 4


def label_of(at):
    """The file of a definition or of a type, from the top."""
    if isinstance(at, Definition):
        return at.file.label
    base = Path('crates', at.module.crate, 'src', *at.module.path)
    return str(base.with_suffix('.rt') if at.module.path else base / 'lib.rt')


def wrapped(text):
    """A paragraph in lines of at most 120 columns."""
    return textwrap.fill(text, WIDEST, break_long_words=False, break_on_hyphens=False)


def spaces_in(line):
    """The place of each space of a line of code outside of quotes, and how many brackets are open there."""
    depth, is_quoted = 0, False
    for place, char in enumerate(line):
        is_quoted ^= char == '"'
        if not is_quoted:
            depth += (char in '([{') - (char in ')]}')
        if char == ' ' and not is_quoted:
            yield place, depth


def break_cost(line, place, depth):
    """What a break at a space of a line of code costs: the less, the better it reads."""
    last, first = line[:place].split()[-1], line[place:].split()[0]
    costs = BEFORE.get(first), BEFORE.get(first[0]), AFTER.get(last), AFTER.get(last[-1])
    return min((cost for cost in costs if cost is not None), default=ANYWHERE) + BRACKET * depth


def folded(line):
    """A line of code in lines of at most 120 columns, with the same words; all but the first are further in."""
    lines, further = [], ' ' * (len(line) - len(line.lstrip()) + 4)
    while len(line) > WIDEST:
        least = len(line) - len(line.lstrip()) + SHORTEST
        fitting = [(break_cost(line, place, depth), -place)
                   for place, depth in spaces_in(line) if least <= place <= WIDEST]
        if not fitting:
            break
        place = -min(fitting)[1]
        lines.append(line[:place])
        line = further + line[place + 1:]
    return lines + [line]


def commented(lines, mark):
    """The lines of a comment, in lines of at most 120 columns if one of them has more."""
    if all(len(line) <= WIDEST for line in lines):
        return lines
    indent = lines[0][:len(lines[0]) - len(lines[0].lstrip())]
    text = ' '.join(line.strip().removeprefix(mark).strip() for line in lines)
    return textwrap.wrap(text, WIDEST, initial_indent=f'{indent}{mark} ', subsequent_indent=f'{indent}{mark} ',
                         break_long_words=False, break_on_hyphens=False)


def narrow(text):
    """Code and its comments in lines of at most 120 columns."""
    found = []
    for mark, lines in groupby(text.split('\n'), key=lambda line: (re.match(r' *(///|--|//) ', line) or ['', ''])[1]):
        found += commented([*lines], mark) if mark else [part for line in lines for part in folded(line)]
    return '\n'.join(found)


def followed(graph, start):
    """What can be reached in a graph, in an order in which each follows what names it, if no circle forbids it."""
    order, seen, todo = [], set(), [(start, iter([start]))]
    while todo:
        at, following = todo[-1]
        to = next((to for to in following if to not in seen), None)
        if to is None:
            order.append(at)
            todo.pop()
        else:
            seen.add(to)
            todo.append((to, iter(sorted(graph[to], reverse=True))))
    return order[-2::-1]


class Book:
    """What the headline needs, by files in their order."""
    def __init__(self, top):
        self.top, self.tree = Path(top), Tree(top)
        tree = self.tree
        public, first = tree.started(FIRST[0][1])
        beside = added(tree)
        found = [at for at in tree.named_from(public, first, beside) if at is not None and at not in first]
        self.files, self.used, graph = defaultdict(list), defaultdict(set), defaultdict(set)
        for at in found:
            self.files[label_of(at)].append(at)
        for at in first + found:
            for to in tree.named_by(at, public):
                if to in found and label_of(to) != label_of(at):
                    graph[label_of(at)].add(label_of(to))
                    self.used[label_of(to)].add(to.name)
        self.order = [label for label in followed(graph, LAW) if label in self.files]
        self.definitions = [at for at in found if isinstance(at, Definition)]
        self.types = [at for at in found if not isinstance(at, Definition) and at.kind in ('struct', 'enum')]

    def library(self):
        """The names of the toolchain's libraries that the definitions use, by their files."""
        names = defaultdict(set)
        for at in self.definitions:
            words = set(re.findall(r"[^\s(){}\[\],;.]+", at.text))
            for name, paths in at.file.names.items():
                parts = {part for part in name.split('◌') if part}
                names_it = parts <= words if '◌' in name else name in words
                for crate, *path in (path for path in paths if names_it):
                    if crate not in self.tree.crates and 'declared' not in path:
                        names['.'.join([crate, *path[:-1]])].add(name)
        return names

    def chapter_of(self, label):
        """The chapter of a file: the one with the longest path that it begins with."""
        path = label.removeprefix('crates/')
        fitting = [(len(start), chapter.name) for chapter in CHAPTERS for start in chapter.paths
                   if path == start or path.startswith(start + '/')]
        if not fitting:
            raise ValueError(f'no chapter of tests/book.py has {label}')
        return max(fitting)[1]

    def type_text(self, at):
        """A type as its file has it, with its comment and without attributes, and what contracts see of it."""
        source = (self.top / label_of(at)).read_text()
        head = re.search(rf'(?m)^(?:pub(?:\([a-z]+\))? )?{at.kind} {at.name}\b(<[^>]*>)?', source)
        start, over = head.start(), head[1] or ''
        body = re.compile(r'[{(;]').search(source, start)
        end = source.index('\n', close(source, body.start()) if body[0] != ';' else body.start())
        before = source[:start].rstrip('\n').split('\n')
        comment = []
        while before and before[-1].startswith(('///', '#[')):
            comment.insert(0, before.pop())
        lines = [line for line in comment + source[start:end].split('\n') if not line.lstrip().startswith('#[')]
        ghosts = [ghost for part in self.tree.impls[at] if part.trait == 'Model' for ghost in part.ghosts]
        seen = [f'    ghost {name} = {" ".join(text.split())};' for name, text in ghosts if name != 'invariant']
        return '\n'.join(lines + ([f'impl{over} Model for {at.name}{over} {{', *seen, '}'] if seen else []))

    def section(self, label):
        """The heading of a file, what is used of it before, and its definitions or types."""
        items, names = self.files[label], ', '.join(f'`{name}`' for name in sorted(self.used[label]))
        yield f'### `{label}`'
        if label.endswith('.rt'):
            source = (self.top / label).read_text()
            items = sorted(items, key=lambda at: re.search(rf'\b{at.kind} {at.name}\b', source).start())
            yield wrapped(f'Types of the program. Used by others: {names}.')
            yield '```rust\n' + narrow('\n\n'.join(self.type_text(at) for at in items)) + '\n```'
        else:
            file = items[0].file
            yield wrapped(' '.join(line.removeprefix('--').strip() for line in file.head))
            yield wrapped(f'Used by others: {names}.')
            whole = ['\n'.join(at.lines).strip('\n') for at in file.definitions if at in items]
            yield '```agda\n' + narrow('\n\n'.join(whole)) + '\n```'

    def law(self):
        """The text of the law."""
        source = (self.top / LAW).read_text()
        return re.search(r'(?m)^(?:///.*\n)+pub fn headline\(\)\n(?:.*\n)*?\{\}$', source)[0]

    def front(self):
        """The head of the page: what it is, how it is made, how it is written."""
        yield '# The book: all that the headline says'
        yield wrapped(
            f'The law `headline` says what every office does. This page has it, and all that it needs: '
            f'{len(self.definitions)} definitions of {lines_of(self.definitions):,} lines, counted as in '
            f'`docs/TRUST.md`, and the {len(self.types)} types of the program that they name. A reviewer of the '
            'headline needs to read nothing else. A release manager can read the sentences at the head of each '
            'chapter, and chapters 2 and 3.')
        yield wrapped(
            '`tests/book.py --write` makes this page from the files that it names, and `tests/trust.py` compares it '
            'with them. A file comes after those that use it. In a file each definition comes after those that it '
            'uses, so the last one often says what the file is for. Comments are those of the files. Only lines of '
            'more than 120 columns are broken.')
        rows = [f'| {this} | {says} |' for this, says in NOTATION]
        yield '\n'.join(['| Notation | How to read it |', '|---|---|', *rows])
        yield '## The headline'
        yield f'It stands in `{LAW}`. `new_office` keeps nothing, and has no finished run.'
        yield f'```rust\n{narrow(self.law())}\n```'

    def back(self):
        """The names that the toolchain's libraries define."""
        yield '## Words of the toolchain'
        yield ('The definitions use these names of the toolchain\'s libraries. The file is one below `specs/` of the '
               'library.')
        yield '\n'.join(['| File | Names |', '|---|---|'] + [
            f'| `{file}` | {", ".join(f"`{name}`" for name in sorted(names)).replace("|", chr(92) + "|")} |'
            for file, names in sorted(self.library().items())])

    def text(self):
        """The whole page."""
        parts = [*self.front()]
        for number, chapter in enumerate(CHAPTERS, 1):
            parts += [f'## {number}. {chapter.name}', wrapped(chapter.text), wrapped(f'It follows {chapter.follows}')]
            for label in self.order:
                if self.chapter_of(label) == chapter.name:
                    parts += self.section(label)
        return '\n\n'.join(parts + [*self.back()]) + '\n'


def main():
    words = [word for word in sys.argv[1:] if not word.startswith('--')]
    top = Path(words[0] if words else Path(__file__).resolve().parents[1])
    text, page = Book(top).text(), top / 'docs' / 'BOOK.md'
    if '--write' in sys.argv:
        page.write_text(text)
    elif '--check' not in sys.argv:
        print(text, end='')
    elif not page.exists() or page.read_text() != text:
        sys.exit('docs/BOOK.md isn\'t what its definitions make (run tests/book.py --write)')


if __name__ == '__main__':
    main()
