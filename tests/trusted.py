#!/usr/bin/env python3
"""Computes which definitions of crates/*/specs a reader must believe: those that a public contract reaches.

usage: trusted.py [TOP] [--claims | --list | --check | --write | --twice | --why=NAME]

A public contract is what a caller from outside reads of an item that lib.rt passes on as `pub`, also by `pub use` of
another crate: a function with its `requires` and `ensures`, a trait, the fields of a type, what its `impl Model` and
other impls say of it, and its `pub` methods. It reads a type's invariant only where the type has a `pub` field: no
other caller learns it. From their words it continues, by `ghost use` and `use`, to definitions and all that these name,
and to what contracts see of types. All others are steps: they serve the proofs.
It counts lines without comments, blank ones and `use`, twice: from the items of the crates that users call (USERS),
but for what only crates above call (INNER), which decides what is a step, and from the `pub` items of every crate.
What the first commands and routes need is counted apart from what this office added. A definition of both has a last
row for all that was added, which names a definition of ADDED: the claims of FIRST don't follow that name.
  TOP         the top of the repository (the one that this file is in)
  --claims    for each claim of FIRST and LATER its row of docs/TRUST.md: the lines that a reader must believe for it,
              those of them that no claim above it needs, and what no claim needs: laws on which nothing rests, other
              calls; then what the claims of FIRST need together, and what all need
  --list      each definition, its lines, and whether it is believed, a step, or a step that contracts of a crate cite
  --check     a line for each definition on the wrong side of `specs/steps/`, for each definition that names one of ADDED
              elsewhere than in a last row, for each claim whose row in docs/TRUST.md, or of FIRST in README.md, misses
              or has another count, and for each other count of lines there that is none here; status 1 if there is one
  --write     puts the counts of this tree into both pages
  --twice     the definitions that are in two crates under one name with one text
  --why=NAME  what names each definition of this name, back to a public contract
"""
import re
import sys
from collections import defaultdict
from pathlib import Path

USERS = ['deb_version', 'deb_control', 'testing_install', 'testing_rules', 'office_mail', 'office_store',
         'office_core_queries', 'office_core_check', 'office_core_breaks', 'office_http', 'testing_rules_refusals',
         'office_cli_words', 'office_cli', 'office', 'archive_plan', 'archive_lists', 'archive_cli', 'office_plan',
         'office_sync']
INNER = {('office_core_replay', 'settle_behind')}
# What is claimed of the first commands and routes, each with the calls and laws whose contracts say it: CRATE::CALL,
# CRATE::TYPE::METHOD, `crate` alone for all of a crate's calls, and after a @ the only clause that is meant.
FIRST = [
    ('the headline', ['office_core::headline']),
    ('.. of calls and whole replays', [
        'office_core::steps_follow', 'office_core::delivered', 'office_core::unseen', 'office_core::by_role',
        'office_core::same_texts', 'office_core::runs_stay',
        'office_core::empty_is_sound', 'office_core::Office::deliver', 'office_core::Office::deliver_together',
        'office_core::Office::settle', 'office_core_replay::replays_are_steps', 'office_core_replay::replay',  'office_core_replay::replay_status', 'office_mail::same_set', 'office_mail::later_mail']),
    ('versions', ['deb_version::Version']),
    ('control data', [f'deb_control::{kind}' for kind in (
        'Paragraphs', 'Paragraph', 'Clauses', 'Provisions', 'Binary', 'Relation')]),
    ('installable rows', ['testing_install::installable', 'testing_install::installable_counted']),
    ('the rules', ['testing_rules::Facts', 'testing_rules::Testing', 'testing_rules::excuses', 'testing_rules::migrate',
                   'testing_rules::excuses_text', 'testing_rules::update_text', 'testing_rules::testing_text',
                   'testing_rules_laws::facts_stand_for_sets', 'testing_rules_laws::watched_rows_stay']),
    ('setups, messages and bags', [f'office_mail::{call}' for call in (
        'Setup', 'read_message', 'ready', 'Bag', 'FromRead', 'ToWrite')]),
    ('a store in memory', ['office_store_keeper::Keeper', 'office_store_keeper::Plain']),
    ('a store in a file', [f'office_store::{call}' for call in ('Tables', 'open_store', 'open_tables', 'left_opens')]),
    ('the office', [f'office_core::Office::{call}' for call in (
        'new', 'into_keeper', 'deliver', 'settle', 'status', 'testing_text', 'excuses_text', 'update_text')]),
    ('a connection', [f'office_http::{call}' for call in (
        'serve_one', 'serve_with_routes', 'requests_are_steps', 'old_requests_stay@others', 'pages_post_nothing')]),
    ('a life', [f'office_http::{law}' for law in ('life', 'calls_are_events', 'life_finishes')]),
    ('the words', ['office_cli_words::read_words@first', 'office_cli_words::compare_status']),
]
# What is claimed of the calls, pages and commands that this office added.
LATER = [
    ('more calls of the office', ['office_core::Office', 'office_core_why::one_seen', *(
        f'office_core_breaks::{call}' for call in (
            'question_in', 'first_broken_is_offender', 'allowed_breaks_nothing')), *(
        f'office_core_outcome::{law}' for law in ('try_is_next_run', 'trials_have_one_end', 'proposals_are_trials'))]),
    ('every route', [f'office_http::{call}' for call in (
        'serve_one', 'serve_as_hosts', 'requests_are_steps', 'requests_have_one_answer', 'bound_mail', 'lint_is_mail',
        'old_requests_stay', 'pages_post_nothing')]),
    ('every command', ['office_cli_words::read_words']),
    ('certificates', [f'testing_install_why::{call}' for call in (
        'certificate', 'is_shown', 'groundless_isnt_installable', 'each_has_an_order')]),
    ('what no group frees', [
        'testing_rules_refusals::no_group_frees', 'office_core::Office::propose', 'office_core_laws::stuck_stays']),
    ('whole stores, bags of kept mail, lists', [
        'office_core_check', 'office_core_queries', 'office_core_laws::order_is_taken']),
    ('plans of a suite, and what is due to an office', ['archive_plan', 'archive_lists']),
    ('what a run moves', [f'office_core_laws::{law}' for law in (
        'moves_only_what_is_there', 'checked_index_has_what_moves', 'due_mail_brings_unstable_to_index',
        'printed_unstable_has_items')]),
]
# What the row of other calls claims of private functions of the commands.
PRIVATE = [f'office_cli::{call}' for call in ('report_text', 'counted_text', 'order_on')]
# The definitions of what was added that the last row of another names.
ADDED = {
    'office_http_requests': {'added_asked'},
    'office_http': {
        'added_page', 'added_action', 'short_page', 'IsFoundForAdded', 'IsFoundByAdded'},
    'office_cli_words': {'added_asked'},
}
STEPS = 'steps'  # the folder of specs/ with what serves proofs alone
CLAUSE = re.compile(r'\b(requires|ensures|before)\b\s*[\w-]*\s*$')
ITEM = re.compile(r'(?P<pub>pub(?:\([a-z]+\))?\s+)?(?P<ghost>ghost\s+)?(?:unsafe\s+)?(?:const\s+(?=fn\b))?(?:(?P<kind>'
                  r'use|mod|fn|struct|enum|trait|type|const|static|impl)\b\s*|(?P<value>\w+)\s*[=:]\s*(?=\{))')
WORD = re.compile(r"(?<![\w.'-])[^\W\d][\w'-]*(?:\.[\w'-]+)?")
SIGNATURE = re.compile(r'(?:(?:pub|abbrev|unfoldable|record|data) )*(?P<name>[^\s(){}]+)(?: \(.*?\)| \{.*?\})* :( |$)')

def close(text, start):
    """The place after the bracket that closes the one at start."""
    depth = 0
    for found in re.compile(r'[][(){}]').finditer(text, start):
        depth += 1 if found[0] in '([{' else -1
        if depth == 0:
            return found.end()
    raise ValueError('an open bracket: ' + text[start:start + 80])

def with_clause(head, name):
    """A function's head with what it requires and, of what it ensures, one clause."""
    found = [(m.start(), close(head, m.end() - 1), m[2] == name or m[1] == 'requires')
             for m in re.finditer(r'\b(requires|ensures)\b\s*([\w-]*)\s*\{', head)]
    if not any(head[start:end].startswith('ensures') for start, end, kept in found if kept):
        raise ValueError(f'no clause {name} in {head[:80]}')
    return head[:found[0][0]] + ' '.join(head[start:end] for start, end, kept in found if kept)

def parts(text):
    """The text cut at the commas outside brackets."""
    found, depth = [''], 0
    for c in text:
        depth += (c in '([{') - (c in ')]}')
        found = found + [''] if c == ',' and depth == 0 else found[:-1] + [found[-1] + c]
    return [p.strip() for p in found if p.strip()]

def code(text):
    """A source without comments and without the insides of strings and characters."""
    return re.sub(r'(?s)//[^\n]*|"(?:\\.|[^"\\])*"|\'(?:\\.[^\']*|[^\\\'\n])\'',
                  lambda m: '' if m[0].startswith('//') else '0', text)

def rust_paths(path):
    """a::{b, c as d} as pairs of a path and the name that it gets."""
    path = ' '.join(path.split())
    if path.endswith('}'):
        front, inner = path[:-1].split('{', 1)
        return [pair for part in parts(inner) for pair in rust_paths(front + part)]
    path, _, alias = path.removesuffix('::self').partition(' as ')
    return [(path.split('::'), alias or path.split('::')[-1])]

def words_of(text):
    """The words that may name something: no field, and nothing that the text binds itself."""
    text = re.sub(r'(?m)^\s+(?:pub )?[\w-]+ :', ' :', text)
    text = re.sub(r'([{;]\s*)[\w-]+ = ', r'\1', text)
    binders = re.findall(r"[({]((?:[\w'-]+ )+): |λ ((?:[\w'-]+ ?)+)\.", text)
    bound = {w for names in binders for w in ' '.join(names).split()}
    return {w for w in WORD.findall(text) if w.split('.')[0] not in bound}

class Place:
    """What the words of a file mean: the names and the files that its use lines bring in."""
    def __init__(self, crate, path):
        self.crate, self.path, self.names, self.files = crate, path, defaultdict(set), {}
    def use(self, line):
        """Rattle.CRATE.specs.FILE.{a, b as c}, or Rattle.CRATE.specs.FILE as d"""
        found = re.match(r'Rattle\.(\w+)\.specs\.([\w.]+?)(?:\.\{(.*)\}|(?: as (\w+))?);?$', line)
        if found:
            path = (found[1], *found[2].split('.'))
            for name, alias in re.findall(r'([^\s,]+)(?: as ([^\s,]+))?', found[3] or ''):
                self.names[alias or name].add(path + (name,))
            self.files[found[4]] = path

class Item:
    """What a caller reads of a function, a type, a trait, a constant or an impl."""
    def __init__(self, module, kind, name, public, head, body):
        self.module, self.kind, self.name, self.public, self.head, self.body = module, kind, name, public, head, body
        self.inner, self.ghosts = [], []

class Module(Place):
    """A source file: its items, impls, modules and `use` lines."""
    def __init__(self, crate, path, text):
        super().__init__(crate, path)
        self.items, self.impls, self.mods, self.uses = {}, [], {}, []
        self.parse(code(text), None)
    def parse(self, text, inside):
        """Takes the items of a file, or those inside a trait or an impl."""
        k = 0
        while text[k:].strip():
            k = re.compile(r'\s*').match(text, k).end()
            found = ITEM.match(text, k)
            if found and found['kind']:
                end, body = self.end(text, found.end(), found['kind'])
                self.add(found, text[found.end():body], text[body:end], inside)
            elif found:
                end = close(text, found.end())
                inside.ghosts.append((found['value'], text[found.end():end]))
            else:
                end = close(text, text.index('[', k)) if text[k] == '#' else self.end(text, k, 'mod')[0]
            k = end
    def end(self, text, k, kind):
        """Where the item ends, and where its body in braces starts."""
        start = k
        while k < len(text) and text[k] not in ';':
            if text[k] == '{' and kind not in ('use', 'const', 'static', 'type') and not CLAUSE.search(text[start:k]):
                return close(text, k), k
            k = close(text, k) if text[k] in '([{' else k + 1
        return k + 1, k + 1
    def add(self, found, head, body, inside):
        kind, public, name = found['kind'], (found['pub'] or '').strip() == 'pub', re.match(r'\w*', head)[0]
        item = Item(self, kind, name, public, head, body)
        if kind == 'use' and found['ghost']:
            self.use(head.strip())
        elif kind == 'use':
            self.uses += [(path, name, public) for path, name in rust_paths(head.rstrip(';'))]
        elif kind == 'mod':
            self.mods[name] = public
        elif kind == 'impl':
            plain = head.replace('->', '')
            while '<' in plain:
                plain = re.sub(r'<[^<>]*>', '', plain)
            item.trait, item.of = re.match(r'(?:([\w:]+) for )?([\w:]*)', plain.strip()).groups()
            self.impls.append(item)
        elif inside:
            inside.inner.append(item)
        else:
            self.items[name] = item
        if kind in ('trait', 'impl'):
            self.parse(body[1:-1], item)

class Definition:
    """A definition with its comment."""
    def __init__(self, file, name, lines):
        self.file, self.name, self.lines = file, name, lines
        self.text = '\n'.join(l for l in lines if l.strip() and not l.lstrip().startswith('--'))
        self.count = len(self.text.split('\n'))

class File(Place):
    """A file of definitions: its head, its use lines and its definitions in order, each with its comment."""
    def __init__(self, crate, path, text):
        super().__init__(crate, path)
        self.uses, self.definitions, self.label = [], [], f"crates/{crate}/specs/{'/'.join(path)}.antt"
        lines, chunk, named = text.rstrip('\n').split('\n'), [], None
        k = next((k for k, line in enumerate(lines) if not line.startswith('--')), len(lines))
        self.head = lines[:k]
        for line in lines[k:] + ['--']:
            if re.match(r'(pub )?use ', line):
                self.uses.append(line)
                self.use(line.removeprefix('pub ').removeprefix('use '))
                continue
            starts = SIGNATURE.match(line) if line[:1].strip() and not line.startswith('--') else None
            if named and (starts or line.startswith(('--', 'infix'))):
                self.definitions.append(Definition(self, named, chunk))
                chunk, named = [], None
            named = starts['name'] if starts else named
            chunk.append(line)

class Tree:
    """The crates of a repository, and which definitions their contracts reach."""
    def __init__(self, top):
        self.crates = re.findall(r'(?m)^(\w+).*?:', (Path(top) / 'crates.txt').read_text())
        self.modules, self.files, self.passed, self.impls, self.known = {}, {}, {}, defaultdict(list), {}
        for crate in self.crates:
            src, specs = Path(top) / 'crates' / crate / 'src', Path(top) / 'crates' / crate / 'specs'
            self.read_modules(crate, (), src, 'lib.rt' if (src / 'lib.rt').exists() else 'main.rt')
            for file in sorted(specs.rglob('*.antt')):
                path = file.relative_to(specs).with_suffix('').parts
                self.files[(crate, *path)] = File(crate, path, file.read_text())
            for use in getattr(self.files.pop((crate, 'Lib'), None), 'uses', []):
                path = tuple(use.removeprefix('pub use Rattle.').split('.'))
                self.passed[crate, path[-1]] = (path[0],) + path[2:]
        self.named = {(f.crate, *f.path, d.name): d for f in self.files.values() for d in f.definitions}
        for item in (item for module in self.modules.values() for item in module.impls):
            self.impls[self.find(item.module, item.of.split('::'))].append(item)
    def read_modules(self, crate, path, src, file):
        module = self.modules[crate, path] = Module(crate, path, (src / file).read_text())
        for name in module.mods:
            self.read_modules(crate, path + (name,), src, '/'.join(path + (name,)) + '.rt')
    def find(self, module, path, depth=0):
        """The item or module that a path names in a module, if this repository has it."""
        name, below, found = path[0], (module.crate, module.path + (path[0],)), None
        if name in ('crate', 'self', 'super'):
            found = self.modules[module.crate, {'crate': (), 'self': module.path, 'super': module.path[:-1]}[name]]
        elif below in self.modules or name in module.items:
            found = self.modules.get(below) or module.items[name]
        else:
            for use, alias, _ in module.uses if depth < 20 else []:
                if alias in (name, '*'):
                    found = found or self.find(module, use if alias == name else use[:-1] + [name], depth + 1)
            found = found or self.modules.get((name, ()))
        return self.find(found, path[1:], depth + 1) if path[1:] and isinstance(found, Module) else found
    def surface(self, crate):
        """The items that a caller of a crate can name; of a program all that its modules offer each other."""
        todo, seen = [self.modules.get((crate, ()))], set()
        while todo:
            at = todo.pop()
            if isinstance(at, Module) and at not in seen:
                todo += [item for item in at.items.values() if item.public]
                program = 'main' in self.modules[at.crate, ()].items
                todo += [self.find(at, [n]) for n, public in at.mods.items() if public or program]
                todo += [self.find(at, path) for path, _, public in at.uses if public]
            seen.add(at)
        return {item for item in seen if isinstance(item, Item)}
    def said(self, item, public):
        """What a caller reads of an item, and what contracts see of a type that no caller can name."""
        impls = [i for i in self.impls[item] if self.find(i.module, (i.trait or 'Self').split('::')) in public | {None}]
        yield item.module, item.head
        view = ' '.join(text for i in impls if i.trait == 'Model' for name, text in i.ghosts if name == 'view')
        fields = parts(item.body[1:-1]) if item.kind in ('struct', 'enum') else []
        is_open = item in public and any(re.match(r'(?s)(?:#\[.*?\]\s*)*pub\s', field) for field in fields)
        for field in fields:
            name = re.sub(r'(?s)#\[.*?\]|\bpub\b', '', field).split(':')[0].strip()
            if not view or item.kind == 'enum' or re.search(rf'\.{name}\b', view):
                yield item.module, field
        for part in impls + [item] * (item.kind == 'trait'):
            yield from ((part.module, text) for name, text in part.ghosts if name != 'invariant' or is_open)
            yield from ((part.module, f.head) for f in part.inner
                        if item in public and (f.public or part.kind == 'trait' or part.trait))
    def believed(self, crates, inner=()):
        """The definitions that the public contracts of these crates reach, each with what names it."""
        public = set().union(*(self.surface(crate) for crate in crates))
        public = {item for item in public if (item.module.crate, item.name) not in inner}
        return self.reached(public, sorted(public, key=lambda i: (i.module.crate, i.name)))
    def started(self, starts):
        """The public items of these calls, and what is read of them first."""
        public, first = set(), []
        for start, _, clause in (start.partition('@') for start in starts):
            crate, *path = start.split('::')
            found = {item for item in self.surface(crate) if not path or item.name == path[0]}
            if start in PRIVATE:
                found = {i for m in self.modules.values() if m.crate == crate for i in m.items.values() if i.name == path[0]}
            if not found:
                raise ValueError(f'{crate} has no public {path[0]}')
            if path[1:]:
                impls = [i for item in found for i in self.impls[item]]
                found, methods = set(), [f for part in impls for f in part.inner if f.name == path[1]]
                first += methods
            elif clause:
                found = {Item(i.module, i.kind, i.name, i.public, with_clause(i.head, clause), i.body) for i in found}
            public, first = public | found, first + [*found]
        return public, first
    def claimed(self, starts, beside):
        """The definitions that the contracts of these calls reach, by names that aren't left out."""
        key = (*starts, '', *sorted(at.file.label + at.name for at in beside))
        if key not in self.known:
            self.known[key] = self.reached(*self.started(starts), beside)
        return self.known[key]
    def reached(self, public, first, beside=()):
        """The definitions that the contracts of the first items reach, given those that are public."""
        whole = self.named_from(public, first, beside)
        return {at: why for at, why in whole.items() if isinstance(at, Definition)}
    def named_from(self, public, first, beside=()):
        """The definitions and the items that the contracts of the first items reach, each with what names it."""
        reached, todo = {None: None}, [(item, None) for item in first]
        for at, why in todo:
            if at not in reached:
                reached[at] = why
                todo += [(to, at) for to in self.named_by(at, public) if to not in beside]
        return reached
    def named_by(self, at, public):
        """What the text of a definition, or the contract of an item, names."""
        for place, text in [(at.file, at.text)] if isinstance(at, Definition) else self.said(at, public):
            marks = [n for n in [*place.names] + [d.name for d in getattr(place, 'definitions', [])] if '◌' in n]
            words = words_of(text) | {n for n in marks if all(p in text for p in n.split('◌'))}
            for word in sorted(words):
                yield from self.meant(place, word)
    def meant(self, place, word):
        """The definitions and the types that a word in a file means."""
        first, _, second = (word, '', '') if '◌' in word else word.partition('.')
        paths = [*place.names.get(first, ())] + [place.files[a] + (second,) for a in place.files if a == first]
        if isinstance(place, File):
            paths.append((place.crate, *place.path, first))
        else:
            item = self.find(place, [first])
            yield item if isinstance(item, Item) and item.kind in ('struct', 'enum', 'trait', 'type') else None
        for path in paths:
            path = self.passed.get(path[:2], path[:2]) + path[2:]
            paths += self.files[path[:2]].names.get(path[2], ()) if path[:2] in self.files and path[2:] else ()
            if path[1] in ('declared', 'contracts') and (path[0], ()) in self.modules and path[2:]:
                at = self.find(self.modules[path[0], ()], path[2:])
                yield at if isinstance(at, Item) else None
            yield next((self.named[path[:k]] for k in range(len(path), 2, -1) if path[:k] in self.named), None)

def place_faults(file, believed):
    """The definitions of a file that belong on the other side of `specs/steps/`, and a missing first line."""
    are_steps = file.path[0] == STEPS
    for definition in file.definitions:
        if are_steps == (definition in believed):
            yield f'{file.label}: {definition.name} is {"believed" if are_steps else "a step"}'
    if not file.head:
        yield f'{file.label}: its first line does not say what it defines'

def twice(tree):
    """The definitions that two crates have, each with its files."""
    same = defaultdict(set)
    for d in tree.named.values():
        same[d.name, ' '.join(d.text.split())].add(d.file.label)
    return sorted(' '.join([name + ':', *sorted(labels)]) for (name, _), labels in same.items() if len(labels) > 1)

def trail(at, believed):
    """A definition, what names it, and so on back to a public contract."""
    return (f'{at.name} ({at.file.label}), named by {trail(believed[at], believed)}' if isinstance(at, Definition)
            else f"the contract of {at.name} ({'::'.join((at.module.crate, *at.module.path))})")

def table(tree, users, every):
    """The lines of each crate, and of all."""
    yield 'lines of definitions: in all, believed, steps; by the contracts of every crate: believed, steps'
    for crate in tree.crates + ['all']:
        found = [d for f in tree.files.values() if crate in (f.crate, 'all') for d in f.definitions]
        whole, narrow, wide = (sum(d.count for d in found if d in s) for s in (found, users, every))
        if whole:
            yield f'{crate:28}{whole:7}{narrow:7}{whole - narrow:7}{wide:12}{whole - wide:7}'

def lines_of(definitions):
    return sum(d.count for d in definitions)

def added(tree):
    """The definitions of ADDED."""
    return {d for d in tree.named.values() if d.name in ADDED.get(d.file.crate, ())}

def of_first(tree):
    """The definitions that the claims of FIRST need together."""
    return set().union(*(tree.claimed(starts, added(tree)) for _, starts in FIRST))

def row_faults(tree):
    """The definitions that name what was added elsewhere than in a last row, whose last pattern is any other value."""
    for d in of_first(tree):
        *rows, last = d.text.split('\n')
        names = {n for n in words_of(d.text) if n in ADDED.get(d.file.crate, ())}
        if names & words_of('\n'.join(rows)) or names and not re.match(rf'{d.name} [^=]*\badded\b[^=]*= ', last):
            yield f'{d.file.label}: {d.name} names {", ".join(sorted(names))} elsewhere than in a last row'

def claims(tree, users):
    """Each claim, the lines to believe for it, and those of them that no claim above it needs; last what none needs."""
    seen = set()
    for claim, starts in FIRST + LATER:
        found = set(tree.claimed(starts, added(tree) if (claim, starts) in FIRST else ()))
        yield claim, lines_of(found), lines_of(found - seen)
        seen |= found
    left = of_laws(tree, users, seen)
    yield 'laws on which nothing else rests', None, lines_of(left)
    yield 'other calls', None, lines_of((set(users) | set(tree.claimed(PRIVATE, ()))) - seen - left)

def of_laws(tree, users, claimed):
    """The definitions that only laws need on which nothing else rests, beside those of the claims."""
    laws = {i for crate in USERS for i in tree.surface(crate) if i.kind == 'fn' and not i.body[1:-1].strip()}
    return set(tree.reached(laws, sorted(laws, key=lambda i: i.name))) & set(users) - claimed

def of_claims(tree):
    """The definitions that the claims need."""
    return set().union(*(tree.claimed(starts, ()) for _, starts in FIRST + LATER))

def of_all(tree, users):
    """The definitions that the contracts of users' calls and all claims need."""
    return of_claims(tree).union(users, tree.claimed(PRIVATE, ()))

def sums(tree, users):
    """What the first commands and routes need, what all calls and claims need, and what laws alone need beside, each
    after its words in both pages.
    """
    laws = of_laws(tree, users, of_claims(tree))
    return [('the first commands and routes need', lines_of(of_first(tree))),
            ('All claims together need', lines_of(of_all(tree, users) - laws)),
            ('laws on which nothing else rests need', lines_of(laws))]

def clauses(tree):
    """How many clauses the calls have that users can name, how many such calls have one, and the bytes of all."""
    public = set().union(*(tree.surface(crate) for crate in USERS))
    heads = [item.head for item in public if item.kind == 'fn' and item.module.crate in tree.crates]
    parts_of = [(part, f) for item in public for part in [*tree.impls[item], *[item] * (item.kind == 'trait')] for f in part.inner]
    heads += [f.head for part, f in parts_of if f.kind == 'fn' and (f.public or part.kind == 'trait' or part.trait)]
    found = [[head[m.start():close(head, m.end() - 1)] for m in re.finditer(r'\b(?:requires|ensures)\b\s*[\w-]*\s*\{', head)]
             for head in heads]
    return sum(map(len, found)), sum(map(bool, found)), sum(len(c.encode()) for of in found for c in of)

def types(tree):
    """How many types the definitions of the headline name, and how many lines these have."""
    found = tree.named_from(*tree.started(FIRST[0][1]), added(tree))
    texts = [item.head + item.body for item in found if isinstance(item, Item) and item.kind in ('struct', 'enum')]
    return len(texts), sum(bool(line.strip()) for text in texts for line in text.split('\n'))

def counts(tree):
    """What TRUST says of clauses and of types, with the numbers of this tree."""
    (clauses_there, calls, _), (types_there, lines) = clauses(tree), types(tree)
    return f'{clauses_there:,} clauses in {calls:,} calls', f'{types_there:,} types of {lines:,} lines'

def trust_row(claim, lines, more):
    """A claim's row in the tables of TRUST."""
    return f'| **{claim}**: {f"{lines:,} lines, {more:,} more" if lines else f"{more:,} lines more"} | | | |'

def figure_faults(tree, users, top):
    """The rows of claims that TRUST and README haven't, and the counts of lines in both pages that are none."""
    trust, readme = ((Path(top) / page).read_text() for page in ('docs/TRUST.md', 'README.md'))
    counted = [*claims(tree, users)]
    rows = [trust_row(*row) for row in counted]
    yield from (f'docs/TRUST.md: it has no row {row}' for row in rows if row not in trust.split('\n'))
    yield from (f'README.md: it has no row | {claim} | .. | {lines:,} |' for claim, lines, _ in counted[:len(FIRST)]
                if not re.search(rf'(?m)^\| {re.escape(claim)} \|.* \| {lines:,} \|$', readme))
    whole = lines_of(tree.named.values())
    known = {f'{n:,}' for n in (whole - lines_of(of_all(tree, users)), *(n for _, n in sums(tree, users)))}
    yield from (f'docs/TRUST.md: it lacks: {words} {n:,} lines' for words, n in sums(tree, users)
                if f'{words} {n:,} lines' not in ' '.join(trust.split()))
    yield from (f'docs/TRUST.md: it lacks: {words}' for words in counts(tree) if words not in ' '.join(trust.split()))
    told = known | {f'{lines or more:,}' for _, lines, more in counted} | {f'{types(tree)[1]:,}'}
    for page, text in (('docs/TRUST.md', trust), ('README.md', readme)):
        others = [n for n in re.findall(r'\b[\d,]+(?=\s+(?:other\s+)?lines\b)', text) if n not in told]
        yield from (f'{page}: {count} lines, which are {", ".join(sorted(known))}' for count in others)

def write_figures(tree, users, top):
    """Puts the counts of lines of this tree into both pages, and names each page that it changes."""
    counted, all_users = [*claims(tree, users)], lines_of(of_all(tree, users))
    forms = [('(' + words.replace(' ', r'\s') + r'\s)[\d,]+(?=\slines)', rf'\g<1>{n:,}') for words, n in sums(tree, users)]
    forms += [(r'(?<=The other )[\d,]+(?= lines)', f'{lines_of(tree.named.values()) - all_users:,}')]
    # (each of these stands on one line)
    forms += [(' '.join(r'[\d,]+' if w[0].isdigit() else w for w in words.split()), words) for words in counts(tree)]
    forms += [(rf'(?m)^\| \*\*{re.escape(row[0])}\*\*: .*$', trust_row(*row)) for row in counted]
    forms += [(rf'(?m)(^\| {re.escape(claim)} \|.* \| )[\d,]+(?= \|$)', rf'\g<1>{lines:,}')
              for claim, lines, _ in counted if lines]
    for page in ('docs/TRUST.md', 'README.md'):
        old = new = (Path(top) / page).read_text()
        for form, text in forms:
            new = re.sub(form, text, new)
        if new != old:
            (Path(top) / page).write_text(new)
            yield f'{page}: its counts are written anew'

def main():
    option, _, name = next((a for a in sys.argv[1:] if a.startswith('--')), '').partition('=')
    tops = [a for a in sys.argv[1:] if not a.startswith('--')] + [Path(__file__).resolve().parents[1]]
    tree = Tree(tops[0])
    users, every = tree.believed(USERS, INNER), tree.believed(tree.crates)
    claimed = of_all(tree, users)
    faults = [fault for file in tree.files.values() for fault in place_faults(file, claimed)]
    faults += [*row_faults(tree), *figure_faults(tree, users, tops[0])]
    kinds = {d: 'believed' if d in users else 'cited step' if d in every else 'step' for d in tree.named.values()}
    lines = {'': lambda: table(tree, users, every), '--check': lambda: faults, '--twice': lambda: twice(tree),
             '--write': lambda: write_figures(tree, users, tops[0]),
             '--claims': lambda: [trust_row(*row) for row in claims(tree, users)]
             + [f'{words} {n:,} lines' for words, n in sums(tree, users)],
             '--list': lambda: (f'{d.file.label}\t{d.name}\t{d.count}\t{kind}' for d, kind in kinds.items()),
             '--why': lambda: (trail(d, users) for d in users if d.name == name)}
    sys.stdout.writelines(f'{line}\n' for line in lines[option]())
    sys.exit(option == '--check' and bool(faults))

if __name__ == '__main__':
    main()
