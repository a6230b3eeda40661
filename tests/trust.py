#!/usr/bin/env python3
"""Finds each file and each name that docs/TRUST.md and the pages of crates cite, the files that other pages cite, the
counts of lines that TRUST.md and README.md give, the code that pages quote, the book of the headline (book.py), the
sizes in README.md (sizes.py), the run bits of scripts, and the program's version in CHANGELOG.md.

usage: trust.py [TOP]     (exit status 0: all are found; 1: a line for each that isn't)

A citation is in backticks. One with a slash is a path, from the top or from `crates/`; so is the name of a file at the
top. Any other is a name, and has to be a whole word in a file that the same part of its row or paragraph cites. In a
table a name of the columns "call" and "file" is looked for in a file of these two, a name of the column "definitions"
in a file after it. A name in a paragraph without a file may be in any source. The counts are those of trusted.py. The
page of a crate is `crates/NAME/README.md`. Its paths may begin at its own folder too, or at that of a crate whose name
begins with NAME. The first word of each other citation has to be in a source of crates/ or tests/. A quotation is a
fence of Rust whose first line is a comment with a path. The rest of it has to be in that file, with a line of two
points where lines are left out.
"""
import re
import subprocess
import sys
from pathlib import Path

TOP = Path(sys.argv[1] if len(sys.argv) > 1 else Path(__file__).resolve().parents[1])
PAGE = TOP / 'docs' / 'TRUST.md'
SOURCES = {'.rt', '.antt', '.py', '.sh'}
# The name of a file or a folder on the page of a crate.
IS_FILE = re.compile(r'\w[\w.-]*(?:/[\w.-]+)+/?|[\w.-]+\.(?:rt|antt|py|sh|txt|md)')
# Words of the toolchain and folders that each crate has: they name nothing in particular.
PLAIN = {'src/', 'specs/', 'specs/steps/', 'proofs/', 'must-fail/', 'crates/', 'use', 'crates/NAME/README.md'}

def is_path(word):
    """Whether a citation names a file or a folder."""
    return '/' in word or word.endswith(('.txt', '.md')) or re.fullmatch(r'[\w.-]+\.(rt|antt|py|sh)', word)

def found(path, more=()):
    """The file or folder that a path names, from the top, from crates/ or from one of more folders."""
    for base in (TOP, TOP / 'crates', *more):
        if (base / path).exists():
            return base / path
    return None

def texts(path):
    """The texts of a file, or of all sources in a folder that are no build output."""
    files = [path] if path.is_file() else [f for f in path.rglob('*') if f.suffix in SOURCES and 'out' not in f.parts]
    return [f.read_text(errors='replace') for f in files if f.is_file()]

def has(name, places):
    """Whether a name is a whole word in one of the files, or in any source if there are none."""
    word = re.compile(rf"(?<![\w-]){re.escape(name)}(?![\w'-])")
    return any(word.search(text) for place in places or [TOP / 'crates', TOP / 'tests'] for text in texts(place))

def blocks():
    """Each table row and paragraph with the number of its first line."""
    gathered, start = [], 0
    for number, line in enumerate(PAGE.read_text().split('\n') + [''], 1):
        if line.startswith('|'):
            yield number, [cell.strip() for cell in line.strip('|').split(' | ')]
        elif re.match(r'\s*$|#|- |\d+\. ', line):
            if gathered:
                yield start, [' '.join(gathered)]
            gathered, start = [line] if line.strip() else [], number
        else:
            gathered, start = gathered + [line], start if gathered else number

def parts(cells):
    """The parts of a row or a paragraph in which a name belongs to the files next to it."""
    if len(cells) == 4:
        yield cells[1] + ' ' + cells[2]
        for chunk in cells[3].split(';'):
            yield chunk
    elif len(cells) > 1:
        yield ' '.join(cells[1:])
    else:
        yield cells[0]

def faults_of(number, part):
    """What a part cites that is missing."""
    cited = [word for word in re.findall(r'`([^`]+)`', part) if word not in PLAIN]
    paths = [word.split()[0] for word in cited if is_path(word)]
    for path in paths:
        if not found(path):
            yield f'docs/TRUST.md:{number}: there is no {path}'
    places = [found(path) for path in paths if found(path)]
    for word in cited:
        name = word.split('::')[-1].removeprefix('impl ')
        if not is_path(word) and not has(name, places):
            yield f'docs/TRUST.md:{number}: {name} isn\'t in {", ".join(paths) or "any source"}'

def pages(*patterns):
    """The pages of these patterns."""
    return sorted(page for pattern in patterns for page in TOP.glob(pattern))

def citations(page):
    """Each citation of a page outside of its quotations, with the number of its line."""
    text = re.sub(r'(?s)```.*?```', lambda fence: '\n' * fence[0].count('\n'), page.read_text())
    for number, line in enumerate(text.split('\n'), 1):
        yield from ((number, word) for word in re.findall(r'`([^`]+)`', line))

def crate_faults():
    """What the pages of crates cite that is missing."""
    sources = [text for folder in ('crates', 'tests') for text in texts(TOP / folder)]
    words = {word for text in sources for word in re.findall(r"[\w']+", text)}
    for page in pages('crates/*/README.md'):
        folders = pages(f'crates/{page.parent.name}*')
        for number, cited in citations(page):
            name = re.match(r"(?:\w+(?:::|\.))*([^\W\d][\w']*)", cited)
            if IS_FILE.fullmatch(cited):
                if not found(cited, folders):
                    yield f'{page.relative_to(TOP)}:{number}: there is no {cited}'
            elif name and name[1] not in words:
                yield f'{page.relative_to(TOP)}:{number}: {name[1]} isn\'t in any source'

def file_faults():
    """Missing files of the repository that other pages cite: pages, and what is below a folder of the top or of crates/
    and isn't built. A folder in capitals, like NAME, means any."""
    folders = {folder.name for folder in pages('*', 'crates/*')}
    for page in pages('*.md', 'docs/*.md', 'bench/*.md', 'share/*.md'):
        for number, cited in citations(page) if page != PAGE else []:
            steps = Path(cited).parts
            is_left_out = any(step.isupper() or step == 'out' for step in steps)
            is_meant = IS_FILE.fullmatch(cited) and (steps[0] in folders or cited.endswith('.md')) and not is_left_out
            if is_meant and not found(cited, [TOP / 'docs', page.parent]):
                yield f'{page.relative_to(TOP)}:{number}: there is no {cited}'

def quotations():
    """The quotations of the pages that aren't in their files, and how many there are."""
    missing, count = [], 0
    for page in pages('*.md', 'docs/*.md', 'crates/*/README.md'):
        for path, code in re.findall(r'(?s)```rust\n// (\S+)\n(.*?)```', page.read_text()):
            count += 1
            whole = found(path).read_text() if found(path) else ''
            if not whole or not all(piece in whole for piece in re.split(r'(?m)^ *\.\.\n', code)):
                missing.append(f'{page.relative_to(TOP)}: its quotation isn\'t in {path}')
    return missing, count

def checked(script):
    """The faults that a script beside this one finds: in counts and first lines, the book, the drawings or the sizes."""
    command = [sys.executable, TOP / 'tests' / script, TOP, '--check']
    done = subprocess.run(command, capture_output=True, text=True, check=False)
    return (done.stdout + done.stderr).splitlines()

def run_bits():
    """The scripts that nobody can run: files that begin as a script, and aren't allowed to be run. A template ends by .in."""
    listed = subprocess.run(['git', '-C', TOP, 'ls-files', '-z'], capture_output=True, text=True, check=False).stdout
    for name in listed.split('\0'):
        path = TOP / name
        if path.is_file() and path.suffix != '.in' and path.read_bytes()[:2] == b'#!' and not path.stat().st_mode & 0o100:
            yield f'{name}: it is a script without its run bit (chmod +x)'

def versions():
    """A fault if the newest version in CHANGELOG.md isn't the program's."""
    newest = re.search(r'(?m)^## (\d+\.\d+\.\d+)$', (TOP / 'CHANGELOG.md').read_text())[1]
    if f'const VERSION: &str = "{newest}";' not in (TOP / 'crates/office_cli/src/answers.rt').read_text():
        yield f'CHANGELOG.md: {newest} isn\'t the version that office_cli/src/answers.rt states'

def main():
    faults, cited = [*versions(), *run_bits()], 0
    for number, cells in blocks():
        for part in parts(cells):
            cited += len(re.findall(r'`([^`]+)`', part))
            faults += faults_of(number, part)
    faults += [*crate_faults(), *file_faults(), *checked('trusted.py'), *checked('book.py'), *checked('diagrams.py'),
               *checked('sizes.py')]
    missing, quoted = quotations()
    faults += missing
    for fault in faults:
        print(fault)
    print(f'{cited} citations, {quoted} quotations, {len(faults)} not found')
    sys.exit(1 if faults else 0)

if __name__ == '__main__':
    main()
