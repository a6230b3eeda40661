#!/usr/bin/env python3
"""Makes docs/excuses.png, the page of excuses that the commands of docs/FIRST_WEEK.md come to.

usage: picture.py OFFICE

OFFICE is the built program. In a copy of the repository it runs the commands of the page up to the one that makes
pages, opens the page of excuses in headless chromium, and writes what is shown. It needs chromium, and port 8080.
"""
import os
import struct
import subprocess
import sys
import tempfile
import zlib
from pathlib import Path

import docs

TOP = Path(__file__).resolve().parents[1]
DOCUMENT = 'docs/FIRST_WEEK.md'
LAST = 'office-pages '
PAGE = 'week/pages/excuses.html'
SIZE = '960,760'
LARGEST = 60_000
HEAD = b'\x89PNG\r\n\x1a\n'


def copy_to(folder, office):
    """A copy of the repository with the program."""
    names = subprocess.run(['git', 'ls-files', '-z'], cwd=TOP, capture_output=True, check=True).stdout
    subprocess.run(['cp', '--parents', '-t', folder, *filter(None, names.decode().split('\0'))], cwd=TOP, check=True)
    out = folder / 'crates/office/out'
    out.mkdir(parents=True, exist_ok=True)
    (out / 'office').symlink_to(office)


def make_pages(folder):
    """Runs the commands of the page up to the one that makes pages."""
    runner = docs.Runner(folder, DOCUMENT)
    try:
        for block in docs.blocks(DOCUMENT, (folder / DOCUMENT).read_text()):
            found = docs.commands(block, True)
            runner.block(found)
            if any(command.text.startswith(LAST) for command in found):
                return runner.failed
    finally:
        runner.end()
    return 1


def chunks(data):
    """The parts of a PNG, each with its name."""
    place = len(HEAD)
    while place < len(data):
        size = int.from_bytes(data[place:place + 4], 'big')
        yield data[place + 4:place + 8], data[place + 8:place + 8 + size]
        place += size + 12


def paeth(left, above, corner):
    """What the last filter of PNG adds."""
    guess = left + above - corner
    return min((left, above, corner), key=lambda value: abs(guess - value))


def rows_of(data, wide, deep):
    """The rows of a picture of that many bytes, freed of the filters of PNG."""
    before, found = bytes(wide), []
    for place in range(0, len(data), wide + 1):
        way, row = data[place], bytearray(data[place + 1:place + 1 + wide])
        for at in range(wide if way else 0):
            above, (left, corner) = before[at], (row[at - deep], before[at - deep]) if at >= deep else (0, 0)
            row[at] = row[at] + (0, left, above, (left + above) // 2, paeth(left, above, corner))[way] & 255
        before = bytes(row)
        found.append(before)
    return found


def reduced(data):
    """A PNG of 8 bits a colour as one of a palette: a page has few colours, and like ones become one."""
    parts = list(chunks(data))
    width, height, _, sort = struct.unpack('>IIBB', parts[0][1][:10])
    deep = 4 if sort == 6 else 3
    rows = rows_of(zlib.decompress(b''.join(part for name, part in parts if name == b'IDAT')), width * deep, deep)
    for step in (1, 8, 16, 32, 64):
        colours, lines = {}, []
        near = [min(255, (value + step // 2) // step * step) for value in range(256)]
        for row in rows:
            places = range(0, width * deep, deep)
            lines.append(bytes(colours.setdefault((near[row[at]], near[row[at + 1]], near[row[at + 2]]),
                                                  min(len(colours), 255)) for at in places))
        if len(colours) <= 256:
            break
    palette = b''.join(map(bytes, colours))
    made = [(b'IHDR', struct.pack('>IIBBBBB', width, height, 8, 3, 0, 0, 0)), (b'PLTE', palette),
            (b'IDAT', zlib.compress(b''.join(b'\0' + line for line in lines), 9)), (b'IEND', b'')]
    return HEAD + b''.join(struct.pack('>I', len(part)) + name + part + struct.pack('>I', zlib.crc32(name + part))
                           for name, part in made)


def main(office):
    with tempfile.TemporaryDirectory() as work:
        folder = Path(work) / 'copy'
        folder.mkdir()
        copy_to(folder, office)
        if make_pages(folder):
            sys.exit(f'a command of {DOCUMENT} failed')
        shown = Path(work) / 'shown.png'
        subprocess.run(['chromium', '--headless', '--no-sandbox', '--disable-gpu', '--hide-scrollbars',
                        '--disable-lcd-text', f'--window-size={SIZE}', f'--screenshot={shown}',
                        f'file://{folder / PAGE}'], check=True, capture_output=True, timeout=1200)
        picture = reduced(shown.read_bytes())
        if len(picture) > LARGEST:
            sys.exit(f'the picture has {len(picture)} bytes, and {LARGEST} are allowed')
        (TOP / 'docs/excuses.png').write_bytes(picture)
        print(f'docs/excuses.png: {len(picture)} bytes')


if __name__ == '__main__':
    if len(sys.argv) != 2:
        sys.exit(__doc__)
    main(os.path.realpath(sys.argv[1]))
