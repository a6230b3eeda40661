#!/usr/bin/env python3
"""Checks messages of commits: of a range of commits, or of one message in a file, as git calls a hook `commit-msg`.

usage: check.py A..B      a line for each fault, then `N passed, N failed`
       check.py FILE      a line for each fault of the message in this file

A message has a subject of at most 72 characters, which ends without a full stop, then an empty line, and a body with the
reason. Neither names what the repository hasn't: a section, a finding or an issue by its number, or a page that isn't in
it. What is in backticks is code, and isn't looked at. Merges are left out. The exit status is 1 if there is a fault.
"""
import os
import re
import subprocess
import sys

LONGEST = 72
# What names something outside of the repository by a number: `section 3`, `issue #12`, `#12`, a label as `B7`.
OUTSIDE = re.compile(r'(?i:\b(?:section|sections|paper|finding|review|issue|ticket)\s+#?[A-Z]?\d+(?:\.\d+)*)'
                     r'|(?<!\w)#\d+|§|(?<![\w.])[A-Z]\d{1,2}(?![\w.-])')
PAGE = re.compile(r'[\w/-]+\.md\b')
DEBIAN = re.compile(r"(?:Debian |Developer's |Policy |Reference )+section \d[\d.]*")


def faults(message, pages):
    """What is wrong with a message, where the repository has these pages."""
    subject, *rest = message.rstrip('\n').split('\n')
    prose = DEBIAN.sub('', re.sub(r'`[^`]*`', '', message))
    if not subject.strip():
        yield 'it has no subject'
    if len(subject) > LONGEST:
        yield f'its subject has {len(subject)} characters, {LONGEST} at most'
    if subject.endswith('.'):
        yield 'its subject ends with a full stop'
    if re.match(r'(fixup|squash|amend)!', subject):
        yield f'its subject begins with {subject.split("!")[0]}!'
    if rest and rest[0].strip():
        yield 'its second line isn\'t empty'
    if not any(line.strip() for line in rest[1:]):
        yield 'it has no body with the reason'
    yield from (f'it names what isn\'t in the repository: {found[0].strip()}' for found in OUTSIDE.finditer(prose))
    yield from (f'it names a page that isn\'t in the repository: {name}' for name in PAGE.findall(message)
                if name.split('/')[-1] not in pages)


def git(*words):
    return subprocess.run(['git', *words], check=True, capture_output=True, text=True).stdout


def pages_now():
    """The names of the pages that the repository has."""
    return {name.split('/')[-1] for name in git('ls-files', '--full-name', ':/*.md').splitlines()}


def message_in(path):
    """The message in a file, without git's comments."""
    with open(path, encoding='utf-8', errors='replace') as file:
        text = re.split(r'(?m)^# -+ >8 -+$', file.read())[0]
    return '\n'.join(line for line in text.split('\n') if not line.startswith('#')).strip('\n')


def check_file(path):
    """Prints the faults of the message in a file, and returns whether there are any."""
    message = message_in(path)
    found = [] if message.startswith('Merge ') else [*faults(message, pages_now())]
    for fault in found:
        print(fault)
    return bool(found)


def check_range(commits):
    """Prints the faults of each message of a range, and returns whether there are any."""
    pages, passed, failed = pages_now(), 0, 0
    for commit in git('rev-list', '--no-merges', '--reverse', commits).split():
        found = [*faults(git('log', '-1', '--format=%B', commit).strip('\n'), pages)]
        passed, failed = passed + (not found), failed + bool(found)
        for fault in found:
            print(f'{commit[:8]}: {fault}')
    print(f'{passed} passed, {failed} failed')
    return bool(failed)


def main():
    if len(sys.argv) != 2 or sys.argv[1].startswith('-'):
        sys.exit(__doc__)
    is_file = os.path.isfile(sys.argv[1]) and '..' not in os.path.basename(sys.argv[1])
    sys.exit((check_file if is_file else check_range)(sys.argv[1]))


if __name__ == '__main__':
    main()
