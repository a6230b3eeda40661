#!/usr/bin/env python3
"""Runs the commands of one document in a copy of the repository, and compares what they print with what it shows.

usage: docs.py COPY DOCUMENT     (docs.sh makes the copy, and puts the program in PATH)

A document whose blocks have prompts (`$ `, and `# ` for root) has a command on each such line. In any other one a
command is a line of an indented block whose first word is one of WORDS, a tool's name or a path of the repository. What
follows a command, up to the next command or the end of the block, is what it prints. In a manual page it is a line of a
literal display after a dollar sign. A command continues if its line ends with a backslash or a bar, while a quote is
open, and up to the end of a text after `<<`. If the document shows no output, none is compared. A command has to end
with status 0, except those of ENDS, and curl that prints a refusal. Each block starts at the top of the copy, with the
PATH and the OFFICE_SYNC that the last one left.

Only what is in the document is typed. A service that a document starts runs in a terminal of its own, until a line `^C`
interrupts it or the document ends. So if a document starts a second one on the same port, that fails.
"""
import os
import re
import signal
import subprocess
import sys
import time
from pathlib import Path

WORDS = {'office', 'rt', 'cd', 'cat', 'curl', 'grep', 'sed', 'cp', 'rm', 'mkdir', 'printf', 'sqlite3', 'cmp', 'make',
         'systemctl', 'journalctl', 'apt', 'apt-get'}
SECONDS = 600
KEPT = ('PATH', 'OFFICE_SYNC')  # what a command leaves to the next one
INTERRUPT = '^C'  # what a terminal shows where Ctrl-C is typed
# What isn't run, in which document, and why. An empty text of the environment's APT keeps apt's commands out.
NOT_RUN = [
    ('README.md', r'(office|\.\.) .*   ', 'it is a table of the commands'),
    ('docs/FIRST_WEEK.md', r'apt-get |/usr/lib/apt/|.*bookworm', 'it needs the network and root: APT=1 runs it'),
    ('docs/FIRST_WEEK.md', r'cp -r /usr/share/doc/', 'the package isn\'t installed here'),
    ('share/README.md', r'office-mirror --state ', 'it needs two machines'),
    ('share/README.md', r'systemctl |apt |make |share/', 'it changes the machine, or is run by share/check.sh'),
]
# What is run in the place of a command: the program is given, so it isn't built first.
INSTEAD = [(r'\brt try --data (\S+?)=(\S+) -- (.*) --conf \1', r'office \3 --conf \2')]
# Commands that end with another status than 0: here nothing is refused, so grep finds nothing; a run waits for mail.
ENDS = {"office replay --conf examples/setup.conf < bag |\n    sed '/^ready /,$d' | grep -n refused": 1,
        'office waiting --conf examples/setup.conf < part': 1}
# What curl ends with, by --fail-with-body, if what it prints is a refusal, and its own sentence, which isn't shown.
REFUSED = 22
SENTENCE = re.compile(r'curl: \(22\) .*\n')
# What a document takes as given, made before its commands.
GIVEN = {'share/man/office.1': 'cp examples/setup.conf setup.conf; cp examples/archive/01-ftp-1-upload-lib message',
         'share/README.md': 'cp examples/setup.conf setup.conf; '
                            'office replay --conf setup.conf --db store.db < examples/archive.bag > replayed'}


class Command:
    """A command, the line that it starts in, and the output that the document shows after it."""

    def __init__(self, line, text):
        self.line, self.text, self.shown = line, text, []

    def goes_on(self):
        """Whether the next line belongs to the command."""
        open_text = re.search(r"<< *'?(\w+)'?", self.text.split('\n')[0])
        if open_text and '\n' + open_text[1] not in self.text:
            return True
        return not open_text and (self.text.endswith(('\\', '|')) or self.text.count("'") % 2 == 1)


def blocks(document, text):
    """The blocks of a document, each a list of the number and the text of its lines."""
    block, page = [], document.endswith('.1')
    literal = False
    for number, line in enumerate(text.split('\n') + ['', '#'], 1):
        if page and line.startswith(('.Bd -literal', '.Ed')):
            literal = line.startswith('.Bd')
        inside = literal and not line.startswith('.Bd') if page else line.startswith('    ')
        if inside:
            block.append((number, line.replace('\\&', '').replace('\\e', '\\') if page else line[4:]))
        elif block and not line.strip() and not page:
            block.append((number, ''))
        elif block:
            yield block
            block = []


def has_prompts(document, text):
    """Whether the commands of a document follow prompts."""
    return document.endswith('.1') or re.search(r'(?m)^    \$ ', text) is not None


def is_command(line, is_prompted):
    """Whether a line starts a command, or interrupts one."""
    if line == INTERRUPT:
        return True
    if is_prompted:
        return line.startswith(('$ ', '# '))
    if re.match(r'rt \d', line):
        # What `office mail --list` prints of the sender rt.
        return False
    word = line.split(' ')[0]
    is_path = re.fullmatch(r'(share|examples|tests|\.ci)/\S+|/usr/lib/\S+|\.\.', word)
    return bool(word in WORDS or is_path or re.fullmatch(r'office-[a-z-]+', word))


def commands(block, is_prompted):
    """The commands of a block."""
    found = []
    for number, line in block:
        if found and found[-1].goes_on():
            found[-1].text += '\n' + line
        elif is_command(line, is_prompted):
            found.append(Command(number, line.removeprefix('$ ').removeprefix('# ')))
        elif found:
            found[-1].shown.append(line)
    return found


class Runner:
    """Runs commands in a copy, and counts."""

    def __init__(self, copy, document):
        self.copy, self.document, self.services = copy, document, []
        self.left = {name: os.environ.get(name, '') for name in KEPT}
        self.passed = self.failed = 0

    def reason(self, command):
        """Why a command isn't run."""
        for document, form, reason in NOT_RUN:
            is_wanted = 'APT' in reason and os.environ.get('APT')
            if document == self.document and re.match(form, command.text) and not is_wanted:
                return reason
        return None

    def block(self, found):
        """Runs the commands of a block, one after the other, in the same folder."""
        folder = self.copy
        for command in found:
            reason = self.reason(command)
            if reason:
                print(f'not run: {self.document}:{command.line}: {command.text.strip()[:60]}: {reason}')
                continue
            text = command.text
            for form, other in INSTEAD:
                text = re.sub(form, other, text)
            if text == INTERRUPT:
                status, told = self.interrupt()
            elif text.startswith('office serve '):
                status, told = self.serve(text)
            else:
                status, told, folder = self.run(text, folder)
            self.judge(command, status, told)

    def run(self, text, folder):
        """Runs a command: its status, what it printed, and the folder that it leaves."""
        where = self.copy.parent / 'folder'
        told = ' '.join(f'"${name}"' for name in KEPT)
        script = f'{text}\nstatus=$?\nprintf "%s\\n" "$PWD" {told} > "{where}"\nexit $status\n'
        try:
            done = subprocess.run(['/bin/bash', '-c', script], cwd=folder, stdin=subprocess.DEVNULL,
                                  stdout=subprocess.PIPE, stderr=subprocess.STDOUT, timeout=SECONDS,
                                  env={**os.environ, **self.left})
        except subprocess.TimeoutExpired as late:
            return f'no end after {SECONDS} seconds', (late.stdout or b'').decode(errors='replace'), folder
        left, *values = where.read_text().splitlines()
        self.left = dict(zip(KEPT, values))
        return done.returncode, done.stdout.decode(errors='replace'), Path(left)

    def serve(self, text):
        """Starts a service: 0 and its first line once it has one; its status if it ends before."""
        told = self.copy.parent / f'service{len(self.services)}'
        with open(told, 'wb') as output:
            service = subprocess.Popen(['/bin/bash', '-c', 'exec ' + text], cwd=self.copy, stdin=subprocess.DEVNULL,
                                       stdout=output, stderr=subprocess.STDOUT, env={**os.environ, **self.left})
        self.services.append(service)
        for _ in range(600):
            if told.read_text().endswith('\n') or service.poll() is not None:
                break
            time.sleep(0.05)
        return service.poll() or 0, told.read_text()

    def interrupt(self):
        """Types Ctrl-C where the last service runs: 0, or 1 if none runs."""
        running = [service for service in self.services if service.poll() is None]
        for service in running[-1:]:
            service.send_signal(signal.SIGINT)
            service.wait()
        return (0, '') if running else (1, 'no service runs\n')

    def end(self):
        """Ends the services that run."""
        for service in self.services:
            if service.poll() is None:
                service.send_signal(signal.SIGTERM)
                service.wait()

    def judge(self, command, status, told):
        """Counts a command, and prints what is wrong with it."""
        due, faults = '\n'.join(command.shown).strip('\n'), []
        is_refused = '--fail-with-body' in command.text and due.startswith('refused ')
        end = ENDS.get(command.text, REFUSED if is_refused else 0)
        told = SENTENCE.sub('', told) if is_refused else told
        if status != end:
            faults.append(f'status {status}, due {end}')
        if (due or faults) and told.strip('\n') != due:
            faults.append('it printed:\n    ' + told.strip('\n').replace('\n', '\n    '))
        if faults:
            self.failed += 1
            print(f'not ok: {self.document}:{command.line}: {command.text}: {"; ".join(faults)}')
        else:
            self.passed += 1


def main():
    copy, document = Path(sys.argv[1]).resolve(), sys.argv[2]
    runner = Runner(copy, document)
    if document in GIVEN:
        subprocess.run(['sh', '-c', GIVEN[document]], cwd=copy, check=True)
    text = (copy / document).read_text()
    is_prompted = has_prompts(document, text)
    try:
        for block in blocks(document, text):
            found = commands(block, is_prompted)
            if not found:
                print(f'not run: {document}:{block[0][0]}: {block[0][1].strip()[:60]}: it is a block without a command')
            runner.block(found)
    finally:
        runner.end()
    print(f'{runner.passed} passed, {runner.failed} failed')
    return 1 if runner.failed else 0


if __name__ == '__main__':
    sys.exit(main())
