"""Damaged files that office-pages keeps: its database, and the compiled templates."""
import contextlib
import io
import os
import random
import re
import shutil
import sqlite3
import tempfile
import unittest
from unittest import mock

import test_pages_more
from pages_office import FakeOffice
from office_tools.faults import Fault
from office_tools.pages import command, state as states
from office_tools.pages.kept_mail import KeptMail
from office_tools.pages.outcomes import outcome_in
from office_tools.pages.state import run_in, State, TABLES, UNREADABLE

SOURCES = ("app", "libfoo", "plug", "tool")
LOOSE = re.sub(r"(TEXT|INTEGER|BLOB)( NOT NULL)?|STRICT,?", "", TABLES)
"""The same tables, in which SQLite keeps a value of any type."""
OTHERS = {"INTEGER": (None, 1.5, "7", b"7"), "TEXT": (None, 7, 1.5, b"app"), "BLOB": (None, 7, 1.5, "app")}
"""Values of other types than a column's."""
READERS = {
    "run": lambda state: [state.run(run.number) for run in state.runs()],
    "event": lambda state: (list(state.events(SOURCES)), state.events_from(1)),
    "last": State.last_events,
    "testing": lambda state: state.suite("testing"),
    "unstable": lambda state: state.suite("unstable"),
    "why": State.whys,
    "asked": State.asked,
    "told": lambda state: list(map(state.told, ("hints", "next hint", "proposed"))),
    "proposal": State.proposals,
    "hint": lambda state: (state.hints(), state.wanted_hints()),
    "mail_read": lambda state: KeptMail(state).read_up_to(),
    "build": lambda state: KeptMail(state).builds(SOURCES),
    "need": lambda state: KeptMail(state).needing(("app", "libfoo1", "libfoo2", "libother")),
    "person": lambda state: KeptMail(state).people(),
    "touched": State.touched,
    "basis": State.basis,
    "page": State.digests,
    "built": State.built}
"""What reads a table."""
SOUGHT = {("event", "source"), ("told", "name"), ("build", "source"), ("build", "place"), ("need", "name"),
          ("need", "first")}
"""Columns by which rows are found or ordered: a row with another value isn't found, and is no fault."""
ABSENT = {("hint", "told", None)}
"""A hint whose text wasn't asked for yet has none."""


class Damaged(unittest.TestCase):
    """The folder of the pages of an office, in tables that take any value."""

    def setUp(self):
        self.folder = self.enterContext(tempfile.TemporaryDirectory())
        self.office = self.enterContext(FakeOffice(0))
        self.office.answers = test_pages_more.answers()
        with mock.patch.object(states, "TABLES", LOOSE):
            self.make()
        self.kept = os.path.join(self.folder, ".state")
        self.state = self.enterContext(contextlib.closing(State(os.path.join(self.kept, "state.db"))))
        with self.state.transaction():
            # This office has no reason for these rows.
            self.state.keep("hint", [(3, "block app", "Ann", "a bug")])
            self.state.touch(["app"])
            self.state.database.execute("INSERT INTO built VALUES ('', 1)")

    def make(self):
        with contextlib.redirect_stderr(io.StringIO()):
            return command.main(["--url", self.office.url, self.folder])

    def files(self):
        """The public files with their bytes."""
        found = {}
        for place, folders, names in os.walk(self.folder):
            folders[:] = [name for name in folders if name[0] != "."]
            for name in names:
                with open(os.path.join(place, name), "rb") as file:
                    found[os.path.join(place, name)] = file.read()
        return found

    @contextlib.contextmanager
    def changed(self, table, column, value):
        """Within it the first value of a column is this one. Returns whether SQLite takes it."""
        self.state.last = None
        self.state.database.execute("BEGIN")
        try:
            self.state.database.execute(f"UPDATE {table} SET {column} = ? WHERE {column} IS (SELECT {column} FROM "
                                        f"{table} ORDER BY 1 LIMIT 1)", (value,))
            yield True
        except sqlite3.IntegrityError:
            yield False
        finally:
            self.state.database.execute("ROLLBACK")

    def test_values_of_another_type(self):
        """Each column of each table has values of each other type."""
        for table, columns in re.findall(r"CREATE TABLE (\w+) ([^;]*)", TABLES):
            reader = READERS[table]
            self.assertTrue(reader(self.state), table)
            for column, kind in re.findall(r"(\w+) (INTEGER|TEXT|BLOB)", columns):
                for value in OTHERS[kind]:
                    with self.subTest(table=table, column=column, value=value), \
                            self.changed(table, column, value) as is_done:
                        if is_done and (table, column) not in SOUGHT and (table, column, value) not in ABSENT:
                            with self.assertRaises(Fault) as found:
                                reader(self.state)
                            self.assertEqual(found.exception.cause, UNREADABLE)

    def test_names_and_numbers_of_nothing(self):
        """No source has such a name, no run such a number, and no page such a path."""
        for table, column, value in (("last", "source", ""), ("last", "source", "a b"), ("last", "source", "../app"),
                                     ("last", "run", 9), ("event", "run", 9), ("page", "path", ""),
                                     ("page", "path", "../app.html"), ("page", "path", "source/../../app.html"),
                                     ("page", "path", "/app.html"), ("page", "path", "app\0.html"),
                                     ("page", "path", "source/app"), ("page", "path", "run/x.html")):
            with self.subTest(table=table, value=value), self.changed(table, column, value):
                self.assertRaises(Fault, READERS[table], self.state)

    def test_json_of_another_type(self):
        good = '[1, "2025-03-04", 2, 2, 2, 0, 0, 0]'
        self.assertEqual(run_in(good).number, 1)
        for line in (good.replace("[1", '["1"'), good.replace("[1", "[1.0"), good.replace("[1", "[true"),
                     good.replace("2, 2", "null, 2"), good.replace('"2025-03-04"', "20250304"), "[" * 9000, "7", "{}"):
            with self.subTest(line=line[:40]):
                self.assertRaises(Fault, run_in, line)
        self.assertEqual(outcome_in('{"what": "accept", "hint": 3}').hint, 3)
        for told in ('{"what": "accept", "hint": "3"}', '{"what": "accept", "hint": true}', '{"what": 3}', "[]", "7",
                     '{"what": "wait", "package": 7, "arch": "amd64"}', "[" * 9000,
                     '{"what": "wait", "package": "app", "arch": ["amd64"]}'):
            with self.subTest(told=told[:40]):
                self.assertRaises(Fault, outcome_in, told)

    def test_the_command(self):
        """A number stands in the place of a text, and everything is fetched again once the folder is removed."""
        before = self.files()
        self.state.database.execute("UPDATE page SET digest = 7")
        self.state.database.execute("DELETE FROM built")
        with self.assertRaises(Fault) as found:
            self.make()
        self.assertEqual(found.exception.cause, UNREADABLE)
        shutil.rmtree(self.kept)
        self.assertEqual(self.make(), 0)
        self.assertEqual(set(self.files()), set(before))

    def test_compiled_templates(self):
        """One that is cut off, or has other bytes, is compiled again."""
        names = [name for name in os.listdir(self.kept) if name.endswith(".compiled")]
        self.assertGreater(len(names), 3)
        good = {}
        for name in names:
            with open(os.path.join(self.kept, name), "rb") as file:
                good[name] = file.read()
        chance, before = random.Random(1), set(self.files())
        for turn in range(6):
            for name, data in good.items():
                at = chance.randrange(len(data))
                with open(os.path.join(self.kept, name), "wb") as file:
                    file.write(data[:at] if turn < 2 else data[:at] + bytes([data[at] ^ 1 << turn]) + data[at + 1:])
            for path in before:
                os.unlink(path)
            self.state.database.execute("UPDATE page SET digest = ''")
            self.state.database.execute("DELETE FROM built")
            self.assertEqual(self.make(), 0)
            self.assertEqual(set(self.files()), before)
        for name, data in good.items():
            with open(os.path.join(self.kept, name), "rb") as file:
                self.assertEqual(file.read(), data)


if __name__ == "__main__":
    unittest.main()
