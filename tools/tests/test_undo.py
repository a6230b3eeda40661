"""office-mend --undo: a way back from a slip of a feed."""
import argparse
import datetime
import os
import re
import tempfile
import unittest
from unittest import mock

from helpers import OFFICE, SETUP, Serving, needs_office, office, tool
from office_tools import bags, messages, program
from office_tools.messages import Kind, Label, Urgency
from office_tools.service import DEFAULT_URL
from office_tools.undo import command, exchange, outcome, selection

NAMES = ("app", "base", "tool")


def removal(number, source, version):
    """The hint of a feed for a source that is gone."""
    text = messages.message(Label("rt", number), Kind.HINT, (f"remove {source}/{version}",))
    return text + messages.composed([("Gone", f"{source} {version}")])


def world():
    """Three sources in testing; on the second day a feed reports two gone, and on the third nothing is new."""
    texts = [messages.hint(Label("rt", 1), "age-days 0 app/1 base/1 tool/1")]
    for number, name in enumerate(NAMES, 1):
        texts.append(messages.upload(Label("ftp", number), name, "1", Urgency.LOW, "2025-03-01"))
        row = messages.binary({"Package": name, "Version": "1", "Architecture": "amd64"})
        texts.append(messages.build(Label("bd", number), [row]))
    texts.append(messages.run(Label("clock", 1), "2025-03-01", {"ftp": 3, "bd": 3, "rt": 1}))
    texts += [messages.drop(Label("ftp", number), name, "amd64", "1") for number, name in enumerate(NAMES[:2], 4)]
    texts += [removal(number, name, "1") for number, name in enumerate(NAMES[:2], 2)]
    texts.append(messages.hint(Label("rt", 4), "block tool"))
    texts.append(messages.run(Label("clock", 2), "2025-03-02", {"ftp": 5, "bd": 3, "rt": 4}))
    texts.append(messages.drop(Label("ftp", 6), "gone", "amd64", "1"))
    texts.append(messages.run(Label("clock", 3), "2025-03-03", {"ftp": 6, "bd": 3, "rt": 4}))
    return texts


class Selection(unittest.TestCase):

    def labels(self, *words):
        letters = selection.read(world())
        found = selection.chosen(letters, [selection.slip(word) for word in words])
        return [(letter.label.sender, letter.label.number) for letter in found]

    def test_chosen(self):
        feed = [("ftp", 4), ("ftp", 5), ("rt", 2), ("rt", 3)]
        self.assertEqual(self.labels("2"), feed)
        self.assertEqual(self.labels("2025-03-02"), feed)
        self.assertEqual(self.labels("2", "3"), [*feed, ("ftp", 6)])
        self.assertEqual(self.labels("rt/4", "ftp/4-5"), [("rt", 4), ("ftp", 4), ("ftp", 5)])

    def test_refusals(self):
        for words, cause, status in [
                (["1"], "run 1: there is no message to take back", 1),
                (["2025-03-09"], "the runs of 2025-03-09: there is no message to take back", 1),
                (["bts/1"], "bts/1-1: there is no message to take back", 1),
                (["clock/2"], "clock 2 is an order: put another text in its place by office-mend SENDER NUMBER FILE",
                 3)]:
            with self.assertRaises(selection.Fault) as raised:
                self.labels(*words)
            self.assertEqual((raised.exception.cause, raised.exception.status), (cause, status))
        for word in ["yesterday", "0", "2025-3-1", "ftp/0", "ftp/", ""]:
            with self.assertRaises(ValueError):
                selection.slip(word)

    def test_without(self):
        letters = selection.read(world())
        gone = [letter for letter in letters if letter.label == Label("ftp", 4)]
        found = list(selection.without(letters, gone))
        place = world().index(gone[0].text)
        self.assertEqual(found[place], b"From: ftp\nNumber: 4\nKind: none\nUndone: drop app amd64 1\n")
        self.assertEqual(found[:place] + found[place + 1:], world()[:place] + world()[place + 1:])


class Outcomes(unittest.TestCase):

    def test_reports(self):
        """Reports are told apart, even if a source has the name of one."""
        told = ["excuses 1 2025-03-01", "update 1 2025-03-01", " age 1 of 2", " too young", " not a candidate",
                "update 1 2025-03-01", "accept testing 5", "testing 1", "source testing 5", ""]
        found = outcome.Outcome([])
        outcome.take(found, told)
        self.assertEqual(found.runs, {1: outcome.Run(
            "2025-03-01", ["update 1 2025-03-01: age 1 of 2, too young, not a candidate"], ["accept testing 5"])})
        self.assertEqual(found.testing, ["source testing 5"])


@needs_office
class Undo(unittest.TestCase):

    def setUp(self):
        folder = tempfile.TemporaryDirectory()
        self.addCleanup(folder.cleanup)
        self.folder = folder.name
        self.store = os.path.join(self.folder, "store.db")
        self.replay(world(), "--db", self.store)
        for name in ("feed", "state"):
            os.mkdir(os.path.join(self.folder, name))

    def replay(self, texts, *words):
        told = office("replay", "--conf", SETUP, *words, given=b"".join(map(bags.framed, texts)))
        self.assertEqual(told.returncode, 0, told.stderr)
        return told.stdout.decode()

    def kept(self, store):
        told = office("export", "--conf", SETUP, "--db", store)
        self.assertEqual(told.returncode, 0, told.stderr)
        return list(bags.messages_in(told.stdout))

    def mend(self, *words):
        with mock.patch.dict(os.environ, {"XDG_CACHE_HOME": self.folder + "/cache"}):
            told = tool("office-mend", *words, "--conf", SETUP, "--db", self.store)
        return told.stdout.replace(os.path.realpath(self.folder) + "/", ""), told.stderr, told.returncode

    def test_undone(self):
        """Testing is what it would be without the slip, and the old store and the caches are next to it."""
        before = self.kept(self.store)
        feed, state = os.path.join(self.folder, "feed"), os.path.join(self.folder, "state")
        told, words, status = self.mend("--undo", "2025-03-02", "--cache", feed, "--cache", state, "--yes")
        lines = re.sub(r"before-\S+", "before-TIME", told).splitlines()
        self.assertEqual((lines, words, status), ([
            "undo ftp 4 drop app amd64 1", "undo ftp 5 drop base amd64 1", "undo rt 2 hint remove app/1",
            "undo rt 3 hint remove base/1",
            "run 2 2025-03-02", "-update remove 2 accept app 1", "-update remove 3 accept base 1",
            "run 3 2025-03-03",
            "-excuse app - 1: age 2 of 0, no binaries, removal asked, not a candidate",
            "-excuse base - 1: age 2 of 0, no binaries, removal asked, not a candidate",
            "testing", "+testing source app 1", "+testing source base 1", "+testing binary amd64 app 1 app",
            "+testing binary amd64 base 1 base",
            "undone 4, runs 3, of which 2 differ; testing: 4 lines come, 0 go",
            "store.db: the old one is store.db.before-TIME", "feed: the old one is feed.before-TIME",
            "state: the old one is state.before-TIME"], "", 0))
        letters = selection.read(before)
        due = list(selection.without(letters, list(selection.chosen(letters, [2]))))
        self.assertEqual(self.kept(self.store), due)
        self.assertEqual(office("check", "--conf", SETUP, "--db", self.store).stdout, b"whole 3 runs\n")
        names = sorted(re.sub(r"before-\S+", "", name) for name in os.listdir(self.folder))
        self.assertEqual([name for name in names if not name.endswith("-wal")],
                         ["feed.", "state.", "store.db", "store.db."])
        old = next(name for name in os.listdir(self.folder) if name.startswith("store.db.before") and "wal" not in name)
        self.assertEqual(self.kept(os.path.join(self.folder, old)), before)

    def test_caches(self):
        """What is moved away unasked: what the units keep, unless it is another office's, and this user's caches."""
        day, pages = os.path.join(self.folder, "day"), os.path.join(self.folder, "pages/.state")
        place = "http%3A%2F%2F127.0.0.1%3A8080"
        own = [os.path.join(self.folder, "cache", name, place) for name in ("office-feed", "office-day")]
        due = [own[0], f"{day}/feed", f"{day}/look", f"{own[1]}/feed", f"{own[1]}/look", pages]
        for path in (*due, f"{day}/other"):
            os.makedirs(path)
        letters = selection.read(world())
        asked = argparse.Namespace(url=DEFAULT_URL, cache=[pages, os.path.join(self.folder, "state")])
        with mock.patch.object(command, "DAY", day), mock.patch.object(command, "PAGES", pages), \
                mock.patch.dict(os.environ, {"XDG_CACHE_HOME": self.folder + "/cache"}):
            others = [b"From: x\nNumber: 1\nKind: none\n", *world()]
            left = [path for path in due if not path.startswith(day)]
            for mail, found in ((None, due), (world()[:3], due), (others, left)):
                if mail is not None:
                    with open(f"{day}/feed/bag", "wb") as file:
                        file.write(b"".join(map(bags.framed, mail)))
                self.assertEqual(command.caches_of(asked, letters), [*found, os.path.join(self.folder, "state")])

    def test_nobody_says_so(self):
        before = self.kept(self.store)
        told, words, status = self.mend("--undo", "2")
        self.assertEqual((words, status), ("office-mend: nothing is changed: --yes exchanges the stores\n", 1))
        self.assertIn("+testing source app 1\n", told)
        self.assertEqual(self.kept(self.store), before)
        self.assertEqual(sorted(os.listdir(self.folder)), ["feed", "state", "store.db", "store.db-wal"])

    def test_an_open_store(self):
        with Serving(store=self.store):
            told, words, status = self.mend("--undo", "2", "--yes")
        self.assertEqual((told, status), ("", 4))
        self.assertIn("database is locked: end the program that has it open", words)

    def test_words(self):
        self.assertEqual(tool("office-mend", "--undo", "2", "--db", self.store).returncode, 2)
        self.assertEqual(tool("office-mend", "--undo", "2", "--conf", SETUP, "--db", self.store + "x").returncode, 2)
        self.assertEqual(tool("office-mend", "--undo", "2", "--conf", SETUP, "--db", self.store, "rt").returncode, 2)

    def test_cut_off(self):
        """Whichever step is the last one, the store is the old one or the new one, whole."""
        new, calls = self.store + ".undone", 0
        old_mail, new_mail = world(), [*world()[:-1], messages.run(Label("clock", 3), "2025-03-04", {"ftp": 6})]
        seen = []
        while True:
            exchange.discarded(new)
            exchange.discarded(self.store)
            self.replay(old_mail, "--db", self.store)
            self.replay(new_mail, "--db", new)
            caches = [os.path.join(self.folder, "feed"), os.path.join(self.folder, "state")]
            for cache in caches:
                os.makedirs(cache, exist_ok=True)
            is_done = self.is_done_within(calls, caches)
            kept = sorted(self.kept(self.store))
            seen.append(kept == sorted(new_mail))
            self.assertIn(kept, (sorted(old_mail), sorted(new_mail)))
            if seen[-1]:
                self.assertFalse(any(map(os.path.exists, caches)), "a cache of the old mail is left")
            if is_done:
                break
            calls += 1
        self.assertGreater(calls, 6)
        self.assertEqual(seen, sorted(seen))
        self.assertTrue(seen[-1])

    def is_done_within(self, calls, caches):
        """Exchanges the stores, killed before a later call of the system: after how many; whether it comes so far."""
        left = [calls]

        def counted(call):
            def counting(*words, **options):
                left[0] -= 1
                if left[0] < 0:
                    raise KeyboardInterrupt
                return call(*words, **options)
            return counting

        names = ("chmod", "chown", "rename", "link", "unlink", "fsync")
        patches = [mock.patch.object(exchange.os, name, counted(getattr(os, name))) for name in names]
        time = datetime.datetime(2025, 1, 1) + datetime.timedelta(seconds=calls)
        patches.append(mock.patch.object(exchange, "stamp", lambda: f"before-{time.isoformat()}"))
        try:
            for patch in patches:
                patch.start()
            with exchange.Locked(self.store, exchange.state_of(self.store)) as locked:
                exchange.exchange(locked, self.store + ".undone", caches)
        except KeyboardInterrupt:
            return False
        finally:
            for patch in patches:
                patch.stop()
        return True

    def test_locked(self):
        """No program opens a store that is exchanged, and one to which mail came isn't."""
        state = exchange.state_of(self.store)
        with exchange.Locked(self.store, state):
            self.assertEqual(office("export", "--conf", SETUP, "--db", self.store).returncode, 4)
        self.replay([messages.none(Label("bts", 1))], "--db", self.store)
        with self.assertRaises(exchange.Fault) as raised:
            exchange.Locked(self.store, state).__enter__()
        self.assertEqual(raised.exception.status, 3)
        with Serving(store=self.store), self.assertRaises(exchange.Fault) as raised:
            exchange.Locked(self.store, exchange.state_of(self.store)).__enter__()
        self.assertEqual(raised.exception.status, 4)

    def test_program(self):
        """The mail that the office would refuse isn't taken for good."""
        with mock.patch.dict(os.environ, {"OFFICE": OFFICE}):
            words = ["--conf", SETUP]
            before = outcome.replayed(words, world())
            after = outcome.replayed(words, [*world()[:-1], b"From: clock\n"])
        with self.assertRaises(program.Fault) as raised:
            outcome.check(before, after)
        self.assertEqual(raised.exception.cause, "the new office would refuse mail: refused MissingField Number")


if __name__ == "__main__":
    unittest.main()
