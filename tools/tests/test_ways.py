"""Ways around what the rules leave out, as docs/ARCHIVE.md has them, that tests/archive doesn't go."""
import os
import tempfile
import unittest

from helpers import needs_office, office
from office_tools import bags, messages
from office_tools.messages import Label, Range, Severity, Urgency

SETUP = "Architectures: amd64 arm64\n" + "".join(f"\nSender: {sender}\nRole: {role}\n" for sender, role in (
    ("ftp", "upload"), ("again1", "build"), ("bd", "build"), ("bts", "bugs"), ("rt", "release"), ("clock", "runs")))
DAY = "2025-03-06"


@needs_office
class Ways(unittest.TestCase):
    """Each way is mail to an office in memory; what a run does is by docs/RULES.md, part 12."""

    def setUp(self):
        self.last = {}
        self.mail = []

    def send(self, sender, make, *values):
        """A message under the sender's next number."""
        self.last[sender] = self.last.get(sender, 0) + 1
        self.mail.append(make(Label(sender, self.last[sender]), *values))

    def upload(self, source, version, urgency=Urgency.CRITICAL):
        self.send("ftp", messages.upload, source, version, urgency, DAY)

    def build(self, sender, name, version, *architectures, **fields):
        self.send(sender, messages.build, [messages.binary({
            "Package": name, "Version": version, "Architecture": architecture, **fields})
            for architecture in architectures])

    def run_now(self):
        self.send("clock", messages.run, DAY, {sender: number for sender, number in self.last.items()
                                               if sender != "clock"})

    def updates(self):
        """The lines of the last run's update."""
        with tempfile.NamedTemporaryFile("w", suffix=".conf", delete=False) as file:
            file.write(SETUP)
        told = office("replay", "--conf", file.name, given=b"".join(map(bags.framed, self.mail))).stdout.decode()
        os.unlink(file.name)
        self.assertNotIn("refused ", told.split("ready ")[0])
        return told.rsplit("\nupdate ", 1)[1].split("\ntesting ")[0].splitlines()[1:]

    def test_an_architecture_lags(self):
        self.upload("app", "1")
        self.build("bd", "app", "1", "amd64", "arm64")
        self.run_now()
        self.upload("app", "2")
        self.build("bd", "app", "2", "amd64")
        self.run_now()
        self.assertEqual(self.updates(), [])
        self.send("ftp", messages.drop, "app", "arm64", "1")
        self.run_now()
        self.assertEqual(self.updates(), ["accept app 2"])

    def test_force(self):
        self.upload("app", "1")
        self.build("bd", "app", "1", "amd64", "arm64", Depends="nosuch")
        self.run_now()
        self.assertEqual(self.updates(), ["wait app 1 uninstallable amd64 app"])
        self.build("again1", "app", "1", "amd64", "arm64")
        self.run_now()
        self.assertEqual(self.updates(), ["accept app 1"])

    def test_urgent_and_approve(self):
        self.send("rt", messages.hint, "block-all source")
        self.upload("app", "1", Urgency.LOW)
        self.build("bd", "app", "1", "amd64", "arm64")
        self.send("rt", messages.hint, "age-days 0 app/1")
        self.run_now()
        self.assertEqual(self.updates(), [])
        self.send("rt", messages.hint, "unblock app/1")
        self.run_now()
        self.assertEqual(self.updates(), ["accept app 1"])

    def test_a_failed_test_is_a_bug_of_the_new_version(self):
        for version, is_moved in (("1", True), ("2", False)):
            self.upload("app", version)
            self.build("bd", "app", version, "amd64", "arm64")
            self.send("bts", messages.bug, 900000001, "app", Severity.SERIOUS, Range(found="2"))
            self.run_now()
            self.assertEqual(self.updates(), ["accept app 1"] if is_moved else [])
        self.send("bts", messages.bug, 900000001, "app", Severity.WISHLIST, Range(found="2"))
        self.run_now()
        self.assertEqual(self.updates(), ["accept app 2"])

    def test_all_is_watched_on_the_first_architecture(self):
        """On arm64 nothing meets the clause, and nobody looks."""
        self.upload("lib", "1")
        self.build("bd", "lib", "1", "amd64")
        self.upload("doc", "1")
        self.build("bd", "doc", "1", "all", Depends="lib")
        self.run_now()
        self.assertEqual(self.updates(), ["accept lib 1", "accept doc 1"])

    def test_a_later_setup_would_change_nothing(self):
        """A sender after bd can't send a package again: that is why a spare one precedes it."""
        self.upload("app", "1")
        self.build("again1", "app", "1", "amd64", "arm64", Depends="nosuch")
        self.build("bd", "app", "1", "amd64", "arm64")
        self.run_now()
        self.assertEqual(self.updates(), ["wait app 1 uninstallable amd64 app"])


if __name__ == "__main__":
    unittest.main()
