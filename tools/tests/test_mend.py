"""office-mend: another text in the place of a message of a bag."""
import os
import subprocess
import tempfile
import unittest

from helpers import TOOLS, example

RIGHT = b"From: clock\nNumber: 2\nKind: run\nDay: 2025-03-21\nCovers: ftp 3\n"


class Mend(unittest.TestCase):

    def mend(self, sender, number, text, bag):
        with tempfile.NamedTemporaryFile() as file:
            file.write(text)
            file.flush()
            words = [os.path.join(TOOLS, "bin", "office-mend"), sender, number, file.name]
            told = subprocess.run(words, input=bag, capture_output=True, check=False)
            return told.stdout, told.stderr.decode().replace(file.name, "FILE"), told.returncode

    def test_mended(self):
        bag = example("archive.bag")
        wrong = example("archive/11-clock-2-run")
        due = bag.replace(b"mail %d\n%s" % (len(wrong), wrong), b"mail %d\n%s" % (len(RIGHT), RIGHT))
        self.assertNotEqual(due, bag)
        self.assertEqual(self.mend("clock", "2", RIGHT, bag), (due, "", 0))

    def test_refusals(self):
        bag, told = example("archive.bag"), "office-mend: "
        absent = RIGHT.replace(b"Number: 2", b"Number: 9")
        for words, text, given, due in [
                (("clock", "9"), absent, bag, (told + "standard input: the bag has no message clock 9\n", 1)),
                (("clock", "9"), RIGHT, bag, (told + "FILE: it is clock 2, and not clock 9\n", 3)),
                (("clock", "2"), b"", bag, (told + "FILE: it is no message, and not clock 2\n", 3)),
                (("clock", "2"), RIGHT, bag[:-1],
                 (told + f"standard input: it is no whole bag: Truncated at byte {len(bag) - 1}\n", 3))]:
            self.assertEqual(self.mend(*words, text, given), (b"", *due))
        self.assertEqual(self.mend("clock", "two", RIGHT, bag)[2], 2)


if __name__ == "__main__":
    unittest.main()
