"""How a command ends."""
import os
import stat
import subprocess
import sys
import tempfile
import unittest

from helpers import TOOLS
from office_tools import files
from office_tools.faults import Fault


def ended(body, **more):
    """A process whose command is this body."""
    text = f"import sys\nsys.path.insert(0, {TOOLS!r})\nfrom office_tools import faults\ndef main(words):\n    {body}\n"
    return subprocess.run([sys.executable, "-c", text + "faults.run('office-x', main)"], capture_output=True, text=True,
                          check=False, **more)


class Ends(unittest.TestCase):

    def test_statuses(self):
        for body, status, told in [
                ("return 3", 3, ""), ("raise faults.Fault('it went wrong', 4)", 4, "office-x: it went wrong\n"),
                ("raise faults.Fault('it went wrong')", 1, "office-x: it went wrong\n"),
                ("raise KeyboardInterrupt", 130, "office-x: interrupted\n"),
                ("open('/none')", 1, "office-x: /none: No such file or directory\n")]:
            found = ended(body)
            self.assertEqual((found.returncode, found.stderr), (status, told), body)

    def test_early(self):
        """An interrupt while a command's modules are imported is no traceback."""
        text = f"import sys\nsys.path.insert(0, {TOOLS!r})\nsys.argv[0] = '/usr/bin/office-x'\n"
        text += "from office_tools import faults\nraise KeyboardInterrupt"
        found = subprocess.run([sys.executable, "-c", text], capture_output=True, text=True, check=False)
        self.assertEqual((found.returncode, found.stderr), (-2, "office-x: interrupted\n"))

    def test_a_full_disk(self):
        with open("/dev/full", "wb") as full:
            found = subprocess.run(
                [sys.executable, "-c", f"import sys\nsys.path.insert(0, {TOOLS!r})\nfrom office_tools import faults\n"
                 "def main(words):\n    print('text')\n    return 0\nfaults.run('office-x', main)"],
                stdout=full, stderr=subprocess.PIPE, check=False)
        self.assertEqual((found.returncode, found.stderr), (1, b"office-x: No space left on device\n"))

    def test_nobody_reads(self):
        read, write = os.pipe()
        os.close(read)
        text = "for _ in range(100000): print('x' * 100)"
        code = (f"import sys\nsys.path.insert(0, {TOOLS!r})\nfrom office_tools import faults\n"
                f"def main(words):\n    {text}\nfaults.run('office-x', main)")
        found = subprocess.run([sys.executable, "-c", code], stdout=write, stderr=subprocess.PIPE, check=False)
        os.close(write)
        self.assertEqual((found.returncode, found.stderr), (141, b""))


class Files(unittest.TestCase):

    def test_write_whole(self):
        with tempfile.TemporaryDirectory() as folder:
            path = os.path.join(folder, "new/file")
            mask = os.umask(0o027)
            try:
                files.write_whole(path, b"one")
                files.write_whole(path, b"two")
            finally:
                os.umask(mask)
            self.assertEqual(files.read_bytes(path), b"two")
            self.assertEqual(os.listdir(os.path.dirname(path)), ["file"])
            self.assertEqual(stat.S_IMODE(os.stat(path).st_mode), 0o640)
            with self.assertRaisesRegex(Fault, "file/below: Not a directory|file/below: File exists"):
                files.write_whole(path + "/below", b"three")


if __name__ == "__main__":
    unittest.main()
