"""Setups: docs/RULES.md, part 5."""
import unittest

from helpers import SETUP, example
from office_tools import setups
from office_tools.faults import Fault
from office_tools.messages import Role


class Setups(unittest.TestCase):

    def test_example(self):
        setup = setups.read_setup(SETUP)
        self.assertEqual(list(setup.architectures), ["amd64", "arm64"])
        self.assertEqual(list(setup.senders.items()), [("ftp", Role.UPLOAD), ("bd", Role.BUILD), ("bts", Role.BUGS),
                                                       ("rt", Role.RELEASE), ("clock", Role.RUNS)])
        self.assertEqual(setup.sender_of(Role.RUNS), "clock")
        self.assertEqual(setups.written(setup), example("setup.conf"))

    def test_several_of_a_role(self):
        setup = setups.parse(b"Architectures: a\n\nSender: x\nRole: build\n\nSender: y\nRole: build\n")
        self.assertEqual((list(setup.senders_of(Role.BUILD)), setup.sender_of(Role.BUILD)), (["x", "y"], "x"))
        with self.assertRaisesRegex(Fault, "the setup has no sender of the role runs"):
            setup.sender_of(Role.RUNS)

    def test_faults(self):
        for text, cause in [(b"", "line 1: the setup's paragraph has no field Architectures"),
                            (b"Architectures: a\n\nSender: x\n", "line 3: the setup's paragraph has no field Role"),
                            (b"Architectures: a\n\nSender: x\nRole: y\n", "the setup has a role that there isn't: 'y'"),
                            (b"# a\nArchitectures: a\n", "line 1: NoColon: '# a'")]:
            with self.subTest(text=text), self.assertRaises(Fault) as found:
                setups.parse(text)
            self.assertEqual(found.exception.cause, cause)


if __name__ == "__main__":
    unittest.main()
