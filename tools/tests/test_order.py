"""office-order: the next order of a service."""
import datetime
import unittest

from helpers import Serving, example, needs_office, tool
from office_tools import bags
from office_tools.service import Service

FIRST = "From: clock\nNumber: 1\nKind: run\nDay: 2025-03-22\nCovers:\n"
NEXT = "From: clock\nNumber: 3\nKind: run\nDay: 2025-03-22\nCovers: ftp 3, bd 3, bts 1, rt 2\n"


@needs_office
class Order(unittest.TestCase):

    def order(self, serving, *words):
        told = tool("office-order", "--url", serving.url, *words)
        return told.stdout, told.stderr, told.returncode

    def test_order(self):
        with Serving() as serving:
            service = Service(serving.url)
            self.assertEqual(self.order(serving, "2025-03-22"), (FIRST, "", 0))
            texts = list(bags.messages_in(example("archive.bag")))
            for text in texts:
                service.post("/mail", text)
            self.assertEqual(self.order(serving, "2025-03-22"), (NEXT, "", 0))
            # Mail after a gap isn't covered.
            service.post("/mail", b"From: bd\nNumber: 5\nKind: none\n")
            self.assertEqual(self.order(serving, "2025-03-22"), (NEXT, "", 0))
            self.assertEqual(self.order(serving, "--send", "2025-03-22"), (
                "", "office-order: bd 4 is missing, and bd 5 is kept: send what is missing, or allow the gap by --gap "
                    "bd\n", 3))
            self.assertEqual(self.order(serving, "--send", "--gap", "nobody", "2025-03-22")[2], 2)
            self.assertEqual(self.order(serving, "--send", "--gap", "bd", "2025-03-22"), ("held clock 3\n", "", 0))
            self.assertEqual(service.kept_text("clock", 3), NEXT.encode())
            self.assertEqual(service.get("/status").body, b"ready 3 finished 3\n")

    def test_a_run_that_waits(self):
        """The sender of orders is found, too, while an ordered run waits for mail."""
        with Serving() as serving:
            service = Service(serving.url)
            service.post("/mail", b"From: ftp\nNumber: 1\nKind: none\n")
            service.post("/mail", b"From: clock\nNumber: 1\nKind: run\nDay: 2025-03-22\nCovers: bd 2\n")
            due = "From: clock\nNumber: 2\nKind: run\nDay: 2025-03-23\nCovers: ftp 1\n"
            self.assertEqual(self.order(serving, "2025-03-23"), (due, "", 0))

    def test_days(self):
        """No day after today, and none before that of the last order, whether its run is finished or waits."""
        tomorrow = (datetime.datetime.now(datetime.timezone.utc) + datetime.timedelta(1)).date().isoformat()
        with Serving() as serving:
            told = self.order(serving, "--send", tomorrow)
            self.assertEqual((told[0], told[2]), ("", 3))
            self.assertIn("is after today", told[1])
            self.assertEqual(self.order(serving, "--send", "2025-03-22"), ("held clock 1\n", "", 0))
            before = self.order(serving, "--send", "2025-03-21")
            self.assertEqual(before, ("", "office-order: 2025-03-21 is before 2025-03-22, the day of the last order: "
                                          "the run would have that day. --force sends it\n", 3))
            Service(serving.url).post("/mail", b"From: clock\nNumber: 2\nKind: run\nDay: 2025-03-25\nCovers: bd 2\n")
            self.assertEqual(self.order(serving, "--send", "2025-03-24")[2], 3)
            self.assertEqual(self.order(serving, "--send", "2025-03-25")[0], "held clock 3\n")
            self.assertEqual(self.order(serving, "--send", "--force", "2025-03-24")[0], "held clock 4\n")
            self.assertEqual(self.order(serving, "--send", "--force", tomorrow)[0], "held clock 5\n")

    def test_today(self):
        with Serving() as serving:
            before = datetime.datetime.now(datetime.timezone.utc).date().isoformat()
            told = self.order(serving)[0]
            after = datetime.datetime.now(datetime.timezone.utc).date().isoformat()
        self.assertIn(told, [FIRST.replace("2025-03-22", day) for day in (before, after)])

    def test_refusals(self):
        for day in ["2025-02-30", "2025-3-1", "20250301", "1969-12-31"]:
            told = tool("office-order", day)
            self.assertEqual((told.stdout, told.returncode), ("", 2), day)
        told = tool("office-order", "--url", "http://127.0.0.1:1")
        self.assertEqual((told.stdout, told.returncode), ("", 4))
        self.assertRegex(told.stderr, r"^office-order: http://127\.0\.0\.1:1/order/\S+: Connection refused\n$")


if __name__ == "__main__":
    unittest.main()
