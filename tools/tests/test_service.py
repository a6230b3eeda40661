"""The client of the service: docs/RULES.md, part 13."""
import base64
import datetime
import http.server
import socket
import threading
import unittest

from helpers import Serving, example, needs_office
from office_tools import bags
from office_tools.faults import Fault
from office_tools.letters import letters
from office_tools.reports import Hints
from office_tools.senders import runs_sender
from office_tools.service import Kept, Service, Status


class Peer(http.server.BaseHTTPRequestHandler):
    """A peer that reports what it was asked, and is no office."""

    def do_GET(self):
        body = f"{self.path} {self.headers['Authorization']}\n".encode()
        self.send_response(200)
        self.send_header("Content-Length", str(len(body)))
        self.end_headers()
        self.wfile.write(body)

    def log_message(self, *_):
        pass


class Clients(unittest.TestCase):

    def setUp(self):
        self.server = http.server.HTTPServer(("127.0.0.1", 0), Peer)
        self.place = f"127.0.0.1:{self.server.server_port}"
        thread = threading.Thread(target=self.server.serve_forever)
        thread.start()
        self.addCleanup(self.server.server_close)
        self.addCleanup(thread.join)
        self.addCleanup(self.server.shutdown)

    def test_passwords(self):
        told = base64.b64encode(b"ftp:a:b@c").decode()
        for service in (Service(f"http://ftp:a%3Ab%40c@{self.place}"), Service(f"http://{self.place}", "ftp", "a:b@c")):
            self.assertEqual(service.get("/x").text, f"/x Basic {told}")
            with self.assertRaises(Fault) as found:
                service.status()
            self.assertEqual(found.exception.cause, f"http://{self.place}/status: no office answers there")
        self.assertEqual(Service(f"http://{self.place}/office/").get("/x").text, "/office/x None")

    def test_nobody_answers(self):
        with socket.socket() as free:
            free.bind(("127.0.0.1", 0))
            with self.assertRaises(Fault) as found:
                Service(f"http://u:p@127.0.0.1:{free.getsockname()[1]}", seconds=5).get("/status")
        self.assertEqual(found.exception.status, 4)
        self.assertRegex(found.exception.cause, r"^http://127.0.0.1:\d+/status: Connection refused$")

    def test_urls(self):
        for url in ("", "127.0.0.1:8080", "ftp://h", "http://", "http://h:x", "http://h?x", "http://u:p@h:99999",
                    "http://h\x049", "http://h /x"):
            with self.subTest(url=url), self.assertRaises(Fault) as found:
                Service(url)
            self.assertEqual(found.exception.status, 2)
            self.assertNotIn("u:p", found.exception.cause)


@needs_office
class Offices(unittest.TestCase):

    def test_archive(self):
        texts = list(bags.messages_in(example("archive.bag")))
        with Serving() as serving:
            service = Service(serving.url)
            self.assertEqual(service.status(), Status(0, 0))
            self.assertEqual(service.kept()["rt"], Kept(0, 0, 0))
            for text in texts:
                self.assertTrue(service.post("/mail", text).text.startswith("held "))
            self.assertEqual(service.status(), Status(2, 2))
            self.assertEqual(list(service.kept()), ["ftp", "bd", "bts", "rt", "clock"])
            self.assertEqual(service.kept()["bd"], Kept(3, 3, 3))
            self.assertEqual(service.kept_text("ftp", 1), texts[0])
            self.assertIsNone(service.kept_text("ftp", 9))
            self.assertEqual(service.testing().finished, 2)
            self.assertEqual([service.excuses(2).run, service.update(1).run], [2, 1])
            with self.assertRaisesRegex(Fault, "/excuses/3: 404: refused NoRun"):
                service.excuses(3)
            self.assertEqual((service.post("/mail", b"").status, service.post("/mail", b"").text),
                             (400, "refused MissingField From"))

    def test_live_pages(self):
        """Hints, unstable, the next order, parts of the mail, proposals, and messages that are looked at."""
        texts = list(bags.messages_in(example("archive.bag")))
        with Serving() as serving:
            service = Service(serving.url)
            self.assertIsNone(service.proposed())
            self.assertEqual(service.hints(), Hints(0, None, []))
            for text in texts:
                service.post("/mail", text)
            self.assertEqual([item.item for item in service.hints().items],
                             ["libgreet/1.2-1", "greeter/0.9-2", "libgreet"])
            self.assertEqual(service.unstable().sources, {"greeter": "0.9-2", "libgreet": "2.0-1"})
            self.assertEqual(service.order(datetime.date(2025, 3, 21)),
                             b"From: clock\nNumber: 3\nKind: run\nDay: 2025-03-21\n"
                             b"Covers: ftp 3, bd 3, bts 1, rt 2\n")
            self.assertEqual(runs_sender(service), "clock")
            builds = [text for text in texts if text.startswith(b"From: bd\n")]
            self.assertEqual([text for _, text in letters(service, "bd", 2)], builds[1:])
            self.assertEqual(service.proposed(), "")
            self.assertEqual(service.verdict(texts[0]), "held ftp 1")
            self.assertEqual(service.verdict(texts[0] + b"X: y\n"), "refused OtherText")
            self.assertEqual(service.verdict(b""), "refused MissingField From")

    @needs_office
    def test_labels_of_kept_mail(self):
        """A label is read wherever a message has it."""
        begins = (b"From: rt\nNumber: 1\n", b"from:rt\nNUMBER: 2\n", b"Number: 3\nFrom: rt\n",
                  b"From: rt\nBy: me\nNumber: 4\n", b"\nFrom:\n rt\nNumber: 5 \n", b"From: rt\nNumber: 6\r\n")
        with Serving() as serving:
            service = Service(serving.url)
            for number, begin in enumerate(begins, 1):
                reply = service.replied("/mail", begin + b"Kind: hint\nHint: block app\n")
                self.assertEqual(reply, f"held rt {number}")
            self.assertEqual([label for label, _ in letters(service, "rt")],
                             [("rt", number) for number in range(1, len(begins) + 1)])

    def test_older_office(self):
        """An office that hasn't a page says so, and the tools say why."""
        with Serving() as serving:
            service = Service(serving.url)
            with self.assertRaisesRegex(Fault, r"/none: 404: refused NoRoute: it is an office of an earlier version"):
                service.good("/none")
            with self.assertRaisesRegex(Fault, r"/none: 404: refused NoRoute: it is an office of an earlier version"):
                service.replied("/none", b"")


if __name__ == "__main__":
    unittest.main()
