"""office-signed: mail that real keys signed, checked by gpgv."""
import hashlib
import os
import shutil
import subprocess
import tempfile
import unittest

from helpers import TOOLS, Keyring, Serving, needs_office
from office_tools.service import Service

TEXT = b"From: ftp\nNumber: 1\nKind: none\nOffice: trixie\n"


@needs_office
@unittest.skipUnless(shutil.which("gpg") and shutil.which("gpgv"), "there is no gpg or gpgv")
class Signed(unittest.TestCase):

    @classmethod
    def setUpClass(cls):
        cls.folder = tempfile.TemporaryDirectory()
        cls.addClassCleanup(cls.folder.cleanup)
        cls.keys = os.path.join(cls.folder.name, "keys")
        cls.keyring = Keyring(os.path.join(cls.folder.name, "home"))
        cls.addClassCleanup(cls.keyring.end)
        os.mkdir(cls.keys)
        for user in ("ftp", "rt", "other"):
            public = cls.keyring.make(user)
            if user != "other":
                with open(os.path.join(cls.keys, f"{user}.gpg"), "wb") as file:
                    file.write(public)

    def sign(self, user, text, how="--sign"):
        return self.keyring.gpg("-u", f"{user}@example.org", how, given=text)

    def armoured(self, user, text):
        return self.keyring.gpg("-u", f"{user}@example.org", "--sign", "--armor", given=text)

    def post(self, serving, signed, office="trixie"):
        words = [os.path.join(TOOLS, "bin", "office-signed"), self.keys, office, serving.url]
        told = subprocess.run(words, input=signed, capture_output=True, check=False)
        return told.stdout.decode(), told.stderr.decode().split("\n")[0], told.returncode

    def test_signed(self):
        with Serving() as serving:
            signed = self.sign("ftp", TEXT)
            for _ in range(2):
                self.assertEqual(self.post(serving, signed), ("held ftp 1\n", "", 0))
            self.assertEqual(Service(serving.url).kept_text("ftp", 1), TEXT)
            kept = os.path.join(self.folder.name, "signed", "ftp-" + hashlib.sha256(TEXT).hexdigest())
            with open(kept, "rb") as file:
                self.assertEqual(file.read(), signed)
            other = self.sign("ftp", TEXT + b"Note: other\n")
            self.assertEqual(self.post(serving, other), ("refused OtherText\n", "", 3))

    def test_refusals(self):
        as_rt = TEXT.replace(b"From: ftp", b"From: rt")
        clear = self.sign("ftp", TEXT, "--clearsign")
        told = "office-signed: "
        with Serving() as serving:
            for signed, office, due in [
                    (self.sign("ftp", TEXT), "sid", (told + "it is for trixie, and not for sid", 3)),
                    (self.sign("ftp", b"X: y\n\n" + TEXT), "trixie",
                     (told + "it is for no named office, and not for trixie", 3)),
                    (self.sign("other", TEXT), "trixie", (told + "no key fits", 1)),
                    (clear.replace(b"Number: 1", b"Number: 2"), "trixie", (told + "no key fits", 1)),
                    (TEXT, "trixie", (told + "no key fits", 1)),
                    (b"", "trixie", (told + "no key fits", 1)),
                    (self.sign("ftp", TEXT + b"Note: " + b"x" * 65536), "trixie", (told + "no key fits", 1))]:
                self.assertEqual(self.post(serving, signed, office), ("", *due))
            for text, refusal in [(as_rt, "refused OtherSender\n"),
                                  (b"X: y\nOffice: trixie\n\n" + TEXT, "refused MissingField From\n")]:
                self.assertEqual(self.post(serving, self.sign("ftp", text)), (refusal, "", 3))
            self.assertEqual(Service(serving.url).kept()["ftp"].kept, 0)

    def test_two_messages(self):
        """Two messages in one input are refused in each form, and nothing is posted; each alone is held."""
        texts = [TEXT, TEXT.replace(b"Number: 1", b"Number: 2")]
        plain = [self.sign("ftp", text) for text in texts]
        bare, zlib = ([self.keyring.gpg("-u", "ftp@example.org", "--sign", "--compress-algo", way, given=text)
                       for text in texts] for way in ("none", "bzip2"))
        armoured = [self.armoured("ftp", text) for text in texts]
        clear = [self.sign("ftp", text, "--clearsign") for text in texts]
        both = self.keyring.gpg("--enarmor", given=plain[0] + plain[1]).replace(b"ARMORED FILE", b"MESSAGE")
        due = ("", "office-signed: it isn't one signed message alone: send each on its own", 3)
        with Serving() as serving:
            for signed in [*map(b"".join, (plain, zlib, armoured, reversed(armoured))), both, armoured[0] + plain[1],
                           plain[0] + armoured[1]]:
                self.assertEqual(self.post(serving, signed), due, signed)
            # gpgv refuses these itself, or the second one is no part of what it reads.
            for signed in [b"".join(bare), bare[0] + plain[1], b"".join(clear), clear[0] + armoured[1]]:
                self.assertIn(self.post(serving, signed), (due, ("", "office-signed: no key fits", 1)))
            self.assertEqual(Service(serving.url).kept()["ftp"].kept, 0)
            for signed in [plain[0], bare[0], zlib[0], armoured[0], b"Hello,\n\n" + armoured[0] + b"\n-- \nftp\n"]:
                self.assertEqual(self.post(serving, signed), ("held ftp 1\n", "", 0))
            self.assertEqual(self.post(serving, clear[1])[2], 0)

    def test_two_signers(self):
        """A text that two of the team signed is taken as the mail of the one who it states, if that one signed it."""
        two = ("-u", "rt@example.org", "-u", "ftp@example.org")
        other = TEXT.replace(b"ftp", b"bts")
        with Serving() as serving:
            for how in ("--sign", "--clearsign"):
                signed = self.keyring.gpg(*two, how, given=TEXT)
                self.assertEqual(self.post(serving, signed), ("held ftp 1\n", "", 0))
            as_rt = self.keyring.gpg(*two, "--sign", given=TEXT.replace(b"ftp", b"rt"))
            self.assertEqual(self.post(serving, as_rt), ("held rt 1\n", "", 0))
            as_other = self.keyring.gpg(*two, "--sign", given=other)
            self.assertEqual(self.post(serving, as_other), ("refused OtherSender\n", "", 3))
            unknown = self.keyring.gpg(*two[:2], "-u", "other@example.org", "--sign", given=TEXT)
            self.assertEqual(self.post(serving, unknown), ("", "office-signed: no key fits", 1))


if __name__ == "__main__":
    unittest.main()
