"""A copy of a running office's store, which follows it by its mail, and in which runs are tried."""
import json
import os
import shutil
import tempfile
from dataclasses import dataclass
from typing import Mapping, Optional, Sequence

from office_tools import bags, program, reports
from office_tools.faults import Exit, Fault
from office_tools.files import digest_of, read_bytes, write_whole
from office_tools.letters import letters
from office_tools.messages import Label
from office_tools.program import Store
from office_tools.service import Kept, Service

STORE, ENDS = "store.db", "ends"
TRIAL = "trial-"
PARTS = ("", "-wal", "-shm", "-journal")


@dataclass(frozen=True)
class Copy:
    """The store in a folder that may be lost at any time."""

    service: Service
    setup: str
    folder: str

    @property
    def store(self) -> Store:
        """The store."""
        return Store(self.setup, os.path.join(self.folder, STORE))

    def follow(self) -> reports.Testing:
        """Brings over the mail that the office keeps, and returns the copy's testing. A copy that isn't the office's is
        made from nothing.

        What a trial left that was ended by force is removed.
        """
        for name in os.listdir(self.folder):
            if name.startswith(TRIAL):
                shutil.rmtree(os.path.join(self.folder, name), ignore_errors=True)
        if not self.is_same():
            self.clear()
        testing = self.brought()
        if testing is None:
            self.clear()
            testing = self.brought()
        if testing is None:
            raise Fault(f"{self.service.url}: its testing isn't what its mail gives for {self.setup}", Exit.FAILED)
        return testing

    def clear(self) -> None:
        """Removes the copy."""
        for path in (*(self.store.path + part for part in PARTS), os.path.join(self.folder, ENDS)):
            if os.path.exists(path):
                os.unlink(path)

    def is_same(self) -> bool:
        """Whether the last message of each sender in the copy is one that the office keeps."""
        try:
            ends = json.loads(read_bytes(os.path.join(self.folder, ENDS)))
            return all(digest_of(self.service.kept_text(sender, number) or b"") == due
                       for sender, (number, due) in ends.items())
        except (Fault, ValueError, TypeError, AttributeError, RecursionError):
            return False

    def own(self) -> Mapping[str, Kept]:
        """What the copy keeps of each sender."""
        return self.store.kept() if os.path.exists(self.store.path) else {}

    def bring(self) -> None:
        """Brings over the mail after what the copy keeps without a gap, and writes down where it ends."""
        own, lacking, ends = self.own(), [], {}
        for sender in self.service.kept():
            for label, text in letters(self.service, sender, own[sender].unbroken + 1 if sender in own else 1):
                lacking.append(bags.framed(text))
                ends[sender] = label.number, digest_of(text)
        program.output(["replay", *self.store.words], b"".join(lacking))
        path = os.path.join(self.folder, ENDS)
        known = json.loads(read_bytes(path)) if os.path.exists(path) else {}
        write_whole(path, json.dumps({**known, **ends}).encode())

    def brought(self) -> Optional[reports.Testing]:
        """The copy's testing with the office's mail; None if the office has another one after the same runs."""
        self.bring()
        theirs, own = self.service.testing(), self.store.testing()
        return None if theirs.finished == own.finished and theirs != own else own

    def order(self, day: str) -> bytes:
        """The text of the next order over the mail of the copy."""
        return program.output(["order", "--day", day, *self.store.words])

    def tried(self, texts: Sequence[bytes], run: Label) -> reports.Testing:
        """The testing that the run of this order leaves after these messages, the last one being the order."""
        with tempfile.TemporaryDirectory(dir=self.folder, prefix=TRIAL) as folder:
            store = Store(self.setup, os.path.join(folder, STORE))
            for part in PARTS:
                if os.path.exists(self.store.path + part):
                    shutil.copyfile(self.store.path + part, store.path + part)
            told = program.output(["replay", *store.words], bags.bag_of(texts)).decode()
        refused = next((line for line in told.splitlines()[:len(texts)] if not line.startswith("held ")), None)
        if refused is not None:
            raise Fault(f"the copy of the office's store answers {refused}: somebody else sends mail: run it again",
                        Exit.REFUSED)
        return left_by(told, run)


def left_by(told: str, run: Label) -> reports.Testing:
    """The testing at the end of a replay whose last run is this one."""
    if f"\nupdate {run.number} " not in told:
        raise Fault(f"run {run.number} can't be tried: an ordered run waits for mail", Exit.REFUSED)
    return program.testing_in(told)
