"""The templates as Python compiled them, kept in files of a folder.

They may be lost at any time, and one that isn't as it was written counts as none: Python trusts what it loads.
"""
import contextlib
import os

from jinja2.bccache import Bucket, BytecodeCache

from office_tools.faults import Fault
from office_tools.files import read_bytes, sealed, unsealed, write_whole


class Compiled(BytecodeCache):
    """A file for each template."""

    def __init__(self, folder: str) -> None:
        self.folder = folder

    def path(self, bucket: Bucket) -> str:
        """The file of a template."""
        return os.path.join(self.folder, f"{bucket.key}.compiled")

    def load_bytecode(self, bucket: Bucket) -> None:
        """Loads a template, if it is kept."""
        with contextlib.suppress(Fault):
            bucket.bytecode_from_string(unsealed(read_bytes(self.path(bucket))))

    def dump_bytecode(self, bucket: Bucket) -> None:
        """Keeps a template. A full disk only costs time."""
        with contextlib.suppress(Fault):
            write_whole(self.path(bucket), sealed(bucket.bytecode_to_string()))
