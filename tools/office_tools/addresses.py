"""What a file has, or a URL of http or https."""
import http.client
import re
import urllib.error
import urllib.request

from office_tools.faults import Fault, cause_of
from office_tools.files import read_bytes

SECONDS = 60.0  # how long a connection waits for its peer
URL = re.compile(r"https?://", re.IGNORECASE)
USER = re.compile(r"//[^/@]*@")


def read_named(name: str) -> bytes:
    """All bytes of a file, or of what a server sends for a URL. `-` is standard input."""
    if not URL.match(name):
        return read_bytes(name)
    if USER.search(name):
        raise Fault(f"{USER.sub('//', name)}: a URL with a user isn't read")
    try:
        with urllib.request.urlopen(name, timeout=SECONDS) as answer:
            return bytes(answer.read())
    except urllib.error.HTTPError as fault:
        raise Fault(f"{name}: {fault.code}: {fault.reason}") from fault
    except urllib.error.URLError as fault:
        reason = fault.reason
        raise Fault(f"{name}: {cause_of(reason) if isinstance(reason, BaseException) else reason}") from fault
    except (OSError, http.client.HTTPException, ValueError) as fault:
        raise Fault(f"{name}: {cause_of(fault)}") from fault
