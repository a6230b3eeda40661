#!/usr/bin/env python3
"""The table of examples/office.nft lets the users that it names reach the office's port, and nobody else.

usage: firewall.py OFFICE

OFFICE is the built program. The table is loaded in a network namespace of this script's own, so the machine's rules
stay as they are. It needs root, nft, ip, curl, unshare and setpriv; without them the last line says that nothing was
tried.
"""
import os
import shutil
import subprocess
import sys

HERE = os.path.dirname(os.path.realpath(__file__))
sys.dont_write_bytecode = True
sys.path.insert(0, os.path.dirname(HERE))
import serving  # noqa: E402

NEEDED = ("nft", "ip", "curl", "unshare", "setpriv")
INSIDE = "inside"
PORT = 8080  # that of the table
DUE = {"root": 0, "www-data": 0, "nobody": 7, "games": 7}
"""What the curl of each user ends with: 7 is no connection."""


def ended(user: str, url: str) -> int:
    """What a user's curl ends with."""
    return subprocess.run(["setpriv", f"--reuid={user}", "--clear-groups", "curl", "-sf", "--max-time", "5",
                           url + "/status"], capture_output=True, check=False).returncode


def tried(program: str) -> int:
    """Tries each user in this namespace: the exit status."""
    table = os.path.join(HERE, "..", "..", "examples", "office.nft")
    for words in (["ip", "link", "set", "lo", "up"], ["nft", "-f", table]):
        subprocess.run(words, check=True)
    with serving.Service(program, port=PORT) as service:
        found = {user: ended(user, service.url) for user in DUE}
    faults = [user for user, due in DUE.items() if found[user] != due]
    for user in faults:
        print(f"FAIL {user}: due {DUE[user]}, got {found[user]}")
    print(f"{len(DUE)} tried, {len(faults)} faults")
    return int(bool(faults))


def main(program: str, *where: str) -> int:
    """Begins again in a namespace, if there is all that is needed."""
    if os.getuid() or not all(map(shutil.which, NEEDED)):
        print(f"0 tried, 0 faults: root, {', '.join(NEEDED[:-1])} or {NEEDED[-1]} is missing")
        return 0
    if INSIDE in where:
        return tried(program)
    return subprocess.run(["unshare", "--net", sys.executable, __file__, program, INSIDE], check=False).returncode


if __name__ == "__main__":
    if len(sys.argv) not in (2, 3):
        sys.exit(__doc__)
    sys.exit(main(os.path.realpath(sys.argv[1]), *sys.argv[2:]))
