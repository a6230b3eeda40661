"""Writes the packages of an upload straight into their formats, some hundred times as fast as dpkg-buildpackage.

deb(5), dsc(5) and deb-changes(5) say what the files are. `dpkg-deb`, `reprepro` and `aptly` read them as those that
packages.py builds. By hand it compares both: quick.py FOLDER.
"""
import datetime
import email.utils
import gzip
import hashlib
import io
import os
import subprocess
import sys
import tarfile
from typing import Mapping, Sequence

from packages import TWELVE, WHO, Package, Upload, build

DESCRIPTION = "tiny\n A tiny package."


def paragraph(fields: Mapping[str, str]) -> str:
    """A paragraph of the fields that say something."""
    return "".join(f"{name}:{'' if value.startswith(chr(10)) else ' '}{value}\n"
                   for name, value in fields.items() if value)


def tar(files: Mapping[str, bytes]) -> bytes:
    """A compressed tar archive of these files, the same for the same files."""
    held = io.BytesIO()
    with tarfile.open(fileobj=held, mode="w", format=tarfile.GNU_FORMAT) as archive:
        for name, data in files.items():
            entry = tarfile.TarInfo(name)
            entry.size = len(data)
            archive.addfile(entry, io.BytesIO(data))
    return gzip.compress(held.getvalue(), 1, mtime=0)


def member(name: str, data: bytes) -> bytes:
    """A member of a common archive (ar)."""
    head = f"{name:<16}{'0':<12}{'0':<6}{'0':<6}{'100644':<8}{len(data):<10}`\n".encode()
    return head + data + (b"\n" if len(data) % 2 else b"")


def deb(control: bytes) -> bytes:
    """A file .deb with this control data and no files."""
    return b"!<arch>\n" + member("debian-binary", b"2.0\n") + member("control.tar.gz", tar({"./control": control})) + \
        member("data.tar.gz", tar({}))


def binary_version(upload: Upload) -> str:
    """The version of what is built of an upload."""
    return upload.version + (f"+b{upload.rebuild}" if upload.rebuild else "")


def control(upload: Upload, package: Package, architecture: str) -> bytes:
    """The control data of a binary package, as dpkg-gencontrol writes it."""
    version = binary_version(upload)
    source = upload.source + (f" ({upload.version})" if upload.rebuild else "")
    return paragraph({
        "Package": package.name, "Source": source if source != package.name else "", "Version": version,
        "Architecture": architecture, "Maintainer": WHO, "Depends": package.depends, "Conflicts": package.conflicts,
        "Provides": package.provides, "Section": "misc", "Priority": "optional",
        "Description": DESCRIPTION}).encode()


def listed(files: Mapping[str, bytes], kind: str, more: str = "") -> str:
    """The lines of a field that lists files with their digests."""
    return "".join(f"\n {hashlib.new(kind, data).hexdigest()} {len(data)} {more}{name}"
                   for name, data in files.items())


def digests(files: Mapping[str, bytes], more: str = "") -> Mapping[str, str]:
    """The fields that list files."""
    return {"Checksums-Sha1": listed(files, "sha1"), "Checksums-Sha256": listed(files, "sha256"),
            "Files": listed(files, "md5", more)}


def plain(version: str) -> str:
    """A version as it is written in a file's name."""
    return version.split(":")[-1]


def source_files(upload: Upload) -> Mapping[str, bytes]:
    """The files of the source."""
    stem = f"{upload.source}_{plain(upload.version)}"
    data = tar({f"{upload.source}/debian/control": upload.control().encode(),
                f"{upload.source}/debian/changelog": upload.changelog().encode()})
    files = {stem + ".tar.gz": data}
    names = ", ".join(package.name for package in upload.packages)
    kinds = sorted({"all" if package.is_all else "any" for package in upload.packages}, reverse=True)
    text = paragraph({"Format": "1.0", "Source": upload.source, "Binary": names, "Architecture": " ".join(kinds),
                      "Version": upload.version, "Maintainer": WHO, "Standards-Version": "4.6.2", **digests(files)})
    return {stem + ".dsc": text.encode(), **files}


def built_files(upload: Upload, architecture: str, with_all: bool) -> Mapping[str, bytes]:
    """The binary packages that are built on an architecture."""
    found = {}
    for package in upload.packages:
        if package.is_all and not with_all:
            continue
        own = "all" if package.is_all else architecture
        name = f"{package.name}_{plain(binary_version(upload))}_{own}.deb"
        found[name] = deb(control(upload, package, own))
    return found


def changes(upload: Upload, architectures: Sequence[str], files: Mapping[str, bytes]) -> str:
    """A file .changes that brings these files."""
    date = datetime.datetime.fromisoformat(upload.day + "T09:00:00+00:00")
    is_rebuild = upload.rebuild is not None
    return paragraph({
        "Format": "1.8", "Date": email.utils.format_datetime(date),
        "Source": upload.source + (f" ({upload.version})" if is_rebuild else ""),
        "Binary": " ".join(package.name for package in upload.packages), "Architecture": " ".join(architectures),
        "Version": binary_version(upload), "Binary-Only": "yes" if is_rebuild else "", "Distribution": "unstable",
        "Urgency": upload.urgency, "Maintainer": WHO, "Changed-By": WHO,
        "Description": "".join(f"\n {package.name} - tiny" for package in upload.packages),
        "Changes": f"\n {upload.source} ({binary_version(upload)}) unstable; urgency={upload.urgency}\n .\n   * New.",
        **digests(files, "misc optional ")})


def write(upload: Upload, folder: str) -> str:
    """Writes an upload into a folder of its own below this one, unless it exists, and returns that folder."""
    target = os.path.join(folder, upload.name)
    if os.path.isdir(target):
        return target
    work = os.path.join(folder, "." + upload.name)
    os.makedirs(work, exist_ok=True)
    for place, architecture in enumerate(upload.architectures):
        is_whole = place == 0 and upload.rebuild is None and not upload.is_later
        built = built_files(upload, architecture, is_whole)
        own = [architecture] if any(not name.endswith("_all.deb") for name in built) else []
        files = {**(source_files(upload) if is_whole else {}), **built}
        words = [*(["source"] if is_whole else []), *own, *(["all"] if len(own) + len(built) and any(
            name.endswith("_all.deb") for name in built) else [])]
        if not built and not is_whole:
            continue
        stem = f"{upload.source}_{plain(binary_version(upload))}_{architecture}"
        for name, data in {**files, stem + ".changes": changes(upload, words, files).encode()}.items():
            with open(os.path.join(work, name), "wb") as file:
                file.write(data)
    os.rename(work, target)
    return target


def shown(path: str) -> str:
    """What dpkg-deb reads of a package, without what a build machine adds."""
    told = subprocess.run(["dpkg-deb", "--field", path], capture_output=True, text=True, check=True).stdout
    return "".join(sorted(line for line in told.splitlines(True) if not line.startswith("Installed-Size:")))


def main() -> None:
    """Compares the packages of each of the twelve with those that dpkg-buildpackage builds."""
    count = 0
    for upload in TWELVE:
        built, written = (maker(upload, os.path.join(sys.argv[1], maker.__name__)) for maker in (build, write))
        for name in sorted(os.listdir(built)):
            if name.endswith(".deb"):
                count += 1
                due, found = shown(os.path.join(built, name)), shown(os.path.join(written, name))
                if due != found:
                    sys.exit(f"{name}:\n{due}\n{found}")
    print(f"{count} packages as dpkg-buildpackage builds them")


if __name__ == "__main__":
    main()
