"""Who maintains which source: by uploads that say so, and by a file."""
import functools
import hashlib
import re
from typing import Iterable, Mapping, Sequence

from office_tools.faults import Fault
from office_tools.files import read_bytes
from office_tools.pages.kept_mail import BETWEEN, fields_of, MOST_KEPT, people_in, Person

SAFE = re.compile(r"[^a-z0-9.+-]")
LONGEST = 150  # characters of a page's name
MAIL = re.compile(r"<([^<>\s]+)>")


def read_people(path: str) -> Mapping[str, Person]:
    """The people of a file: paragraphs as those of `Sources`, or lines of a source, a tab, and its maintainer."""
    try:
        text = read_bytes(path).decode()
    except UnicodeDecodeError as fault:
        raise Fault(f"{path}: it isn't UTF-8") from fault
    first = next((line for line in text.splitlines() if line.strip()), "")
    found = dict(in_lines(path, text) if "\t" in first.strip() else in_paragraphs(text))
    if not found and text.strip():
        raise Fault(f"{path}: it has no paragraph with Package and Maintainer, and no line SOURCE<TAB>MAINTAINER")
    return found


def in_lines(path: str, text: str) -> Iterable[tuple[str, Person]]:
    """The people of lines."""
    for number, line in enumerate(text.splitlines(), 1):
        source, tab, name = line.partition("\t")
        if line.strip() and not (tab and source.strip() and name.strip()):
            raise Fault(f"{path}:{number}: a line is a source, a tab, and its maintainer")
        if line.strip():
            yield source.strip(), Person(name.strip())


def in_paragraphs(text: str) -> Iterable[tuple[str, Person]]:
    """The people of paragraphs."""
    for paragraph in BETWEEN.split(text.strip("\n")):
        fields = fields_of(paragraph)
        source, maintainer = fields.get("package") or fields.get("source", ""), fields.get("maintainer", "")
        if source and maintainer:
            yield source, Person(maintainer, people_in(fields.get("uploaders", "")))


@functools.lru_cache(MOST_KEPT)
def mail_of(name: str) -> str:
    """The mail address of a person, in lower case, or the whole name if it has none."""
    found = MAIL.search(name)
    return (found[1] if found else name).strip().lower()


@functools.lru_cache(MOST_KEPT)
def page_of(name: str) -> str:
    """The name of a page, made of the address: two people have two. Its characters are of `a-z0-9.+-_`."""
    found = SAFE.sub(lambda sign: f"_{ord(sign[0]):x}_" if sign[0] != "@" else "_at_", mail_of(name))
    found = re.sub(r"^\.", "_2e_", found) or "_"
    if len(found) <= LONGEST:
        return found
    return f"{found[:LONGEST - 33]}_{hashlib.blake2b(found.encode(), digest_size=16).hexdigest()}"


def by_person(people: Mapping[str, Person], sources: Iterable[str]) -> Mapping[str, Sequence[tuple[str, bool]]]:
    """The sources of each person, by the address, with whether that is the maintainer and not an uploader."""
    found: dict[str, dict[str, bool]] = {}
    for source in sources:
        person = people.get(source)
        for place, name in enumerate((person.maintainer, *person.uploaders) if person else ()):
            found.setdefault(mail_of(name), {}).setdefault(source, place == 0)
    return {name: sorted(some.items()) for name, some in sorted(found.items())}


def titles(people: Mapping[str, Person]) -> Mapping[str, str]:
    """The name of each person as it is written, by the address."""
    return {mail_of(name): name for person in people.values() for name in (*person.uploaders, person.maintainer)}
