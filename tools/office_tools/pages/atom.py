"""Feeds by RFC 4287: of all sources, of a person's, and of one source."""
import datetime
import re
import uuid
from dataclasses import dataclass
from html import escape
from typing import Sequence

UNPRINTABLE = re.compile("[^\t\n\r\x20-\ud7ff\ue000-\ufffd\U00010000-\U0010ffff]")
NAMES = uuid.UUID("6f4dd1b6-9a8e-5b0c-8d5b-0c1f6e0a3d11")  # of this program's feeds, by RFC 4122


@dataclass(frozen=True)
class Entry:
    """An entry: what names it within its feed, its title, its day, the page that it leads to, and its text."""

    name: str
    title: str
    day: datetime.date
    page: str
    text: str


@dataclass(frozen=True)
class Feed:
    """A feed: its file, its title, the page that it is of, the day of its newest change, and its entries.

    `site` is the address of the pages, or empty. Without one the identifiers are made of `office`, which is the same as
    long as the office has the same first run.
    """

    path: str
    title: str
    page: str
    day: datetime.date
    entries: Sequence[Entry]
    site: str
    office: str


def text_of(text: str) -> str:
    """A text as XML has it; a character that XML hasn't is left out."""
    return escape(UNPRINTABLE.sub("", text))


def identifier(feed: Feed, name: str) -> str:
    """An identifier that stays the same, and that no other entry or feed has."""
    return uuid.uuid5(NAMES, "\0".join((feed.site or feed.office, feed.path, name))).urn


def time_of(day: datetime.date) -> str:
    """A day as a time (RFC 3339)."""
    return f"{day.isoformat()}T00:00:00Z"


def link_of(feed: Feed, page: str) -> str:
    """The way to a page: by the address of the pages, or from the feed's own place."""
    return text_of(feed.site + page if feed.site else "../" * feed.path.count("/") + page)


def atom(feed: Feed) -> bytes:
    """The text of a feed."""
    told = ['<?xml version="1.0" encoding="utf-8"?>', '<feed xmlns="http://www.w3.org/2005/Atom">',
            f"<id>{identifier(feed, '')}</id>", f"<title>{text_of(feed.title)}</title>",
            f"<updated>{time_of(feed.day)}</updated>", "<author><name>office-pages</name></author>",
            f'<link rel="alternate" type="text/html" href="{link_of(feed, feed.page)}"/>',
            f'<link rel="self" type="application/atom+xml" href="{link_of(feed, feed.path)}"/>']
    for entry in feed.entries:
        told += ["<entry>", f"<id>{identifier(feed, entry.name)}</id>", f"<title>{text_of(entry.title)}</title>",
                 f"<updated>{time_of(entry.day)}</updated>",
                 f'<link rel="alternate" type="text/html" href="{link_of(feed, entry.page)}"/>',
                 f'<content type="text">{text_of(entry.text)}</content>', "</entry>"]
    return "\n".join([*told, "</feed>", ""]).encode()
