"""Writes the pages: each is moved into its place whole, and none is written again that didn't change.

All that changed is written into another folder, and then moved file by file. So a reader meets the old pages or the new
ones, and a call that is ended in the middle leaves whole ones.
"""
import contextlib
import ctypes
import dataclasses
import functools
import itertools
import os
import re
import shutil
from dataclasses import dataclass
from typing import Any, Callable, Collection, Iterable, Iterator, Mapping, Optional, Sequence

import jinja2
from markupsafe import Markup

from office_tools.bags import bag_of
from office_tools.pages import hints, mending, names, rows, verdicts, views
from office_tools.pages.excuses_json import excuses_json
from office_tools.pages.fetching import Newest
from office_tools.pages.change_pages import Feeds
from office_tools.pages.compiled import Compiled
from office_tools.pages.day_pages import glance
from office_tools.pages.kept_mail import KeptMail
from office_tools.pages.look import digest_of, FIRST_PAGE, HERE, Look
from office_tools.pages.more_pages import More
from office_tools.pages.outcomes import counted, reason_words
from office_tools.pages.parts import Part, parts_of, RowText
from office_tools.pages.sections import Kept, SectionPage, written
from office_tools.pages.sentences import LIST_TITLES, REASON_TITLES
from office_tools.pages.source_html import SourceHtml
from office_tools.pages.state import State
from office_tools.pages.told import Line, shortened
from office_tools.pages.transition_pages import transition_pages
from office_tools.reports import Outcome, Word

NEWEST = 20  # runs on the first page
SOURCES = "source/"  # the folder of their pages
TRANSITIONS = "transition"  # how the names of pages of transitions begin
IN_WAITS = "waits "  # before the digest of a page that says what waits for what
NOW = "now "  # before that of another page that says more than where the source is, and its past
HINTS = 200  # hints on the page of a run
OFFENDERS = 15  # what has to be mended on the first page
MANY = ("source", "run", "people")  # the folders of pages that are many


@dataclass(frozen=True)
class Count:
    """How many sources are in a list, and its page."""

    link: str
    title: str
    number: int


@dataclass(frozen=True)
class Hint:
    """A hint as the page of a run shows it."""

    title: str
    text: str
    outcome: Line


class Site:
    """The folder of the pages."""

    def __init__(self, folder: str, state: State, look: Look) -> None:
        self.folder, self.state, self.patterns, self.extras = folder, state, look.patterns, look.extras
        self.look, self.made_by = look.digest, look.made_by
        self.facts: Optional[views.Facts] = None
        self.digests_now: dict[str, str] = {}
        self.beside = os.path.join(folder, ".new")
        shutil.rmtree(self.beside, ignore_errors=True)
        self.written: list[str] = []
        self.folders: set[str] = set()
        self.more: Optional[More] = None
        self.rows: dict[str, tuple[views.Row, RowText]] = {}  # of sources that don't move
        self.shown_lists: dict[str, tuple[Sequence[views.Row], Mapping[str, Count]]] = {}

    @functools.cached_property
    def templates(self) -> jinja2.Environment:
        """The templates, which the folder of what is kept has compiled."""
        found = jinja2.Environment(
            bytecode_cache=Compiled(os.path.dirname(os.path.abspath(self.state.path))),
            loader=jinja2.FileSystemLoader(os.path.join(HERE, "templates")), autoescape=True, trim_blocks=True,
            lstrip_blocks=True, auto_reload=False, keep_trailing_newline=True, undefined=jinja2.StrictUndefined)
        made: Mapping[str, Callable[..., str]] = {
            "link": rows.piece_text, "pieces": rows.line_text, "told": rows.told_text, "verdict": rows.verdict,
            "table_row": rows.table_row, "joined": rows.joined}
        found.globals |= {name: rows.shown(function) for name, function in made.items()}
        # The menu is the same for all pages of a folder.
        menu = found.get_template("menu.html")
        found.globals["menus"] = {up: Markup(menu.render(up=up)) for up in ("", "../")}
        return found

    @functools.cached_property
    def source_html(self) -> SourceHtml:
        """What makes the pages of sources."""
        return SourceHtml(self.templates)

    @functools.cached_property
    def digests(self) -> Mapping[str, str]:
        """Of each page that was written a digest of what it was made of."""
        return self.state.digests()

    @functools.cached_property
    def kept_paths(self) -> Mapping[str, Sequence[str]]:
        """The files that are made only if what they show changed, by the digest of that."""
        found: dict[str, list[str]] = {}
        for path, digest in self.digests.items():
            if digest and not path.startswith(SOURCES):
                found.setdefault(digest, []).append(path)
        return found

    @functools.cached_property
    def there(self) -> set[str]:
        """The files that stand in the folders of pages that are many."""
        return {f"{folder}/{name}" for folder in MANY if os.path.isdir(os.path.join(self.folder, folder))
                for name in os.listdir(os.path.join(self.folder, folder))}

    def build(self, newest: Newest) -> None:
        """Writes all pages that changed, and removes those without a reason."""
        built = self.state.built() if os.path.exists(os.path.join(self.folder, FIRST_PAGE)) else None
        if built is not None and built[0] == self.made_by:
            if not built[1]:
                self.build_transitions(newest)
            return
        facts = self.facts_of(newest)
        self.digests_now = {}
        self.write_static()
        self.write_sources(facts, self.due_sources(facts))
        self.write_runs(facts)
        self.write_testing(facts)
        self.write_names(facts)
        self.write_hints(facts)
        self.put("excuses.json", excuses_json(newest).encode())
        more = self.more_of(facts)
        self.write_more(more.pages(), more.files())
        self.write_kept(more.feeds_of_people())
        self.write_answered(facts)
        self.move_all()

    def build_transitions(self, newest: Newest) -> None:
        """Writes the pages that mail changes which is read between two runs."""
        self.digests_now = {path: digest for path, digest in self.digests.items() if not path.startswith(TRANSITIONS)}
        self.write_more(transition_pages(self.facts_of(newest), self.state), ())
        self.move_all()

    def build_answers(self, newest: Newest, names: Collection[str]) -> None:
        """Writes the pages that answers about these sources change, behind `build`."""
        facts = dataclasses.replace(self.facts_of(newest), standings={}, whys=self.state.whys(),
                                    hints=self.state.hints(), proposals=self.state.proposals())
        self.digests_now = dict(self.digests)
        for name in names if facts.hints == self.facts_of(newest).hints else list(self.rows):
            self.rows.pop(name, None)
        # An answer also changes the pages of sources that one waits for by it, or waited for before.
        before = {path[len(SOURCES):-len(".html")] for path, digest in self.digests.items()
                  if digest.startswith(IN_WAITS)}
        self.write_sources(facts, facts.waits.touched.union(before).intersection(facts.names).union(names))
        self.write_answered(facts)
        self.move_all()

    def write_answered(self, facts: views.Facts) -> None:
        """Writes what answers about sources change, but for the sources' pages."""
        more = self.more_of(facts)
        self.write_more(more.answered_pages(facts), ())
        people = more.people(facts)
        self.write_more([people.all()], ())
        self.write_kept([*people.each(self.digests_now, functools.partial(written, self.templates)), more.yaml(facts)])
        self.write_lists(facts)

    def more_of(self, facts: views.Facts) -> More:
        """What is made once of what is kept, and not changed by answers."""
        if self.more is None:
            self.more = More(facts, self.state, self.extras)
        return self.more

    def facts_of(self, newest: Newest) -> views.Facts:
        """All that is kept, read once."""
        if self.facts is None:
            people = {**KeptMail(self.state).people(), **self.extras.people}
            self.facts = dataclasses.replace(views.facts_of(self.state, newest, self.patterns), people=people)
        return self.facts

    def put(self, path: str, data: bytes) -> None:
        """Writes a file next to its place, unless it has these bytes already."""
        self.digests_now.setdefault(path, "")
        folder = path.rpartition("/")[0]
        if (folder not in MANY or path in self.there) and bytes_of(f"{self.folder}/{path}") == data:
            return
        if folder not in self.folders:
            for place in self.beside, self.folder:
                os.makedirs(os.path.join(place, folder), exist_ok=True)
            self.folders.add(folder)
        with open(f"{self.beside}/{path}", "wb") as file:
            file.write(data)
        self.written.append(path)

    def is_there(self, path: str, digest: str) -> bool:
        """Whether a page of a folder is there that is made of what the digest says."""
        return self.digests.get(path) == digest and path in self.there

    def has_file(self, path: str) -> bool:
        """Whether a file is there."""
        return path in self.there if "/" in path else os.path.exists(os.path.join(self.folder, path))

    def move_all(self) -> None:
        """Moves what was written into its place, one file after the other, the first page last, and removes the rest.

        All of it is on the disk before: so no failure of power leaves an empty page, and the file system needn't write
        each file out at its move.
        """
        changed = {path for path, digest in self.digests_now.items() if self.digests.get(path) != digest}
        if self.written:
            # From here on a later call knows them as pages that it may remove, and none as what it was before.
            self.state.keep_digests({path: "" for path in changed.union(self.written)})
            sync(self.folder)
        for path in self.written:
            self.move(path)
        gone = sorted(set(self.digests) - set(self.digests_now))
        for path in gone:
            with contextlib.suppress(FileNotFoundError):
                os.unlink(os.path.join(self.folder, path))
        self.state.keep_digests({path: self.digests_now[path] for path in changed.union(self.written)}, gone)
        if self.facts is not None:
            self.state.keep_built(self.made_by, self.basis(self.facts))
        self.there.update(self.written)
        self.there.difference_update(gone)
        self.digests, self.written, self.folders = self.digests_now, [], set()
        self.__dict__.pop("kept_paths", None)  # it is made again of the new digests
        shutil.rmtree(self.beside, ignore_errors=True)

    def move(self, path: str) -> None:
        """Moves a file that was written into its place."""
        os.replace(f"{self.beside}/{path}", f"{self.folder}/{path}")

    def page(self, template: str, values: Mapping[str, Any]) -> bytes:
        """The bytes of a page."""
        return self.templates.get_template(template).render(values).encode()

    def write_static(self) -> None:
        """The stylesheet and the script."""
        for name in "style.css", "pages.js":
            with open(os.path.join(HERE, "static", name), "rb") as file:
                self.put(name, file.read())

    def basis(self, facts: views.Facts) -> str:
        """What the pages of sources show beside what is kept of each of them."""
        return digest_of([self.made_by, str(facts.testing is not None), str(facts.runs[0].number)])

    def due_sources(self, facts: views.Facts) -> Collection[str]:
        """The sources whose pages may have changed since all were made. The digests of the others' pages stay."""
        if self.state.basis() != self.basis(facts):
            return facts.names
        due = {*self.state.touched(), *facts.told_of_now}
        pages = {path: path[len(SOURCES):path.rindex(".")] for path in self.digests if path.startswith(SOURCES)}
        due.update(name for path, name in pages.items()
                   if self.digests[path].startswith((IN_WAITS, NOW)) or path not in self.there)
        due.update(facts.names.difference(pages.values()))
        same = facts.names - due
        self.digests_now.update((path, self.digests[path]) for path, name in pages.items() if name in same)
        return facts.names & due

    def write_sources(self, facts: views.Facts, names: Collection[str]) -> None:
        """A page of each of these sources. One that stays as it is isn't made, but for what tells that it does."""
        links = facts.links("")
        due: dict[str, Optional[views.Source]] = {}
        for name in sorted(names):
            source = None if facts.is_quiet(name) else views.source_of(facts, name, links)
            mark = IN_WAITS if name in facts.waits.touched else NOW if source else ""
            path, digest = f"source/{name}.html", mark + digest_of([
                self.look, *(views.quiet_texts(facts, name) if source is None else ("", repr(source)))])
            if source.has_feed if source else views.has_feed(facts, name):
                self.digests_now.setdefault(f"source/{name}.xml", "")
            if not self.is_there(path, digest):
                due[name] = source
            self.digests_now[path] = digest
        feeds = Feeds(facts, self.extras.address)
        for name, events in self.state.events(list(due)):
            source = due[name] or views.source_of(facts, name, links)
            history = views.history_of(facts, events)
            self.put(f"source/{name}.html", self.source_html.page(source, history, len(events) - len(history)))
            if source.has_feed:
                self.put(f"source/{name}.xml", feeds.of_source(name, events))

    def write_runs(self, facts: views.Facts) -> None:
        """A page of each run, and the list of all. That of an earlier run changes once the next one exists."""
        numbers = [run.number for run in facts.runs]
        pages: dict[int, list[str]] = {}
        for path in self.digests:
            if path.startswith("run/"):
                pages.setdefault(int(re.split("[/.-]", path)[1]), []).append(path)
        for place, run in enumerate(facts.runs):
            after = numbers[place + 1] if place + 1 < len(numbers) else None
            before = numbers[place - 1] if place else None
            digest = digest_of([self.look, repr((run, before, after))])
            path = f"run/{run.number}.html"
            if self.is_there(path, digest):
                self.digests_now |= {page: self.digests[page] for page in pages[run.number]}
                continue
            read = facts.newest if run == facts.newest.kept.run else Newest(self.state.run(run.number))
            self.write_run(facts, read, {"before": before, "after": after})
            self.digests_now[path] = digest
        for link, parts, shown in parts_of("runs", [
                RowText(f"run {run.number}", rows.run_row(run)) for run in facts.runs[::-1]]):
            self.put(link, self.page("runs.html", {"rows": shown, "list": parts, "up": ""}))

    def write_run(self, facts: views.Facts, read: Newest, values: Mapping[str, Any]) -> None:
        """The page of a run; if it has many, they are on pages after it."""
        run = read.kept.run
        counts = counted(map(reason_words, read.excuses.excuses))
        asked = hints_of(facts, read)
        values = {**values, "run": run, "hints": asked[:HINTS], "more": len(asked[HINTS:]), "up": "../",
                  "counts": [(word, REASON_TITLES[word], count) for word, count in counts.items()]}
        for link, parts, shown in parts_of(str(run.number), [
                RowText(row.name, rows.moved_row(row)) for row in moved_in(read)]):
            self.put(f"run/{link}", self.page("run.html", {
                **values, "rows": shown, "list": parts, "is_first": parts[0].is_here}))

    def write_testing(self, facts: views.Facts) -> None:
        """What is in testing."""
        sources = facts.testing.sources if facts.testing else {}
        for link, parts, shown in parts_of("testing", [
                RowText(name, text) for name, text in zip(sources, rows.testing_rows(sources, facts.binaries))]):
            self.put(link, self.page("testing.html", {
                "run": facts.newest.kept.run, "rows": shown, "list": parts, "number": len(sources), "up": "",
                "is_known": facts.testing is not None}))

    def write_more(self, pages: Iterable[SectionPage], files: Iterable[tuple[str, bytes]]) -> None:
        """Pages of sections, and files that aren't pages."""
        for page in pages:
            for path, data in written(self.templates, page):
                self.put(path, data)
        for path, data in files:
            self.put(path, data)

    def write_kept(self, files: Iterable[Kept]) -> None:
        """Files that are made only if what they show changed. All of one are kept under the same digest."""
        for kept in files:
            digest = digest_of([self.look, kept.path, *kept.shown])
            before = self.kept_paths.get(digest, ())
            if kept.path in before and all(map(self.has_file, before)):
                self.digests_now.update(dict.fromkeys(before, digest))
                continue
            for path, data in kept.made():
                self.put(path, data)
                self.digests_now[path] = digest

    def write_hints(self, facts: views.Facts) -> None:
        """The hints in force, the proposed ones, and those that may be taken back."""
        shown = hints.shown_hints(facts.standing, facts.hints, facts.refusals, facts.links("source/"))
        lines, label = hints.proposed_lines(self.state, facts.newest.number), hints.next_label(self.state)
        copies = {"proposed": hints.proposed_copies(lines or (), label),
                  "stale": hints.unhint_copies([hint for hint in shown if hint.stale], label)}
        values: dict[str, Any] = {"run": facts.newest.kept.run, "label": label, "is_asked": lines is not None,
                                  "number": len(shown), "up": ""}
        for word, some in copies.items():
            first = hints.first_copies(some)
            values |= {word: first, f"{word}_in_all": len(some)}
            if label and some:
                self.put(f"hints-{word}.txt", bag_of(copy.text.encode() for copy in some))
        values["lines"] = (lines or ())[:len(values["proposed"])]
        for link, parts, some_hints in paged(shown, facts.hint_pages):
            self.put(link, self.page("hints.html", {
                **values, "hints": some_hints, "list": parts, "is_first": parts[0].is_here}))

    def write_names(self, facts: views.Facts) -> None:
        """All names of sources and packages: lists by their beginning, and what the search looks through.

        Most runs change only some of the lists.
        """
        found = names.names_of(facts.names, facts.packages)
        lists = names.by_beginning(found)
        letters = {letter: f"names-{letter}.html" for letter in lists}
        values = {"letters": letters.items(), "up": ""}
        self.put("names.html", self.page("names.html", {
            **values, "number": len(found), "here": "", "rows": (), "list": ()}))
        shown = [name for one in found for name in (one.name, one.source)]
        self.write_kept([Kept("names.js", [*shown, *itertools.chain(*facts.packages.items())], functools.partial(
            index_files, facts)), *(Kept(letters[letter], [*letters, "", *map(" ".join, some)], functools.partial(
                self.name_files, letter, some, values)) for letter, some in lists.items())])

    def name_files(self, letter: str, some: Sequence[names.Name],
                   values: Mapping[str, Any]) -> Iterator[tuple[str, bytes]]:
        """The pages of the names with a beginning."""
        for link, parts, shown in parts_of(f"names-{letter}", [
                RowText(one.name, text) for one, text in zip(some, rows.name_items(some))]):
            yield link, self.page("names.html", {
                **values, "number": len(some), "here": letter, "rows": shown, "list": parts})

    def write_lists(self, facts: views.Facts) -> None:
        """The sources that don't move, all of them and by each reason, outcome and verdict, and last the first page."""
        links = facts.links("source/")
        for name in facts.unmoved - self.rows.keys():
            row = views.row_of(facts, facts.excuses[name], links)
            self.rows[name] = row, RowText(name, rows.excuse_row(row))
        unmoved = [self.rows[name][0] for name in facts.excuses if name in facts.unmoved]
        some = {word: [row for row in unmoved if word in row.words] for word in LIST_TITLES}
        some[""] = [row for row in unmoved if verdicts.GONE not in row.words]
        counts = {word: Count(list_link(word), LIST_TITLES.get(word, "all"), len(some[word]))
                  for word in ("", *LIST_TITLES)}
        for word, of_word in some.items():
            if self.shown_lists.get(word) == (of_word, counts):
                continue  # as when it was written before
            self.shown_lists[word] = of_word, counts
            values = {"run": facts.newest.kept.run, "word": word, "number": len(of_word), "lists": counts.values(),
                      "title": f"Sources that don't move: {LIST_TITLES[word]}" if word else "Sources that don't move",
                      "up": "", "here": list_link(word), "reasons": REASON_TITLES, "verdicts": verdicts.TITLES}
            for link, parts, shown in parts_of(list_link(word).removesuffix(".html"),
                                               [self.rows[row.name][1] for row in of_word]):
                self.put(link, self.page("excuses.html", {**values, "rows": shown, "list": parts}))
        self.write_front(facts, counts)

    def write_front(self, facts: views.Facts, counts: Mapping[str, Count]) -> None:
        """The first page."""
        links = facts.links("source/")
        run, found = facts.newest.kept.run, mending.mending_of(facts, links)
        is_asked = found.ranked or found.grouped
        self.put(FIRST_PAGE, self.page("front.html", {
            "glance": glance(facts),
            "run": run, "counts": counts, "moved": run.excuses - counts[""].number - counts[verdicts.GONE].number,
            "fetched": facts.newest.kept.fetched, "refused": facts.refusals, "reasons": REASON_TITLES,
            "verdicts": {word: (counts[verdicts.LISTS[word]], title) for word, title in verdicts.TITLES.items()},
            "mending": found, "most": OFFENDERS,
            "offenders": [] if is_asked else views.offenders_of(facts, links)[:OFFENDERS],
            "rows": list(map(rows.run_row, facts.runs[:-NEWEST - 1:-1])), "up": ""}))


def bytes_of(path: str) -> Optional[bytes]:
    """The bytes of a file, if there is one."""
    try:
        with open(path, "rb", buffering=0) as file:
            return file.read()
    except FileNotFoundError:
        return None


def sync(folder: str) -> None:
    """Writes what the file system of a folder holds to its disk, and waits for no other disk of the machine."""
    number = os.open(folder, os.O_RDONLY)
    try:
        if ctypes.CDLL(None, use_errno=True).syncfs(number):
            raise OSError(ctypes.get_errno(), os.strerror(ctypes.get_errno()), folder)
    finally:
        os.close(number)


def paged(shown: Sequence[hints.ShownHint], pages: Mapping[int, str]) -> Iterator[
        tuple[str, Sequence[Part], Sequence[hints.ShownHint]]]:
    """The pages of hints in force, of which there is one at least: each with all parts and with its hints."""
    by_page: dict[str, list[hints.ShownHint]] = {"hints.html": []}
    for hint in shown:
        by_page.setdefault(pages[hint.number], []).append(hint)
    for link, some in by_page.items():
        yield link, [Part(other, f"{of[0].number} to {of[-1].number}" if of else "", other == link)
                     for other, of in by_page.items()], some


def index_files(facts: views.Facts) -> Iterable[tuple[str, bytes]]:
    """The files of the search's index."""
    return names.index_files(facts.names, facts.packages).items()


def list_link(word: str) -> str:
    """The page of a list of sources that don't move; that of all has an empty word."""
    return f"excuses-{word}.html" if word else "excuses.html"


def hints_of(facts: views.Facts, read: Newest) -> Sequence[Hint]:
    """The removals and groups that a run judged, in order."""
    links = facts.links("../source/")
    found = []
    for change in read.update.changes:
        if change.hint is None:
            continue
        outcome = views.change_line(change, links)
        text = facts.hint_texts.get(change.hint, "") or " ".join(
            f"{item.source}/{item.version}" for item in change.items)
        found.append(Hint(f"{change.word.value.capitalize()} hint {change.hint}", shortened(text), outcome))
    return found


def moved_in(read: Newest) -> Sequence[rows.Moved]:
    """The sources that moved in a run, by name, and behind them those that wait."""
    before = {excuse.source: excuse.testing or "" for excuse in read.excuses.excuses}
    found = []
    for change in read.update.changes:
        if change.outcome in (Outcome.ACCEPTED, Outcome.WAITS) and change.word is not Word.REMOVE:
            word = "wait" if change.word is Word.WAIT else "accept"
            told = views.moved_sentence(change)
            found += [rows.Moved(item.source, before.get(item.source, ""), item.version, word, told)
                      for item in change.items]
    return sorted(found, key=lambda row: (row.word, row.name))
