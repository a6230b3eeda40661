"""The pages other than those of excuses, runs and sources, and the feeds."""
from typing import Iterator

from office_tools.pages import views
from office_tools.pages.britney_yaml import ExcusesYaml
from office_tools.pages.change_pages import change_pages, changes_of, Feeds, RUNS
from office_tools.pages.day_pages import day_pages, missing_pages
from office_tools.pages.look import Extras
from office_tools.pages.people_pages import PeoplePages
from office_tools.pages.sections import Kept, SectionPage
from office_tools.pages.state import State
from office_tools.pages.transition_pages import transition_pages
from office_tools.pages.wait_pages import wait_pages


class More:
    """What is made of what is kept, other than the pages of excuses, runs and sources."""

    def __init__(self, facts: views.Facts, state: State, extras: Extras) -> None:
        self.facts, self.state = facts, state
        self.feeds = Feeds(facts, extras.address)
        self.excuses = ExcusesYaml(facts.newest.excuses, facts.outcomes, facts.people)
        first = [run.number for run in facts.runs[1:]][-RUNS:]
        self.changes = changes_of(state.events_from(first[0]), first[0]) if first else {}

    def pages(self) -> Iterator[SectionPage]:
        """The pages that no answer about a source changes."""
        yield from transition_pages(self.facts, self.state)
        yield from day_pages(self.facts)
        yield from missing_pages(self.facts)
        yield from change_pages(self.facts, self.changes)

    def files(self) -> Iterator[tuple[str, bytes]]:
        """The feed of all."""
        yield "feed.xml", self.feeds.of_all(self.changes)

    def feeds_of_people(self) -> Iterator[Kept]:
        """The feeds of people."""
        return self.feeds.of_people(self.changes)

    def answered_pages(self, facts: views.Facts) -> Iterator[SectionPage]:
        """The pages that answers about sources change, but for those of people."""
        yield from wait_pages(facts)

    def people(self, facts: views.Facts) -> PeoplePages:
        """The pages of people, which answers change, too."""
        return PeoplePages(facts, self.changes)

    def yaml(self, facts: views.Facts) -> Kept:
        """The YAML of excuses, which an answer changes if it says what a source waits for."""
        return Kept("excuses.yaml", [facts.newest.kept.excuses, facts.newest.kept.update,
                                     *self.excuses.shown(facts.waits)], lambda: [
            ("excuses.yaml", self.excuses.text(facts.waits).encode())])
