"""office-apply: what its manual page and docs/ARCHIVE.md say of it. Managers are tried by tests/archive."""
import fcntl
import os
import shutil
import tempfile
import unittest
import unittest.mock

from helpers import needs_plan, tool
from office_tools import reports
from office_tools.apply import marks
from office_tools.apply.command import groups_of
from office_tools.apply.contents import Contents, Indexes, Row, Source, target, wanted
from office_tools.apply.holding import Evidence
from office_tools.apply.plans import Terms, ask, lacking, listed, plan_to
from office_tools.apply.reprepro import Reprepro
from office_tools.apply.turn import Turn
from office_tools.faults import Fault
from office_tools.look.judge import Broken, Package

TESTING = """testing 3
source app 2.0-1+b1
source cyc 1-1+gone
source guide 5-1
source smooth-lib 1.0-1
binary amd64 app 2.0-1+b1 app
binary amd64 cyc 1-1+gone cyc
binary amd64 lib1 1.0-1 smooth-lib
binary all guide-doc 5-1 guide
"""
PACKAGES = """Package: app
Version: 2.0-1+b1
Architecture: amd64
Source: app (2.0-1)
Depends: lib1

Package: cyc
Version: 1-1
Architecture: amd64

Package: lib1
Version: 1.0-1
Architecture: amd64
Source: lib

Package: guide-doc
Version: 5-1
Architecture: all
Source: guide
"""
SOURCES = "".join(f"Package: {name}\nVersion: {version}\n\n" for name, version in
                  (("app", "2.0-1"), ("cyc", "1-1"), ("guide", "5-1")))


def row(name, version, architecture="amd64", place="amd64"):
    return Row(place, architecture, name, version)


class Marks(unittest.TestCase):

    def test_source_versions(self):
        for told, there in [("2.0-1+b1", "2.0-1"), ("2.0-1+b12", "2.0-1"), ("1-1+gone", "1-1"), ("1.0+b", "1.0+b"),
                            ("1.0+b0", "1.0+b0"), ("1.0+b1.1", "1.0+b1.1"), ("1:0.4-1", "1:0.4-1")]:
            self.assertEqual(marks.source_version(told), there)

    def test_package_versions(self):
        self.assertEqual(marks.package_version("2.0-1+b1"), "2.0-1+b1")
        self.assertEqual(marks.package_version("1-1+gone"), "1-1")

    def test_sources(self):
        self.assertTrue(marks.is_made_up("smooth-lib"))
        self.assertFalse(marks.is_made_up("smoother"))


class Wanted(unittest.TestCase):

    def want(self, text, *architectures, indexes=Indexes.EACH):
        return wanted(reports.read_testing(text), architectures, indexes)

    def test_marks_are_taken_off(self):
        found = self.want(TESTING, "amd64", indexes=Indexes.ONCE)
        self.assertEqual(found.sources, {Source("app", "2.0-1"), Source("cyc", "1-1"), Source("guide", "5-1")})
        self.assertEqual(found.rows, {row("app", "2.0-1+b1"), row("cyc", "1-1"), row("lib1", "1.0-1"),
                                      row("guide-doc", "5-1", "all", "all")})

    def test_all_is_in_each_index(self):
        found = self.want(TESTING, "amd64", "arm64")
        self.assertLessEqual({row("guide-doc", "5-1", "all", "amd64"), row("guide-doc", "5-1", "all", "arm64")},
                             found.rows)

    def test_refusals(self):
        with self.assertRaises(Fault) as no_run:
            self.want("testing 0\n", "amd64")
        with self.assertRaises(Fault) as strange:
            self.want(TESTING, "arm64")
        self.assertEqual((no_run.exception.status, strange.exception.status), (3, 3))
        self.assertIn("amd64", strange.exception.cause)


def to_be(want, have):
    """What a suite is to have, and the plan for it."""
    goal = target(want, have)
    return goal, plan_to(goal, have)


def all_of(*parts):
    """Several contents in one."""
    return Contents(frozenset().union(*(part.sources for part in parts)),
                    frozenset().union(*(part.rows for part in parts)),
                    {row: source for part in parts for row, source in part.built_of.items()})


@needs_plan
class Targets(unittest.TestCase):

    def test_sources_that_stay(self):
        """A source without packages isn't the office's; the source of a package that stays has to stay."""
        old, new = row("lib1", "1.0-1"), row("lib2", "2.0-1")
        want = Contents(frozenset({Source("lib", "2.0-1")}), frozenset({old, new}))
        have = Contents(frozenset({Source("lib", "1.0-1"), Source("udeb", "1"), Source("gone", "1")}),
                        frozenset({old, row("gone", "1")}),
                        {old: Source("lib", "1.0-1"), row("gone", "1"): Source("gone", "1")})
        goal, plan = to_be(want, have)
        self.assertEqual(goal.idle, [Source("lib", "1.0-1"), Source("udeb", "1")])
        self.assertEqual(list(plan.lines()), [
            "missing: source lib 2.0-1", "missing: binary amd64 lib2 2.0-1", "too much: source gone 1",
            "too much: binary amd64 gone 1"])

    OLD, NEW = Source("lag", "1-1"), Source("lag", "1-2")
    LAGGING = row("lag", "1-1", "arm64", "arm64")

    def lagging(self, place, told_under=NEW):
        """A source that lags on arm64, its package of `all` in two versions, and one that the office has no more."""
        old, new, gone = (row(name, version, "all", place) for name, version in (
            ("lag-doc", "1-1"), ("lag-doc", "1-2"), ("lag-old", "1-1")))
        have = Contents(frozenset({self.OLD, self.NEW}), frozenset({self.LAGGING, old, new, gone}), {
            self.LAGGING: self.OLD, old: self.OLD, new: self.NEW, gone: self.OLD})
        want = Contents(frozenset({self.NEW}), frozenset({self.LAGGING, new}),
                        {self.LAGGING: told_under, new: self.NEW})
        return want, have, old, new, gone

    def test_older_packages_of_all_stay(self):
        """As long as a package stays that was built with them, and the office has another version."""
        want, have, old, _, gone = self.lagging("all")
        goal, plan = to_be(want, have)
        self.assertEqual((goal.older, goal.idle, plan.go.rows), ([old], [self.OLD], {gone}))
        self.assertEqual(goal.contents.items, want.items | {old, self.OLD})
        rebuilt = Contents(want.sources, want.rows - {self.LAGGING}, want.built_of)
        self.assertEqual(to_be(rebuilt, have)[1].go.rows, {self.LAGGING, old, gone})
        same = Contents(have.sources, have.rows, {**have.built_of, self.LAGGING: self.NEW})
        self.assertEqual(to_be(want, same)[1].go.rows, {old, gone})

    def test_old_libraries_keep_no_packages_of_all(self):
        """A package that stays under a made-up source has nothing of `all` with it."""
        want, have, old, _, gone = self.lagging("all", Source("smooth-lag", "1-1"))
        self.assertEqual(to_be(want, have)[1].go.rows, {old, gone})

    def test_packages_of_all_in_the_index_of_a_lagging_architecture(self):
        """If the older version is only in that index, nobody misses the newer one there."""
        want, have, old, new, gone = self.lagging("arm64")
        have = Contents(have.sources, have.rows - {new}, have.built_of)
        elsewhere = new._replace(place="amd64")
        want = Contents(want.sources, want.rows | {elsewhere}, {**want.built_of, elsewhere: self.NEW})
        goal, plan = to_be(want, have)
        self.assertEqual((goal.older, plan.come.rows, plan.go.rows), ([old], {elsewhere}, {gone}))

    def test_versions_that_no_package_may_have(self):
        """They have no line, and stay."""
        odd, lone = row("odd", "1_0"), suite("lone 1 lone")
        have = Contents(lone.sources, lone.rows | {odd}, {**lone.built_of, odd: Source("odd", "1_0")})
        goal, plan = to_be(lone, have)
        self.assertEqual((goal.odd, plan.is_empty, odd in goal.contents.rows), ([odd], True, True))


@needs_plan
class Plans(unittest.TestCase):
    """Suites that have several versions of a package, and indexes that have a package of `all` each."""

    def listed(self, want, have, origin=Contents()):
        return listed(target(want, have), have, origin)

    def test_dak_lists(self):
        """The lines of a list are those of dak's file, where each package has one version."""
        found = self.listed(suite("lib 2 lib2"), suite("lib 1 lib1"), suite("lib 2 lib2", "other 1 other"))
        self.assertEqual([sorted(lines) for lines in (found.target, found.suite, found.origin)],
                         [["lib 2 source", "lib2 2 amd64"], ["lib 1 source", "lib1 1 amd64"],
                          ["lib 2 source", "lib2 2 amd64"]])

    def test_older_versions_go(self):
        """A copy of all was made, and nothing was removed: nothing leaves for good."""
        old, new = [suite("lone 1 lone"), suite("lone 2 lone")], suite("lone 3 lone")
        plan = ask(self.listed(new, all_of(new, *old)), 0, False).plan
        self.assertEqual((plan.come.items, plan.go.items), (set(), old[0].items | old[1].items))

    def test_a_greater_version_beside_the_wanted_one(self):
        """It can only go if testing may go back; the wanted version isn't copied again."""
        one, two = suite("lone 1 lone"), suite("lone 2 lone")
        lists = self.listed(one, all_of(one, two))
        self.assertEqual(set(ask(lists, 0, False).lower), one.items)
        plan = ask(lists, 0, True).plan
        self.assertEqual((plan.come.items, plan.go.items), (set(), two.items))

    def test_all_in_each_index(self):
        """After an apply that was ended, one index has the package, and the other hasn't."""
        here, there = (row("guide-doc", "5-2", "all", place) for place in ("amd64", "arm64"))
        old = row("guide-doc", "5-1", "all", "arm64")
        want, have = Contents(frozenset(), frozenset({here, there})), Contents(frozenset(), frozenset({here, old}))
        found = ask(self.listed(want, have, want), 0, False).plan
        self.assertEqual((found.come.items, found.go.items), ({there}, {old}))

    def test_an_architecture_in_place_of_all(self):
        """At the same version these are two packages."""
        one, other = row("app", "1", "all"), row("app", "1")
        found = plan_to(target(Contents(frozenset(), frozenset({other})), Contents(frozenset(), frozenset({one}))),
                        Contents(frozenset(), frozenset({one})))
        self.assertEqual((found.come.rows, found.go.rows), ({other}, {one}))

    def test_what_lacks(self):
        goal, have = target(suite("lib 2 lib2", "app 1 app"), suite("app 1 app")), suite("app 1 app")
        self.assertEqual(lacking(goal, have, Contents()).items, suite("lib 2 lib2").items)
        self.assertTrue(lacking(goal, have, suite("lib 2 lib2")).is_empty)

    def test_refused_and_failed(self):
        """A list that the program refuses, and a program that isn't there."""
        have = suite("app 1 app")
        for version, program, status, cause in (("1_0", os.environ["OFFICE_PLAN"], 3, "'odd 1_0 source': "),
                                                ("1", "/nowhere/office-plan", 4, "No such file or directory"),
                                                ("1", "/bin/false", 4, "/bin/false: status 1"),
                                                ("1", "/bin/echo", 4, "/bin/echo: it prints '/proc/self/fd/")):
            with unittest.mock.patch.dict(os.environ, OFFICE_PLAN=program):
                with self.assertRaises(Fault) as raised:
                    plan_to(target(Contents(frozenset({Source("odd", version)})), have), have)
            self.assertEqual(raised.exception.status, status)
            self.assertIn(cause, raised.exception.cause)


class Listed(unittest.TestCase):

    def test_sources_of_several_architectures(self):
        """As reprepro lists them: packages of one and of all."""
        told = "source dsc lag 1-2 lag 1-2 any all\narm64 deb lag-doc 1-2 lag 1-2 all\n"
        with unittest.mock.patch.object(Reprepro, "reprepro", return_value=told):
            found = Reprepro("/nowhere", "ordered", "testing").testing()
        doc, lag = row("lag-doc", "1-2", "all", "arm64"), Source("lag", "1-2")
        self.assertEqual((found.sources, found.rows, found.built_of), ({lag}, {doc}, {doc: lag}))

    def test_other_kinds(self):
        """Installers' packages and debug packages in files of their own are counted, and are no rows."""
        told = "".join(f"{place} {kind} lone-{kind} 1 lone 1 {place}\n" for kind in ("udeb", "ddeb")
                       for place in ("amd64", "arm64"))
        with unittest.mock.patch.object(Reprepro, "reprepro", return_value=told + "source dsc lone 1 lone 1 any\n"):
            found = Reprepro("/nowhere", "ordered", "testing").origin()
        self.assertEqual((found.sources, found.rows, found.other_kinds),
                         ({Source("lone", "1")}, set(), {"udeb": 2, "ddeb": 2}))


class Manager:
    """An archive in memory, which notes what is asked of it."""

    indexes = Indexes.ONCE

    def __init__(self, testing, origin, copies=True):
        self.there, self.from_there, self.copies = testing, origin, copies
        self.shown, self.asked = testing, []

    def architectures(self):
        return ["amd64"]

    def testing(self):
        return self.there

    def origin(self):
        return self.from_there

    def copy(self, come):
        self.asked.append("copy")
        if self.copies:
            self.there = Contents(self.there.sources | come.sources, self.there.rows | come.rows,
                                  {**self.there.built_of, **self.from_there.built_of})

    def remove(self, go):
        self.asked.append("remove")
        self.there = Contents(self.there.sources - go.sources, self.there.rows - go.rows, self.there.built_of)

    def published_folders(self):
        return []

    def is_published(self, have):
        return have == self.shown

    def publish(self):
        self.asked.append("publish")
        self.shown = self.there


@needs_plan
class Turns(unittest.TestCase):
    TESTING = "testing 1\nsource new 1\nbinary amd64 new 1 new\n"
    NEW = Contents(frozenset({Source("new", "1")}), frozenset({row("new", "1")}), {row("new", "1"): Source("new", "1")})
    OLD = Contents(frozenset({Source("old", "1")}), frozenset({row("old", "1")}), {row("old", "1"): Source("old", "1")})

    def turn(self, manager, text=TESTING):
        return Turn(manager, reports.read_testing(text), lambda line: None, lambda line: None)

    def test_comes_before_it_goes(self):
        manager = Manager(self.OLD, self.NEW)
        self.assertEqual(self.turn(manager).apply(), 0)
        self.assertEqual(manager.asked, ["copy", "remove", "publish"])
        self.assertEqual(manager.shown, self.NEW)
        self.assertEqual(self.turn(manager).apply(), 0)
        self.assertEqual(len(manager.asked), 3)

    def test_ended_before_it_was_published(self):
        manager = Manager(self.NEW, self.NEW)
        manager.shown = self.OLD
        self.assertEqual(self.turn(manager).compare(), 1)
        self.assertEqual(self.turn(manager).apply(), 0)
        self.assertEqual(manager.asked, ["publish"])

    def test_refusals_change_nothing(self):
        for manager, text, status, asked in [
                (Manager(self.OLD, self.NEW), "testing 1\n", 3, []),
                (Manager(self.OLD, self.NEW), "testing 0\n", 3, []),
                (Manager(self.OLD, self.NEW), self.TESTING.replace("amd64", "all"), 3, []),
                (Manager(self.OLD, self.NEW, copies=False), self.TESTING, 4, ["copy"])]:
            with self.assertRaises(Fault) as refused:
                self.turn(manager, text).apply()
            self.assertEqual((refused.exception.status, manager.asked), (status, asked))
            self.assertEqual((manager.there, manager.shown), (self.OLD, self.OLD))

    def test_a_manager_that_does_something_else(self):
        """After it copied, testing lacks what it had, or would go back: nothing else is done."""
        old = suite("old 1 old")
        for there, cause in ((self.NEW, "nothing to copy from: source old 1, binary amd64 old 1"),
                             (all_of(old, suite("new 2 new")), "lower versions: new 2 to 1")):
            manager = Manager(old, self.NEW)
            with unittest.mock.patch.object(manager, "copy", lambda come: setattr(manager, "there", there)):
                with self.assertRaises(Fault) as raised:
                    self.turn(manager, testing_text("new 1 new", "old 1 old")).apply()
            self.assertEqual((raised.exception.status, manager.shown, manager.asked), (4, old, []))
            self.assertRegex(raised.exception.cause, f"^testing isn't published: .*{cause}")

    def test_without_a_judge_all_is_held_back(self):
        manager = Manager(self.OLD, self.OLD)
        self.assertEqual((self.turn(manager).compare(), self.turn(manager).apply()), (1, 1))
        self.assertEqual((manager.asked, manager.there, manager.shown), ([], self.OLD, self.OLD))

    def test_dry_run(self):
        manager = Manager(self.OLD, self.NEW)
        self.assertEqual(self.turn(manager).compare(), 1)
        self.assertEqual((manager.asked, manager.there), ([], self.OLD))


def suite(*told):
    """A suite of sources, each with packages of amd64, written as `NAME VERSION PACKAGE ..`."""
    built_of = {row(package, version): Source(name, version) for name, version, *packages in map(str.split, told)
                for package in packages}
    return Contents(frozenset(Source(*line.split()[:2]) for line in told), frozenset(built_of), built_of)


def testing_text(*told):
    """The same as the office prints it."""
    sources = "".join(f"source {' '.join(line.split()[:2])}\n" for line in sorted(told))
    return "testing 4\n" + sources + "".join(f"binary amd64 {package} {line.split()[1]} {line.split()[0]}\n"
                                             for line in told for package in line.split()[2:])


class Rules:
    """A judge by the rules that a test states: a package breaks unless one of these versions of another is there."""

    def __init__(self, **needs):
        self.needs = needs

    def __call__(self, architecture, packages):
        there = {(package.name, package.version) for package in packages}
        return [Broken(package, "its needs", frozenset({other})) for package in packages
                for other, versions in self.needs.get(f"{package.name}_{package.version}", [])
                if not any((other, version) in there for version in versions)]


@needs_plan
class HeldBack(unittest.TestCase):
    """What the archive no longer has stays as it is in testing, and all that rests on it; all else moves."""

    def turn(self, manager, *told, judge=Rules(), groups=()):
        self.told = []
        known = {Package(item.name, item.version, item.architecture): f"Package: {item.name}\n"
                 for contents in (manager.there, manager.from_there) for item in contents.rows}
        evidence = Evidence(lambda names: groups, judge, ["amd64"], lambda: known)
        return Turn(manager, reports.read_testing(testing_text(*told)), lambda line: None, self.told.append,
                    evidence=evidence)

    OLD = ("app 1 app", "lib 1 lib", "lone 1 lone", "mta 1 mta")

    def applied(self, origin, want, **more):
        manager = Manager(suite(*self.OLD), suite(*origin))
        status = self.turn(manager, *want, **more).apply()
        self.assertEqual(manager.shown, manager.there)
        self.assertEqual(self.turn(manager, *want, **more).apply(), status)
        return status, sorted(f"{source.name} {source.version}" for source in manager.there.sources)

    def test_all_else_moves(self):
        """lone 2 was withdrawn before it was copied."""
        found = self.applied(("lone 3 lone", "mta 2 mta"), ("app 1 app", "lib 1 lib", "lone 2 lone", "mta 2 mta"))
        self.assertEqual(found, (1, ["app 1", "lib 1", "lone 1", "mta 2"]))
        self.assertEqual(self.told, ["held back: lone 2: there is no source lone 2 to copy"])

    def test_what_needs_it_stays(self):
        """app 2 needs lib 2, which is missing; app 1 works with each."""
        judge = Rules(app_2=[("lib", ["2"])])
        found = self.applied(("app 2 app", "lib 3 lib", "mta 2 mta"),
                             ("app 2 app", "lib 2 lib", "lone 1 lone", "mta 2 mta"), judge=judge)
        self.assertEqual(found, (1, ["app 1", "lib 1", "lone 1", "mta 2"]))
        self.assertIn("held back: app 2: app couldn't be installed on amd64: its needs", self.told)

    def test_what_it_needs_stays(self):
        """app 1 needs lib 1, and app 2 is missing: lib 1 may not leave."""
        judge = Rules(app_1=[("lib", ["1"])], app_2=[("lib", ["2"])])
        found = self.applied(("lib 2 lib", "mta 2 mta"), ("app 2 app", "lib 2 lib", "lone 1 lone", "mta 2 mta"),
                             judge=judge)
        self.assertEqual(found, (1, ["app 1", "lib 1", "lone 1", "mta 2"]))

    def test_a_group_stays_together(self):
        found = self.applied(("lone 2 lone", "mta 2 mta"), ("app 1 app", "lib 2 lib", "lone 2 lone", "mta 2 mta"),
                             groups=[frozenset({"lib", "lone"})])
        self.assertEqual(found, (1, ["app 1", "lib 1", "lone 1", "mta 2"]))
        self.assertIn("held back: lone 2: it moved in one group with lib", self.told)

    def test_a_package_that_changes_its_source(self):
        """lone 2 brings the package of lib, which lib 2 no longer has."""
        found = self.applied(("lone 2 lone lib", "mta 2 mta"), ("app 1 app", "lib 2 lib2", "lone 2 lone lib",
                                                                "mta 2 mta"))
        self.assertEqual(found, (1, ["app 1", "lib 1", "lone 1", "mta 2"]))

    def test_what_breaks_a_package_that_stays(self):
        """app 1 stays and can't be installed with lone 2, which the judge names; if it names nothing, all stays."""
        class Silent(Rules):

            def __call__(self, architecture, packages):
                return [broken._replace(named=frozenset()) for broken in super().__call__(architecture, packages)]

        for judge, mta in ((Rules, "mta 2"), (Silent, "mta 1")):
            found = self.applied(("lone 2 lone", "mta 2 mta"), ("app 1 app", "lib 2 lib", "lone 2 lone", "mta 2 mta"),
                                 judge=judge(app_1=[("lone", ["1"])]))
            self.assertEqual(found, (1, ["app 1", "lib 1", "lone 1", mta]))

    def test_without_a_judge(self):
        found = self.applied(("mta 2 mta",), ("app 1 app", "lib 1 lib", "lone 2 lone", "mta 2 mta"), judge=None)
        self.assertEqual(found, (1, ["app 1", "lib 1", "lone 1", "mta 1"]))

    def test_packages_without_a_source(self):
        """The archive has no version of the source vendor; its packages come, and that is printed."""
        vendor = Contents(frozenset(), frozenset({row("vendor-tool", "1")}),
                          {row("vendor-tool", "1"): Source("vendor", "1")})
        manager = Manager(suite(*self.OLD), vendor)
        turn = self.turn(manager, *self.OLD, "vendor 1 vendor-tool")
        self.assertEqual((turn.apply(), turn.apply(), turn.compare()), (0, 0, 0))
        self.assertIn(row("vendor-tool", "1"), manager.shown.rows)
        self.assertEqual(self.told[0], "no version of these sources is in the archive, and their packages come "
                                       "without: vendor 1")

    def test_kinds_that_stay_out(self):
        origin = suite("mta 2 mta")
        manager = Manager(suite(*self.OLD), Contents(origin.sources, origin.rows, origin.built_of, {"udeb": 3}))
        self.turn(manager, *self.OLD[:3], "mta 2 mta").apply()
        self.assertEqual(self.told,
                         ["left out: 3 packages of the kind udeb: the office decides about none of them"])

    def test_groups_of_runs(self):
        """From the last run back, until the move of each source is found."""
        updates = {3: "easy 1 accept app 2 lib 2\n", 2: "accept mta 2\neasy 4 accept lone 2 other 1\n",
                   1: "accept app 1\n"}
        asked = []

        class Service:

            def update(self, number):
                asked.append(number)
                return reports.read_update(f"update {number} 2025-03-20\n" + updates[number])

        find = groups_of(Service(), 3)
        self.assertEqual(find(frozenset({"lib", "mta"})), [frozenset({"app", "lib"})])
        self.assertEqual(asked, [3, 2])
        self.assertEqual(groups_of(None, 3)(frozenset({"lib"})), [])


@needs_plan
class Brakes(unittest.TestCase):
    """How much may leave testing, and that nothing goes back, unless it is allowed."""

    def refusal(self, manager, told, **terms):
        turn = Turn(manager, reports.read_testing(testing_text(*told)), lambda line: None, lambda line: None,
                    Terms(**terms))
        try:
            return turn.apply()
        except Fault as fault:
            self.assertEqual((fault.status, manager.asked), (3, []))
            return fault.cause

    def much(self, count, gone):
        """What is refused if this many of this many packages go."""
        told = [f"p{number} 1 p{number}" for number in range(count)]
        return lambda **terms: self.refusal(Manager(suite(*told), suite()), told[gone:], **terms)

    def test_more_than_forty_and_two_in_a_hundred(self):
        self.assertEqual(self.much(30, 20)(), 0)
        self.assertEqual(self.much(1050, 21)(), 0)
        self.assertRegex(self.much(1049, 21)(), r"^42 of 2098 packages and sources would leave testing: p0 amd64, p0 "
                                                r"source, .* and 32 more: nothing is changed unless --gone 42 allows "
                                                r"it$")

    def test_an_allowed_number(self):
        self.assertEqual(self.much(30, 25)(gone=50), 0)
        self.assertRegex(self.much(30, 25)(gone=49), "unless --gone 50")
        self.assertRegex(self.much(30, 1)(gone=0), "unless --gone 2")

    def test_an_upgrade_is_no_loss(self):
        old, new = ([f"p{number} {version} p{number}" for number in range(30)] for version in (1, 2))
        self.assertEqual(self.refusal(Manager(suite(*old), suite(*new)), new), 0)

    def test_back(self):
        def manager():
            return Manager(suite("lone 2 lone", "mta 1 mta"), suite("lone 1 lone"))
        told = ("lone 1 lone", "mta 1 mta")
        self.assertRegex(self.refusal(manager(), told), "^testing would go back to lower versions: lone 2 to 1: .* "
                                                        "nothing is changed unless --back allows it$")
        self.assertEqual(self.refusal(manager(), told, back=True), 0)

    def test_what_came_back_was_allowed(self):
        """A lower version of the archive that was sent above the one that testing has."""
        told = ("lone 2+back1.1 lone", "mta 1 mta")
        manager = Manager(suite("lone 2 lone", "mta 1 mta"), suite("lone 1 lone"))
        self.assertEqual(self.refusal(manager, told), 0)
        self.assertEqual(manager.there.sources, suite("lone 1 lone", "mta 1 mta").sources)

    def test_a_mark_is_no_way_back(self):
        """A rebuilt source has the archive's own version, which is below the sent one."""
        manager = Manager(suite("lone 2 lone", "mta 1 mta"), suite())
        self.assertEqual(self.refusal(manager, ("lone 2+b1 lone", "mta 1 mta")), 1)


class Locks(unittest.TestCase):

    def test_a_lock_that_was_left(self):
        """The message of a reprepro that finds a lock."""
        folder = tempfile.mkdtemp()
        self.addCleanup(shutil.rmtree, folder)
        os.mkdir(os.path.join(folder, "db"))
        lock = os.path.join(folder, "db", "lockfile")
        told = Fault(f"reprepro: The lock file '{lock}' already exists.", 4)
        with unittest.mock.patch("office_tools.apply.reprepro.run", side_effect=told):
            for is_there, due in ((False, "already exists"), (True, "left by a reprepro that was ended")):
                if is_there:
                    with open(lock, "w", encoding="utf-8"):
                        pass
                with self.assertRaises(Fault) as raised:
                    Reprepro(folder, "ordered", "testing").testing()
                self.assertIn(due, raised.exception.cause)
            with unittest.mock.patch("office_tools.apply.reprepro.users", return_value=iter(["17"])):
                with self.assertRaises(Fault) as raised:
                    Reprepro(folder, "ordered", "testing").testing()
                self.assertIn("already exists", raised.exception.cause)


@needs_plan
class Command(unittest.TestCase):

    def setUp(self):
        self.folder = tempfile.mkdtemp()
        self.addCleanup(shutil.rmtree, self.folder)
        self.testing = self.file("testing", TESTING)

    def file(self, name, text):
        path = os.path.join(self.folder, name)
        with open(path, "w", encoding="utf-8") as file:
            file.write(text)
        return path

    def apply(self, *words):
        return tool("office-apply", "--testing", self.testing, *words)

    def test_heidi(self):
        """dak takes a line `PACKAGE VERSION ARCHITECTURE`, and `source` for the architecture of a source."""
        path = os.path.join(self.folder, "HeidiResult")
        self.assertEqual(self.apply("--dry-run", "heidi", path).returncode, 1)
        self.assertFalse(os.path.exists(path))
        self.assertEqual(self.apply("heidi", path).returncode, 0)
        with open(path, encoding="utf-8") as file:
            self.assertEqual(file.read(), "app 2.0-1+b1 amd64\ncyc 1-1 amd64\nguide-doc 5-1 all\nlib1 1.0-1 amd64\n"
                                          "app 2.0-1 source\ncyc 1-1 source\nguide 5-1 source\n")
        before = os.stat(path)
        told = self.apply("heidi", path)
        self.assertEqual((told.returncode, len(told.stdout.splitlines())), (0, 1))
        self.assertEqual(os.stat(path).st_ino, before.st_ino)

    def test_heidi_over_indexes(self):
        """dak's file sets the suite whole: it also has what is left alone."""
        path = os.path.join(self.folder, "HeidiResult")
        sources = ("--sources", self.file("Sources", SOURCES + "Package: idle\nVersion: 1\n"))
        packages = self.file("Packages", PACKAGES)
        told = self.apply("heidi", *sources, path, packages)
        self.assertEqual((told.returncode, told.stderr), (0, "office-apply: left alone: sources of which testing has "
                                                             "no package, or packages that stay: idle 1\n"))
        with open(path, encoding="utf-8") as file:
            self.assertIn("idle 1 source\n", file.read())
        self.assertEqual(self.apply("--dry-run", "heidi", *sources, path, packages).returncode, 0)
        for words, status in [((*sources, path), 2), ((path, packages), 3)]:
            self.assertEqual(self.apply("heidi", *words).returncode, status)

    def test_compare(self):
        sources = ("--sources", self.file("Sources", SOURCES))
        packages = self.file("Packages", PACKAGES)
        self.assertEqual(self.apply("compare", *sources, packages).returncode, 0)
        self.file("Packages", PACKAGES.replace("5-1", "5-2"))
        told = self.apply("compare", *sources, packages)
        self.assertEqual((told.returncode, told.stdout.splitlines()[:2]),
                         (1, ["missing: binary all guide-doc 5-1", "too much: binary all guide-doc 5-2"]))

    def test_select(self):
        """Each row's paragraph as it is in the first file that has it."""
        told = self.apply("select", "amd64", self.file("Packages", PACKAGES + "\nPackage: other\nVersion: 1\n"
                                                                              "Architecture: amd64\n"))
        self.assertEqual((told.returncode, told.stdout), (0, PACKAGES + "\n"))
        told = self.apply("select", "amd64", self.file("Packages", PACKAGES.replace("5-1", "5-2")))
        self.assertEqual((told.returncode, told.stderr), (1, "office-apply: the files have no all guide-doc 5-1\n"))

    def test_files_that_cannot_be_read(self):
        """A list of files without names counts as no Release, and an index has to be UTF-8."""
        os.makedirs(os.path.join(self.folder, "dists"))
        for text in ("SHA256:\n abc\n", "SHA256: x\n"):
            self.file("dists/Release", text)
            told = self.apply("compare", os.path.join(self.folder, "dists"))
            self.assertEqual(told.returncode, 3, told.stderr)
            self.assertIn("its indexes aren't those that its file Release states", told.stderr)
        path = self.file("Packages", "")
        with open(path, "wb") as file:
            file.write(b"Package: app\nVersion: 1\nArchitecture: amd64\nDescription: \xe5\n")
        told = self.apply("select", "amd64", path)
        self.assertEqual((told.returncode, told.stderr), (1, f"office-apply: {path}: it is no text in UTF-8\n"))

    def test_refusals(self):
        for words, status, cause in [
                (("reprepro", self.folder, "ordered", "testing"), 3, "it is no archive of reprepro"),
                (("heidi", self.file("odd", "a b\n")), 3, "it isn't PACKAGE VERSION ARCHITECTURE"),
                (("heidi", self.file("more", "a 1 arm64\n")), 3, "testing has packages of arm64, and the office's has "
                                                                 "none: the office has another setup"),
                (("compare", self.folder), 3, "its indexes aren't those that its file Release states"),
                (("compare", os.path.join(self.folder, "nothing")), 1, "No such file or directory"),
                (("--url", "http://127.0.0.1:1", "heidi", "x"), 2, "exclude each other")]:
            told = self.apply(*words)
            self.assertEqual(told.returncode, status, told.stderr)
            self.assertIn(cause, told.stderr)
        number = os.open(self.folder, os.O_RDONLY)
        fcntl.flock(number, fcntl.LOCK_EX)
        told = self.apply("reprepro", self.folder, "ordered", "testing")
        os.close(number)
        self.assertEqual((told.returncode, told.stderr),
                         (3, f"office-apply: {self.folder}: another office-apply works on this archive\n"))
        told = tool("office-apply", "--url", "http://127.0.0.1:1", "heidi", "x")
        self.assertEqual(told.returncode, 4)
        self.assertTrue(told.stderr.startswith("office-apply: http://127.0.0.1:1/testing: "), told.stderr)


if __name__ == "__main__":
    unittest.main()
