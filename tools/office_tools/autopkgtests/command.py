"""office-tests: mails a running office a bug for each autopkgtest that a version in unstable fails."""
import argparse
from typing import Sequence

from office_tools.autopkgtests.changes import TEST, changes, verdicts_of
from office_tools.autopkgtests.results import read_results
from office_tools.bugs.kept import mail_changes, own_of, read_book
from office_tools.faults import tell
from office_tools.service import DEFAULT_URL, service_at

NAME = "office-tests"


def parser() -> argparse.ArgumentParser:
    """The command's words."""
    words = argparse.ArgumentParser(
        prog=NAME, description="Mails a running office a release-critical bug for each autopkgtest that testing passes "
                               "and a version in unstable fails. If the test passes later, the bug is lifted.",
        epilog="Status 0: the office has all of it. 1: with --dry-run something would be sent. 2: the words are wrong. "
               "3: refused: a file can't be read, or the office refused a message. 4: no office answers.")
    words.add_argument("--url", default=DEFAULT_URL, help=f"the service ({DEFAULT_URL})")
    words.add_argument("--dry-run", action="store_true", help="print what would be sent, as a bag, and send nothing")
    words.add_argument("--testing", metavar="SUITE", default="testing",
                       help="the name of testing in the results of debci (testing)")
    words.add_argument("--take-over", action="store_true",
                       help="also change bugs of tests whose last message a person wrote")
    words.add_argument("files", metavar="FILE", nargs="+",
                       help="a file or a URL: results of debci (packages.json, or what its API answers), or "
                            "britney's autopkgtest-results.cache")
    return words


def main(words: Sequence[str]) -> int:
    """Sends what changed."""
    asked = parser().parse_args(words)
    results = [result for path in asked.files for result in read_results(path, asked.testing)]
    service = service_at(asked.url)
    book = read_book(service, TEST)
    verdicts = verdicts_of(iter(results), service.unstable().sources, service.testing().sources)
    found = changes(verdicts, book)
    sent = own_of(found.changes, book, NAME, asked.take_over)
    for test in found.waiting:
        tell(NAME, f"{test}: {verdicts.version(test.source)} has no result yet: it stays failed")
    lifted = sum(change.version is None for change in sent)
    summary = f"tests {len(verdicts.outcomes)}, failed {len(sent) - lifted}, lifted {lifted}"
    return mail_changes(service, book, sent, NAME, summary, asked.dry_run)
