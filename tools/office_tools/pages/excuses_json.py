"""The JSON of a run, with the keys that `grep-excuses` of devscripts reads. office-pages(1) explains each key."""
import datetime
import json
from typing import Any, Mapping, Sequence

from office_tools.pages.fetching import Newest
from office_tools.pages.outcomes import NOTHING, reason_words, SourceOutcome
from office_tools.pages.sentences import excuse_sentences, old_enough, outcome_sentence
from office_tools.pages.verdicts import APPROVAL, PASS, PERMANENTLY, TEMPORARILY, verdict
from office_tools.reports import Excuse, ReasonKind


def excuses_json(newest: Newest) -> str:
    """The text of the JSON of a run: a line for each source."""
    excuses, update, made = newest.excuses, newest.update, newest.kept.fetched
    sources = [source_json(excuse, newest.outcomes.get(excuse.source, NOTHING), excuses.date)
               for excuse in excuses.excuses]
    head = {"generated-date": excuses.date.isoformat(), "run": excuses.run, "made": made}
    parts = [f"{json.dumps(key)}: {json.dumps(value)}" for key, value in head.items()]
    parts.append('"sources": [' + listed(sources) + "]")
    parts.append('"update": [' + listed([change.line for change in update.changes]) + "]")
    return "{\n" + ",\n".join(parts) + "\n}\n"


def listed(values: list[Any]) -> str:
    """The values of a list, each on a line of its own."""
    return "\n" + ",\n".join(map(json.dumps, values)) if values else ""


def source_json(excuse: Excuse, outcomes: Sequence[SourceOutcome], date: datetime.date) -> Mapping[str, Any]:
    """What the JSON says of a source."""
    words = reason_words(excuse)
    missing = [reason.architecture for reason in excuse.reasons if reason.kind is ReasonKind.MISSING]
    whole: dict[str, Any] = {
        "item-name": excuse.source,
        "source": excuse.source,
        "old-version": excuse.testing or "-",
        "new-version": excuse.unstable,
        "is-candidate": excuse.is_candidate,
        "age-days": excuse.age,
        "age-days-needed": excuse.needed,
        "reason": [reason.text for reason in excuse.reasons],
        "reasons": words,
        "migration-policy-verdict": verdict(words),
        "policy_info": policies(excuse),
        "outcome": outcomes[-1].as_json(),
        "excuses": told_of(excuse, outcomes)}
    if missing:
        whole["missing-builds"] = {"on-architectures": missing}
    if "age" in words:
        whole["old-enough-on"] = old_enough(excuse, date).isoformat()
    return whole


def told_of(excuse: Excuse, outcomes: Sequence[SourceOutcome]) -> list[str]:
    """The sentences that `grep-excuses` prints."""
    told = [*excuse_sentences(excuse), "A candidate" if excuse.is_candidate else "Not a candidate"]
    return told + [sentence for sentence in map(outcome_sentence, outcomes) if sentence]


def policies(excuse: Excuse) -> Mapping[str, Any]:
    """Age, bugs and blocks, each with a verdict of its own."""
    kinds = {reason.kind for reason in excuse.reasons}
    bugs = [str(reason.bug) for reason in excuse.reasons if reason.bug is not None]
    return {
        "age": {"age-requirement": excuse.needed, "current-age": excuse.age,
                "verdict": TEMPORARILY if ReasonKind.TOO_YOUNG in kinds else PASS},
        "rc-bugs": {"unique-source-bugs": bugs, "verdict": PERMANENTLY if bugs else PASS},
        "block": {"verdict": APPROVAL if ReasonKind.BLOCKED in kinds else PASS}}
