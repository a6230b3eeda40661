"""Days, as the office has them."""
import datetime

FIRST_YEAR = 1970


def day(word: str) -> datetime.date:
    """A day that is written as YYYY-MM-DD, from 1970-01-01 on; for argparse any other word is a `ValueError`."""
    found = datetime.date.fromisoformat(word)
    if found.isoformat() != word or found.year < FIRST_YEAR:
        raise ValueError(word)
    return found


def today() -> datetime.date:
    """The day that is today by the system's clock, in UTC."""
    return datetime.datetime.now(datetime.timezone.utc).date()
