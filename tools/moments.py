"""Moments as whole milliseconds: texts of ISO 8601 with a zone."""

import datetime

ORIGIN = datetime.datetime(1970, 1, 1, tzinfo=datetime.timezone.utc)
DAY = 86_400_000


def milliseconds(text):
    """The milliseconds since 1970 of a moment; `ValueError` of a text that is none, or says no zone."""
    # (Python reads a Z from 3.11 on)
    moment = datetime.datetime.fromisoformat(text[:-1] + "+00:00" if text.endswith("Z") else text)
    if moment.tzinfo is None:
        raise ValueError(f"{text} says no zone")
    return (moment - ORIGIN) // datetime.timedelta(milliseconds=1)
