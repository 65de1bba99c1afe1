"""What `relay.py` saw of a run: each request, and the first reply to it that went on to the station.

A reply came well in time where it is the first one that the station heard: after a request on the same connection, so that this
was drained before; no more than half the deadline after its own request; not after the first null procedure of a beginning again; and
where the station asked again on that connection, a while later.
"""

from dataclasses import dataclass, field
from pathlib import Path

# A while, in milliseconds.
WHILE = 50


@dataclass
class LineLog:
    """Requests have numbers from 1; `numbers` has those of cycles and places. When a request came, over which connection, and when its
    first reply went on, stands under its number. The moments are in milliseconds."""

    numbers: dict = field(default_factory=dict)
    sent: dict = field(default_factory=dict)
    sent_over: dict = field(default_factory=dict)
    first: dict = field(default_factory=dict)
    in_time: set = field(default_factory=set)
    connections: int = 0
    faults: list = field(default_factory=list)


def entries_of(path):
    """The lines of the log: each has a moment, a word and numbers."""
    lines = map(str.split, Path(path).read_text(encoding="ascii").splitlines())
    return [(int(now), word, [int(one) for one in numbers]) for now, word, *numbers in lines]


def beginnings_in(entries):
    """At which entries a beginning's first null procedure went out: it, or the second one, follows it. After one of a cycle comes id 7."""
    asked_at = [n for n, (_, word, _) in enumerate(entries) if word in ("null", "sent")]
    return {n for n, behind in zip(asked_at, [*asked_at[1:], None])
            if entries[n][1:] == ("null", [6]) and (behind is None or entries[behind][1:] in (("null", [6]), ("null", [5])))}


def read_log(path, deadline, cycles):
    """The log of a run whose rows have requests of these cycles."""
    log, entries = LineLog(), entries_of(path)
    beginnings = beginnings_in(entries)
    # Which replies the station heard, and those of them that came in time where it asks again a while later; whether a request came on
    # this connection, and how many requests came before the last beginning.
    heard, unsure, is_drained, before = set(), [], False, 0
    for n, (now, word, numbers) in enumerate(entries):
        if word == "clear":
            is_drained, unsure = False, []
            log.connections += 1
        elif word == "came":
            number = numbers[0]
            log.first.setdefault(number, now)
            if is_drained and number > before and number not in heard:
                heard.add(number)
                unsure += [(now, number)] if now - log.sent[number] <= deadline / 2 else []
        else:
            is_drained = True
            log.in_time.update(number for came, number in unsure if came + WHILE <= now)
            if n in beginnings:
                before, unsure = len(log.sent), []
            if word == "sent":
                note_request(log, now, numbers, cycles)
    return log


def note_request(log, now, numbers, cycles):
    """A request came: its number, its cycle, counted of those of which anything was sent, and its place."""
    number, cycle, place = numbers
    if cycle > len(cycles):
        log.faults.append(f"a request of cycle {cycle} that was sent, and {len(cycles)} have rows of such")
    else:
        log.numbers[cycles[cycle - 1], place] = number
    log.sent[number], log.sent_over[number] = now, log.connections
