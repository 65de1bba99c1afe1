"""Judges the rows of a station over a line that alters bytes: which are false, and by which altered line.

The station's log has its requests and the lines that it got, in its order. From it follows by ids alone which line ended which request, as
docs/PROTOCOL.md has it: a reply ends the oldest outstanding request with its id, and all before that one. A row is false if its values
aren't the number of an execution of its own request. A line is damaged if it was altered, or answers a request that was. A false row that
no damaged line ended is one of a displaced reply; it may only follow two damaged lines in a row, of those that ended anything.
"""

import collections
import re
from dataclasses import dataclass, field

from altering import Place
from line_notes import shown
from outcomes import REPLIED

SENT = re.compile(r"%R1Q,(\d+),(\d):")
REPLY = re.compile(r"%R1P,(\d{1,5}),([0-7]):(\d{1,5})(?:,(.*))?$")
# The ids of the null procedures of a synchronization, in order.
SYNCHRONIZING = [6, 5, 4, 3, 2, 1, 0, 7]


@dataclass
class Entry:
    """An entry of the station's log, of a connection: a request that was sent, with its number, or a line that arrived, with the number of
    the request that it was made on."""

    connection: int
    text: str
    number: int | None = None
    altered: Place | None = None
    made_on: int | None = None


@dataclass
class Ended:
    """What ended a request: a reply to it, and whether two damaged lines in a row had ended something before, since the synchronization."""

    entry: Entry
    is_behind_two: bool


@dataclass
class Verdict:
    """False rows by each damaged line, rows of displaced replies, damaged lines that ended anything, and what is wrong."""

    false: collections.Counter = field(default_factory=collections.Counter)
    displaced: int = 0
    damaged: int = 0
    faults: list = field(default_factory=list)


def entries_of(log):
    """The requests and complete lines of a station's log."""
    entries, connection, number = [], 0, 0
    for line in log.splitlines():
        _, mark, text = line.split(" ", 2)
        if mark == "-":
            connection += text == "open"
        elif mark == ">":
            number += 1
            entries.append(Entry(connection, text, number))
        elif mark == "<":
            entries.append(Entry(connection, text))
    return entries


def note_altered(entries, arrived):
    """Notes of each line that arrived which one was altered, and what it was made on. Of a connection the station heard all that arrived
    but, at its end, the last."""
    lines = collections.defaultdict(collections.deque)
    for one in arrived:
        if one.text.endswith(b"\r"):
            lines[one.connection].append(one)
    for entry in entries:
        if entry.number is None:
            one = lines[entry.connection].popleft()
            assert shown(one.text[:-1]).decode("ascii") == entry.text, f"{entry}, and {one} arrived"
            entry.altered, entry.made_on = one.altered, one.made_on


def beginnings_in(sent):
    """The numbers of the requests that a synchronization begins with, and of those that follow one."""
    calls = [tuple(map(int, SENT.match(entry.text).groups())) for entry in sent]
    begun, over, at = set(), set(), None
    for n, (call, later) in enumerate(zip(calls, [*calls[1:], None])):
        if at is None and call == (0, 6) and later in ((0, 6), (0, 5), None):
            begun.add(sent[n].number)
            at = 0
        elif at is not None and call != (0, SYNCHRONIZING[at]):
            at = at + 1 if at + 1 < len(SYNCHRONIZING) and call == (0, SYNCHRONIZING[at + 1]) else None
            if at is None:
                over.add(sent[n].number)
    return begun, over


def ends_of(entries):
    """What a reply ended, by the numbers of the requests, and how many damaged lines ended anything."""
    begun, over = beginnings_in([entry for entry in entries if entry.number])
    waiting, ended, damaged = [], {}, 0
    is_damaged = is_behind_two = False
    for entry in entries:
        if entry.number:
            if entry.number in begun | over:
                waiting = []
            if entry.number in begun:
                is_damaged = is_behind_two = False
            waiting.append((int(SENT.match(entry.text)[2]), entry.number))
            continue
        found = REPLY.match(entry.text)
        place = next((n for n, (number, _) in enumerate(waiting) if found and number == int(found[2])), None)
        if place is None:
            continue
        ended[waiting[place][1]] = Ended(entry, is_behind_two)
        is_behind_two |= is_damaged and bool(entry.altered)
        is_damaged = bool(entry.altered)
        damaged += is_damaged
        waiting = waiting[place + 1 :]
    return ended, damaged


def numbers_made(line, instrument):
    """Of each request of the station the values that were made on executing it."""
    made, executions = collections.defaultdict(set), 0
    for n, heard in enumerate(instrument.heard):
        if heard.made == n:
            executions += 1
            made[line.reached[n].number].add(str(executions))
    return made


def settled(rows, log, line):
    """Each row of a command that was sent, with the number of its request and what ended it; and how many damaged lines ended anything."""
    entries = entries_of(log)
    note_altered(entries, line.arrived)
    ended, damaged = ends_of(entries)
    commands = [entry.number for entry in entries if entry.number and not entry.text.startswith("%R1Q,0,")]
    sent = [row for row in rows if row["sent"]]
    assert len(commands) == len(sent), f"{len(commands)} commands were sent, and {len(sent)} rows say so"
    return [(row, number, ended.get(number)) for row, number in zip(sent, commands)], damaged


def has_said(row, end):
    """Whether a row of a reply has what the line has that ended its command."""
    found = end and REPLY.match(end.entry.text)
    return bool(found) and (row["rc_com"], row["rc"], row["values"]) == (found[1], found[3], found[4] or "")


def judge(rows, log, line, instrument):
    """The verdict over these rows, of a station of 5003 alone."""
    verdict, made = Verdict(), numbers_made(line, instrument)
    ends, verdict.damaged = settled(rows, log, line)
    for row, number, end in ends:
        if row["outcome"] not in REPLIED:
            continue
        if not has_said(row, end):
            verdict.faults.append(f"{row}: ended by {end}")
        elif int(row["rc_com"]) == int(row["rc"]) == 0 and row["values"] in made[number]:
            continue
        elif end.entry.altered:
            verdict.false[end.entry.altered] += 1
        elif end.is_behind_two:
            verdict.displaced += 1
        else:
            verdict.faults.append(f"{row}: false, and {end.entry.text} was altered nowhere; request {number} has {made[number]}")
    verdict.faults += [f"{place} made {count} false rows" for place, count in verdict.false.items() if count > 1]
    return verdict
