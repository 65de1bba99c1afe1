"""Judges what `geocom station --csv` wrote over a bad line.

Each command of a cycle has one row, in order; every answer is the right one for its request; none came past its deadline; each first
reply that came well in time is answered; no command of a chain went out after one that wasn't answered well, or over another
connection, and else it did; a cycle is missed whole, and only where the next was due before it could begin; the counts at the end are
those of the rows; all rows have the beginning of one run, and a command that was sent has its moment, between that beginning and its
end; and what is reported besides has the form and the pauses that it has to have: a cycle that wasn't done in time is reported once, in order.
"""

import collections
import csv
import io
import re
from dataclasses import dataclass

from line_log import WHILE
from measuring import ECHOES, START, STAMP, counts_of, is_request_of
from outcomes import JUDGED, OUTCOMES, UNSENT
from records import COLUMNS, GOOD, moment
from tagging import tagged

# What a row has of a reply.
OF_REPLY = ["fault", "rc_com", "rc", "values", "quality"]
# What may be told, at most once a minute of each kind.
SIGNS = [
    rf"geocom: (no connection) since {STAMP}(?:: .+)?", rf"geocom: (line not quiet) since {STAMP}",
    rf"geocom: (no answer) since {STAMP}(?:: \d+ bytes arrived, none a reply)?",
    r"geocom: (connected again)", r"geocom: (cycle) \d+ was not done when the next was due",
    rf"geocom: (commands skipped) since {STAMP}: \d+", rf"geocom: (commands not answered well) since {STAMP}: \d+; the last: target .+",
    r"geocom: (?:\d+ )?(cycles?) (?:\d+ )?missed(?:, from \d+ to \d+)?: \d+ rows? written", f"({re.escape(ECHOES)})",
]


@dataclass
class Plan:
    """What a station was to do: its commands, each a target and a procedure, their right values, its times and its cycles, and the return
    codes of its answers. The times are in milliseconds, `every` in seconds. Where answers are tagged they have the numbers of their
    requests in place of their first values."""

    commands: list
    values: list
    deadline: int
    quiet: int
    every: int
    cycles: int
    is_tagged: bool
    codes: list

    def is_chained(self, place):
        """Whether the command at a place is chained to the one before it."""
        return place > 0 and self.commands[place - 1][0] == self.commands[place][0]

    def right(self, place, number):
        """The right values of a request of this number."""
        return tagged(self.values[place], number) if self.is_tagged else self.values[place]


@dataclass
class Verdict:
    """The line of the counts, and what is wrong."""

    counts: str
    faults: list


def milliseconds(row, column="time"):
    """A moment of a row, in milliseconds since 1970."""
    return round(1000 * moment(row[column]).timestamp())


def rows_of(written):
    """The rows that were written."""
    reader = csv.DictReader(io.StringIO(written, newline=""))
    rows = list(reader)
    assert reader.fieldnames == COLUMNS
    return rows


def cycles_begun(rows):
    """The cycles of which anything was sent: the line counts no others."""
    return sorted({int(row["cycle"]) for row in rows if row["outcome"] not in UNSENT})


def judge(plan, rows, messages, log):
    """The verdict over these rows and messages, and what the line saw."""
    lines = messages.splitlines()
    late_cycles = [int(line.split()[2]) for line in lines[1:-1] if " was not done " in line]
    faults = [*log.faults, *faults_of_run(plan, rows), *faults_of_rows(plan, rows, log), *faults_of_missed(plan, rows),
              *faults_of_messages(plan, rows, lines, late_cycles)]
    counts = f"{counts_of(rows)}, {len(log.in_time)} well in time, {len(late_cycles)} cycles not done in time, {len(faults)} faults"
    return Verdict(counts, faults)


def faults_of_run(plan, rows):
    if len(rows) != plan.cycles * len(plan.commands):
        yield f"{len(rows)} rows for {plan.cycles} cycles of {len(plan.commands)} commands"
    if len({row["run"] for row in rows}) > 1:
        yield f"one run, which began at {sorted({row['run'] for row in rows})}"


def faults_of_rows(plan, rows, log):
    last = 0
    for n, row in enumerate(rows):
        cycle, place = n // len(plan.commands) + 1, n % len(plan.commands)
        where = f"row {n + 1}, cycle {cycle}, step {place}"
        number = log.numbers.get((cycle, place))
        left = is_left_by_abandoned(plan, rows, n)
        for fault in faults_of_row(plan, row, cycle, place, number, left):
            yield f"{where}: {fault}"
        if plan.is_chained(place) and not left:
            for fault in faults_of_chain(row, rows[n - 1], number, log.numbers.get((cycle, place - 1)), log):
                yield f"{where}: {fault}: {rows[n - 1]}, {row}"
        if row["outcome"] != "missed":
            if milliseconds(row) < last:
                yield f"{where}: the time goes back"
            last = milliseconds(row)
        for fault in faults_of_answer(plan, row, place, number, log):
            yield f"{where}: {fault}"


def is_left_by_abandoned(plan, rows, n):
    """Whether the row with this number is of what is left of a cycle that is abandoned: all of that is skipped, and the next cycle, if there is one, is missed."""
    behind = len(plan.commands) * (n // len(plan.commands) + 1)
    after = rows[behind:behind + len(plan.commands)]
    return all(row["outcome"] == "skipped" for row in rows[n:behind]) and all(row["outcome"] == "missed" for row in after)


def faults_of_row(plan, row, cycle, place, number, is_left):
    """What is wrong with a row by itself, which may be left by a cycle that is abandoned. The number is that of its request, if one was sent."""
    wanted = (1, cycle, place, *plan.commands[place])
    if tuple(int(row[column]) for column in ("attempt", "cycle", "step", "target", "procedure")) != wanted or row["name"] != "":
        yield f"{row}"
    if row["outcome"] not in OUTCOMES or (row["outcome"] != "answered" and any(row[column] for column in OF_REPLY)):
        yield f"{row}"
    is_unsent = row["outcome"] in UNSENT
    if is_unsent and number:
        yield f"{row['outcome']}, and it was sent"
    if not is_request_of(row):
        yield f"its request is {row['request']!r}"
    if (row["sent"] == "") != is_unsent:
        yield f"{row['outcome']}, and it was sent at {row['sent']!r}"
    elif row["sent"] and not milliseconds(row, "run") <= milliseconds(row, "sent") <= milliseconds(row):
        yield f"it wasn't sent between the beginning of its run and its end: {row}"
    if row["outcome"] == "skipped" and not plan.is_chained(place) and not is_left:
        yield "skipped, and it is the first of its row"


def is_well(row):
    return row["quality"] in GOOD


def faults_of_chain(row, before, number, number_before, log):
    """What is wrong with a command of a chain, which follows that one; the numbers are those of their requests."""
    if row["outcome"] == "missed":
        return
    if row["outcome"] == "skipped":
        next_number = min((other for other in log.sent if other > (number or number_before or 0)), default=None)
        until = log.sent_over.get(next_number, log.connections)
        if is_well(before) and until == log.sent_over.get(number_before, until):
            yield "skipped behind one that was answered well, over one connection"
    elif not is_well(before):
        yield "sent behind one that wasn't answered well"
    elif number and log.sent_over[number] != log.sent_over.get(number_before, log.sent_over[number]):
        yield "sent over another connection than the one before it"
    elif number and not log.first.get(number_before, log.sent[number] + 1) <= log.sent[number]:
        yield "sent before the answer to the one before it"


def faults_of_answer(plan, row, place, number, log):
    """What is wrong with what became of a request."""
    if row["outcome"] != "answered":
        if number in log.in_time:
            yield f"{row['outcome']}, and its reply came in time, {log.first[number] - log.sent[number]} ms after it"
    elif (row["rc_com"], row["rc"], row["fault"]) != ("0", plan.codes[place], "") or not is_well(row):
        yield f"{row}"
    elif number is None:
        yield "answered, and it wasn't sent"
    elif row["values"] != plan.right(place, number):
        yield f"{row['values']}, and it is request {number}"
    elif number not in log.first:
        yield "answered, and no reply came"
    elif log.first[number] > log.sent[number] + plan.deadline + WHILE:
        yield f"answered, and its reply came {log.first[number] - log.sent[number]} ms after it"


def missed_cycles(rows):
    """The moments of the rows of each cycle that was missed."""
    missed = {}
    for row in rows:
        if row["outcome"] == "missed":
            missed.setdefault(int(row["cycle"]), []).append(milliseconds(row))
    return missed


def faults_of_missed(plan, rows):
    """Missed cycles are so as a whole, each with its own due moment, and none that could have begun before the next was due."""
    missed = missed_cycles(rows)
    for cycle, moments in missed.items():
        if len(moments) != len(plan.commands) or len(set(moments)) != 1:
            yield f"cycle {cycle}: missed in part, or at {set(moments)}"
        behind = next((row for row in rows[cycle * len(plan.commands) :] if row["outcome"] != "missed"), None)
        if not plan.every or behind and milliseconds(behind) + WHILE < moments[0] + 1000 * plan.every:
            yield f"cycle {cycle}: missed, and the next row but missed ones is {behind}"
        if cycle - 1 in missed and abs(moments[0] - missed[cycle - 1][0] - 1000 * plan.every) > WHILE:
            yield f"cycle {cycle}: missed at {moments[0]}, and the one before it at {missed[cycle - 1][0]}"


def faults_of_messages(plan, rows, lines, late_cycles):
    """The counts come last, the line of the start first, and between them signs of life."""
    if lines[-1:] != [counts_of(rows)]:
        yield f"the counts are {counts_of(rows)}, and told is {lines[-1:]}"
    if not lines[:-1] or not START.fullmatch(lines[0]):
        yield f"told at the start: {lines[:1]}"
    signs = lines[1:-1]
    found = [next(filter(None, (re.fullmatch(sign, line) for sign in SIGNS)), None) for line in signs]
    if None in found:
        yield f"told besides: {signs[found.index(None)]}"
    told = collections.Counter(one[1] for one in found if one)
    # The first row is written a while after the first sign.
    minutes = (milliseconds(rows[-1]) - min(map(milliseconds, rows)) + 20 * plan.deadline + 20 * plan.quiet) // 60_000 if rows else 0
    if any(many > minutes + 1 for many in told.values()):
        yield f"told more than once a minute: {dict(told)} in {minutes} minutes"
    if told[ECHOES] > 1:
        yield f"an echo is told {told[ECHOES]} times"
    missed = missed_cycles(rows)
    if late_cycles != sorted(set(late_cycles)) or any(not 0 < cycle < plan.cycles or cycle in missed for cycle in late_cycles):
        yield f"cycles told as not done in time: {late_cycles}"
    skipped = sum(int(line.split()[-1]) for line in signs if " commands skipped " in line)
    if skipped > sum(row["outcome"] == "skipped" for row in rows):
        yield f"{skipped} told as skipped, and fewer were"
    unwell = sum(int(found[1]) for found in (re.search(r"not answered well since \S+: (\d+);", line) for line in signs) if found)
    if unwell > sum(row["cycle"] != "0" and (row["quality"] == "refused" or row["outcome"] in ("unreadable", *JUDGED)) for row in rows):
        yield f"{unwell} told as not answered well, and fewer were"
    written = sum(int(found[1]) for found in (re.search(r"missed.*: (\d+) rows? written", line) for line in signs) if found)
    if written > sum(row["outcome"] == "missed" for row in rows):
        yield f"{written} rows told as missed, and fewer were"
