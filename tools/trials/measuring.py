"""Runs of `geocom station` against a far end of a trial's own, and what their rows have to be in any case."""

import collections
import csv
import io
import re
from pathlib import Path

from outcomes import OUTCOMES, REPLIED, UNSENT
from programs import PATIENCE, Run
from records import HEAD, MOMENT, counts_line, moment

STAMP = MOMENT.pattern
# The line that says at the start what a run has to do, where, and what it waits for.
START = re.compile(r"geocom: \d+ commands? for .*: waits until eight null procedures are answered, one after the other")
# What is told once of a line that echoes.
ECHOES = "geocom: the line echoes what is sent: a modem or the other end has its echo on"


def measuring(program, place, words, commands, **options):
    """A running station, which writes rows to its standard output."""
    return Run([program, "station", place, "--csv", *words.split()], commands, **options)


def finished(run, status=0, patience=PATIENCE, sendings=1):
    """Its rows, and its messages beside its counts and the line of its start, once it has ended with this status. The counts rest on
    the last line. Its chains have so many sendings in an attempt."""
    assert run.status(patience) == status, f"its messages are {run.messages()!r}"
    rows = rows_of(run.output())
    messages = [line for line in run.messages().splitlines() if not START.fullmatch(line)]
    if status == 0:
        assert messages[-1:] == [counts_of(rows, sendings)], "the line of the counts"
        del messages[-1]
    return rows, messages


def is_request_of(row):
    """Whether a row has the line of a request for its procedure, if one was sent, and else none."""
    return bool(re.fullmatch(rf"%R1Q,{row['procedure']},[0-7]:.*", row["request"])) if row["sent"] else row["request"] == ""


def rows_of(written):
    """The rows that were written, each with the columns that its outcome has."""
    assert written.startswith(HEAD), f"the head is {written.splitlines()[:1]}"
    rows = list(csv.DictReader(io.StringIO(written.decode("latin-1"), newline="")))
    for row in rows:
        has_reply = row["outcome"] in REPLIED
        assert row["outcome"] in OUTCOMES, row
        assert None not in row and None not in row.values(), row
        assert (row["fault"] != "") == (row["outcome"] == "unreadable"), row
        assert all((row[name] != "") == has_reply for name in ("rc_com", "rc")), row
        assert has_reply or row["values"] == "", row
        assert (row["quality"] != "") == (row["outcome"] == "answered"), row
        assert row["quality"] != "ok" or int(row["rc_com"]) == int(row["rc"]) == 0, row
        assert (row["sent"] == "") == (row["outcome"] in UNSENT), row
        assert is_request_of(row), row
        assert row["run"] <= (row["sent"] or row["run"]) and row["sent"] <= row["time"], row
    assert len({row["run"] for row in rows}) <= 1, f"one run began at {sorted({row['run'] for row in rows})}"
    return rows


def counts_of(rows, sendings=1):
    """The last line of a run with these rows: how the commands of cycles ended, each in the last attempt of its chain, and how many times
    a chain was sent again. The rows of an attempt directly follow those of the one before, and begin with the chain's first step. Under
    `agree` an attempt has two sendings, which the rows have as attempts."""
    kept, retried, last = [], 0, None
    for row in rows:
        if row["cycle"] == "0":
            continue
        if last and int(row["attempt"]) == int(last["attempt"]) + 1 and int(row["attempt"]) % sendings == 1 % sendings:
            retried += 1
            while kept and kept[-1]["cycle"] == row["cycle"] and int(kept[-1]["step"]) >= int(row["step"]):
                kept.pop()
        kept.append(row)
        last = row
    refused = sum(row["quality"] == "refused" for row in kept)
    return counts_line(**collections.Counter(row["outcome"] for row in kept), refused=refused, retried=retried)


def utc_of(row):
    """The seconds since 1970 of a row."""
    return moment(row["time"]).timestamp()


def outcomes_of(rows):
    """The target, the procedure and the outcome of each row."""
    return [(int(row["target"]), int(row["procedure"]), row["outcome"]) for row in rows]


def expect_each_once(rows, commands, cycles):
    """There is a row for each command of each cycle, in order, and none besides."""
    places = [(int(row["cycle"]), int(row["step"]), int(row["attempt"])) for row in rows]
    assert places == [(cycle, place, 1) for cycle in range(1, cycles + 1) for place in range(commands)], "cycles, places and attempts"


class Processors:
    """The processors of this machine since a moment: what share of them was busy."""

    def __init__(self):
        self.began = self.times()

    @staticmethod
    def times():
        """How long all of them were busy, and how long they were there."""
        times = [int(word) for word in Path("/proc/stat").read_text(encoding="ascii").splitlines()[0].split()[1:9]]
        return sum(times) - times[3] - times[4], sum(times)

    def share(self):
        (busy, total), (busy_before, total_before) = self.times(), self.began
        return (busy - busy_before) / max(1, total - total_before)
