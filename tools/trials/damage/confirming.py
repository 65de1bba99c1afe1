"""Judges the values of a station that measures over a line that alters bytes: which of those that count are false, and by how many lines.

A value counts if its row has the quality `ok` or `warning`. It is false if it is further from the target's place than the tolerance.
Behind it are the damaged lines that ended commands of its chain, of both sendings where it is sent twice, up to its own; and two in a row
that ended something before, if an undamaged reply to another request ended one of them.
"""

import collections
from dataclasses import dataclass, field
from decimal import Decimal

from judging import has_said, settled
from outcomes import REPLIED
from records import GOOD
from surveying import READ

TURN = Decimal("6.283185307179586476925287")


@dataclass
class Values:
    """How many values count, how many are false, which of these have fewer than two damaged lines behind them, and what is wrong."""

    good: int = 0
    false: int = 0
    by_fewer: list = field(default_factory=list)
    faults: list = field(default_factory=list)


def is_beyond(values, target, tolerances):
    """Whether values are further from a target's place than the tolerances."""
    hz, v, distance = (abs(Decimal(value) - true) for value, true in zip(values.split(","), target, strict=True))
    return any(apart > most for apart, most in zip((min(hz % TURN, TURN - hz % TURN), v, distance), tolerances))


def damaged_behind(ends):
    """How many damaged lines are behind the last of these: the numbers of a chain's requests, and what ended them."""
    altered = {end.entry.altered for _, end in ends} - {None}
    is_displaced = any(end.is_behind_two and not end.entry.altered and end.entry.made_on != number for number, end in ends)
    return len(altered) + 2 * is_displaced


def judge_values(rows, log, line, targets, tolerances):
    """The verdict over these rows, of a station that measures targets, by their numbers."""
    verdict, chains = Values(), collections.defaultdict(list)
    for row, number, end in settled(rows, log, line)[0]:
        if row["outcome"] not in REPLIED:
            continue
        if not has_said(row, end):
            verdict.faults.append(f"{row}: ended by {end}")
            continue
        behind = chains[row["cycle"], row["target"], (int(row["attempt"]) + 1) // 2]
        behind.append((number, end))
        if row["procedure"] != READ or row["quality"] not in GOOD:
            continue
        verdict.good += 1
        if is_beyond(row["values"], targets[int(row["target"])], tolerances):
            verdict.false += 1
            if damaged_behind(behind) < 2:
                verdict.by_fewer.append(f"{row}: {[(end.entry.text, end.entry.altered) for _, end in behind]}")
    return verdict
