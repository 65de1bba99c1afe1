"""Lines that are down for four hours, rehearsed: every 300 s, with deadlines up to 10 s, each row is there 630 s after its cycle was due, a
deadline more for each command of a setup."""

import csv
import itertools
from dataclasses import dataclass

import pytest

from due import bound, due_by, first_due, missing
from programs import ended
from records import is_of_setup, moment

EVERY, LONGEST, CYCLES, HOURS = 300, 10, 60, 4
# What a call takes at most: an opening and its line feed.
CALL = 20
PROCEDURES = ["9027 0.5,1.5,0,0,0", "2008 1,1", "2108 5000,1", "2107 1", "2026", "5003"]
CHAINS = "".join(f"{target} {procedure}\n" for target in (1, 2, 3) for procedure in PROCEDURES)
COMMANDS = CHAINS.count("\n")
# The scene has no distance for it.
REFUSED = "at start\n9 2117\neach cycle\n"
SCENE = "target 0.5 1.5 25.125\n"
DELAY = "delay 50 200\n"
FOUR_HOURS = HOURS * 3_600_000
# How the moment ends at which a night begins.
NIGHT = "T20:00:00.000Z"


@dataclass
class Down:
    """A line, the setup before it, the cycles of an outage at least, and what the rows of one end as."""

    line: str
    setup: str = ""
    least: int = HOURS * 3600 // EVERY - 2
    outcomes: frozenset = frozenset({"lost", "skipped", "missed"})


LINES = {
    "no connection can be made, from the start": Down("close 100\nrefuse 100 86400000\n"),
    "no connection can be made, later": Down(f"{DELAY}close 0.5\nrefuse 100 {FOUR_HOURS}\n"),
    "all is lost, from the start": Down("lose 100\n"),
    "a connection is made, silent, later": Down(f"{DELAY}hold 0.3 {FOUR_HOURS}\n"),
    "each reply is 15 s late": Down("delay 7500 7500\n", outcomes=frozenset({"late", "skipped", "missed"})),
    "each reply is just before its deadline": Down("delay 4900 4900\n", least=0),
    "the setup is refused": Down(DELAY, setup=REFUSED),
    "the setup is refused, over a line that is down": Down(f"{DELAY}close 10\nrefuse 100 {FOUR_HOURS}\n", setup=REFUSED),
}


def rehearsed(program, folder, down, nights, *more):
    """The runs of some nights, each as its rows."""
    (folder / "line").write_text(down.line + "".join(more))
    (folder / "scene").write_text(SCENE)
    words = f"--every {EVERY} --deadline {LONGEST}000 --cycles {CYCLES} --nights {nights} --retries always --seed 1 --csv"
    words = [program, "rehearse", *words.split(), "--line", folder / "line", "--scene", folder / "scene"]
    found = ended(words, (down.setup + CHAINS).encode(), patience=300)
    assert found.status == 0, found.messages
    rows = list(csv.DictReader(found.output.decode().splitlines()))
    return [list(some) for _, some in itertools.groupby(rows, key=lambda row: row["run"])]


def late_rows(rows, most):
    """The rows of a run that ended more than so many seconds after their cycle was due. A missed row says when that was instead."""
    first = first_due(rows, EVERY)
    return [row for row in rows if not is_of_setup(row) and row["outcome"] != "missed" and
            moment(row["time"]).timestamp() > first + (int(row["cycle"]) - 1) * EVERY + most]


def longest_outage(rows):
    """How many cycles in a row have no command that was answered, and the outcomes of their rows."""
    cycles = [list(some) for _, some in itertools.groupby((row for row in rows if not is_of_setup(row)), key=lambda row: row["cycle"])]
    outages = [sum(some, []) for is_out, some in itertools.groupby(cycles, key=lambda some: all(row["outcome"] != "answered" for row in some)) if is_out]
    rows = max(outages, key=len, default=[])
    return len(rows) // COMMANDS, {row["outcome"] for row in rows}


@pytest.mark.title("four hours: {name}")
@pytest.mark.parametrize("name", LINES)
def test_four_hours(program, folder, note, name):
    """Each cycle has a row of each command in time, over four hours, also where the run is killed meanwhile."""
    down = LINES[name]
    most = bound(EVERY, LONGEST, setup=bool(down.setup), call=CALL)
    runs = rehearsed(program, folder, down, 2)
    assert len(runs) == 2
    for rows in runs:
        assert not missing(rows, COMMANDS, CYCLES)
        assert not late_rows(rows, most)
    cycles, outcomes = max(map(longest_outage, runs), key=lambda each: each[0])
    assert cycles >= down.least and (outcomes <= down.outcomes or not down.least), (cycles, outcomes)
    # A kill ends a run at any act, and the next run begins at that moment.
    runs = rehearsed(program, folder, down, 6, "kill 1\n")
    killed = [(rows, moment(after[0]["run"]).timestamp()) for rows, after in itertools.pairwise(runs) if not after[0]["run"].endswith(NIGHT)]
    for rows, end in killed:
        assert not late_rows(rows, most)
        due = due_by(rows, EVERY, end - most) if any(not is_of_setup(row) for row in rows) else 0
        assert not missing(rows, COMMANDS, min(CYCLES, due)), rows[-1]
        assert due or end <= moment(rows[0]["run"]).timestamp() + EVERY + most
    assert killed, "no run was killed"
    note(f"{cycles} cycles in a row without an answer; {len(killed)} runs killed")
