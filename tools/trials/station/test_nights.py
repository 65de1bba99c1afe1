"""Nights at a real site: set-up, warnings, retries, procedures that aren't in the table and `near`, over a bad line, with prisms that vanish
for a while; and a machine that is restarted at random moments."""

import csv
import itertools
import random
import time
from contextlib import closing

import pytest

from due import Arrivals, bound, latest
from measuring import finished, measuring
from night import CHAIN, COMMANDS, DEADLINE, SETUP, Night, text
from nightly import counted, faults_of_answers, faults_of_cycles, faults_of_run, is_well
from programs import Run, until

SEED = 53
CYCLES = 500
STARTS = 60
# The places at which a chain, or a command by itself, ends.
ENDS = [n for n in range(len(COMMANDS)) if n % len(CHAIN) == len(CHAIN) - 1 or n == len(COMMANDS) - 1]
WORDS = "--deadline 400 --settle 300 --every 1 --retries always --width 3"
# How late a row may be, in seconds: with the readings of the clock, and what a machine that is busy adds.
BOUND = bound(every=1, longest=DEADLINE / 1000, setup=len(SETUP), call=1)


@pytest.mark.title("a night of {cycles} cycles")
@pytest.mark.parametrize("cycles", [CYCLES])
def test_night(program, note, cycles):
    """Every chain has its attempts, no row is false, the counts are those of the rows, and each row comes in time."""
    with closing(Night(SEED)) as night:
        with measuring(program, night.line.near.address[1], f"{WORDS} --cycles {cycles}", text()) as run, Arrivals(run.output_path()) as came:
            rows, _ = finished(run, patience=20 * cycles)
            time.sleep(1)
        faults = [*faults_of_run(rows, night), *faults_of_answers(rows, night)]
    late, row = latest(rows, came.moments, 1)
    note(f"{counted(rows)}; the latest row {late:.2f} s after its cycle was due, of {BOUND:.1f} s; {night.said()}")
    assert not faults, "\n".join(faults[:10])
    assert int(rows[-1]["cycle"]) == cycles, "the cycles"
    assert late <= BOUND, f"{row} came {late:.2f} s after its cycle was due"


@pytest.mark.title("twenty stops in a night")
def test_stops(program, note, tmp_path):
    """A run with a set-up and retries that is stopped by a file has each row, and no chain of it is cut."""
    count = 0
    with closing(Night(SEED + 1)) as night:
        for n in range(20):
            path = tmp_path / f"stop{n}"
            began = len(night.line.asked)
            with measuring(program, night.line.near.address[1], f"{WORDS} --cycles unlimited --until {path}", text()) as run:
                until(lambda: len(night.line.asked) > began + 9, "nothing went out", 60)
                time.sleep(random.Random(n).uniform(0, 4))
                path.touch()
                rows, _ = finished(run, patience=20)
            faults = [*whole_chains(rows), *faults_of_answers(rows, night)]
            assert not faults, "\n".join(faults[:10])
            count += len(rows)
    note(f"{count} rows of 20 runs; {night.said()}")


def whole_chains(rows):
    """What is wrong with the rows of a run that was stopped: its last cycle may lack chains and further attempts, and a chain's rest only
    after a command that wasn't answered well."""
    *before, last = [list(some) for _, some in itertools.groupby((row for row in rows if row["cycle"] != "0"), key=lambda row: row["cycle"])] or [[]]
    # What follows the last of them isn't known to be missed, so that one may be abandoned.
    yield from faults_of_cycles(before)
    if last and is_well(last[-1]) and int(last[-1]["step"]) not in ENDS:
        yield f"a chain was cut behind {last[-1]}"


@pytest.mark.title("a machine that starts anew {starts} times")
@pytest.mark.parametrize("starts", [STARTS])
def test_starts(program, note, tmp_path, starts):
    """Runs that are killed at any moment, each begun again at once over the same file of rows: it goes on by itself."""
    path, stop, chance = tmp_path / "rows.csv", tmp_path / "stop", random.Random(SEED)
    words = f"{WORDS} --cycles unlimited --stale 600 --append {path} --fsync --until {stop}"
    with closing(Night(SEED + 2)) as night:
        for _ in range(starts):
            with station(program, night, words) as run:
                assert not run.ends_within(chance.choice([0.1, 1, 3, 8]) * chance.random()), run.messages()
        with station(program, night, words) as run:
            time.sleep(5)
            stop.touch()
            assert run.status(20) == 0, run.messages()
        rows = list(csv.DictReader(path.read_text(encoding="ascii").splitlines()))
        faults = list(faults_of_answers(rows, night))
        for _, some in itertools.groupby(rows, key=lambda row: row["run"]):
            faults += [fault for fault in faults_of_run(list(some), night) if " has [" not in fault and " ends with [" not in fault]
    measured = {row["run"] for row in rows if row["quality"] == "ok" and row["cycle"] != "0"}
    note(f"{starts} kills, {len({row['run'] for row in rows})} runs with rows, {len(measured)} of which measured; {counted(rows)}; {night.said()}")
    assert not faults, "\n".join(faults[:10])
    assert rows[-1]["run"] in measured, "the last run measures"


def station(program, night, words):
    """A running station, whose rows go to a file."""
    return Run([program, "station", night.line.near.address[1], *words.split()], text())
