"""Stations of 500 cycles of a second over lines that are down for many periods, again and again: each row is there in time, measured from
outside. All of them run side by side."""

import itertools
import time
from contextlib import closing

import pytest

from due import Arrivals, bound, latest, missing
from measuring import finished, measuring
from night import COMMANDS, DEADLINE, SETUP, Night, text
from nightly import counted, faults_of_answers, faults_of_run
from side import Side

SEED = 61
CYCLES = 500
WORDS = f"--deadline {DEADLINE} --settle 300 --every 1 --retries always"
PLAIN = "\n".join(f"{target} 2108 5000,1\n{target} raw 2167 5000,1" for target in (1, 2, 3)).encode() + b"\n"
# What a row may come later for: readings of the clock, and a machine that is busy.
SLACK = 1
# For two to twenty periods no connection can be made, or one is made and nothing comes over it; then both, with all else.
DOWN = {
    "refused": b"delay 0 20\nclose 0.4\nrefuse 100 12000\n",
    "silent": b"delay 0 20\nhold 0.25 12000\n",
    "flapping": b"delay 0 20\nclose 3\nrefuse 50 2500\nrestart 0.1\n",
    "all": b"delay 0 40\nlose 3\nrepeat 1\nlate 1 450 900\nhold 0.1 20000\nclose 0.2\nrefuse 70 15000\nkeep 50 0 300\nrestart 0.05\npieces 20 30\n",
}


def station(program, name, has_setup):
    """A station over such a line: what is wrong, how late its latest row came, as a share of the bound, and what is to be noted."""
    commands, words, count = (text(), f"{WORDS} --width 3", len(COMMANDS)) if has_setup else (PLAIN, WORDS, PLAIN.count(b"\n"))
    most = bound(1, DEADLINE / 1000, setup=len(SETUP) if has_setup else 0, call=SLACK)
    with closing(Night(SEED, DOWN[name])) as night:
        with measuring(program, night.line.near.address[1], f"{words} --cycles {CYCLES}", commands) as run, Arrivals(run.output_path()) as came:
            rows, _ = finished(run, patience=3 * CYCLES)
            time.sleep(1)
        faults = [*faults_of_run(rows, night), *faults_of_answers(rows, night)] if has_setup else []
        told = night.said()
    faults += [f"cycle {cycle} isn't whole" for cycle in missing(rows, count, CYCLES)]
    late, row = latest(rows, came.moments, 1)
    rest = max(after - before for before, after in itertools.pairwise(came.moments))
    return faults, late / most, (f"{counted(rows)}; the latest row, {row['outcome']}, came {late:.2f} s after its cycle was due, of {most:.1f} s; "
                                 f"no row for {rest:.1f} s at most; {told}")


@pytest.fixture(scope="module")
def stations(request, program):
    """Those of the trials that were chosen, all of which are running."""
    chosen = [(item.callspec.params["name"], item.callspec.params["has_setup"]) for item in request.session.items if "stations" in item.fixturenames]
    started = {each: Side(station, program, *each) for each in chosen}
    yield started
    for side in started.values():
        side.stop()


@pytest.mark.title("500 cycles of a second, {name}, setup {has_setup}")
@pytest.mark.parametrize("name", DOWN)
@pytest.mark.parametrize("has_setup", [True, False])
def test_outages(stations, note, name, has_setup):
    """Each command of each cycle has its row within BOUND."""
    faults, share, said = stations[name, has_setup].result()
    note(said)
    assert not faults, "\n".join(faults[:10])
    assert share <= 1, "a row came late"
