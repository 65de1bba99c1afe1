"""Stations that measure targets over a line that alters one byte in five hundred, in requests and in replies, whose chains are sent once, or
twice, or twice with a place for each target; at each width from 1 to 6, at instruments that store the last reply and at such that don't."""

import collections
import time
from contextlib import closing
from decimal import Decimal

import pytest

from altering import AlteringLine
from confirming import judge_values
from measuring import finished, measuring
from records import GOOD
from side import Side
from surveying import MEASURE, READ, TURN, Surveying, Target
from test_altered_bytes import ALTERED, SEED, WIDTHS, WORDS

# The directions differ by one digit.
TARGETS = {1: Target(Decimal("0.51234"), Decimal("1.49876"), Decimal("25.125")), 2: Target(Decimal("0.61234"), Decimal("1.49876"), Decimal("31.257"))}
TOLERANCES = Decimal("0.0001"), Decimal("0.0001"), Decimal("0.001")
CHAINS = "".join(f"{n} {TURN} {at.hz},{at.v},0,0,0\n{n} {MEASURE} 1,1\n{n} {READ} 5000,1\n" for n, at in TARGETS.items())
AGREE = f"agree {' '.join(map(str, TOLERANCES))}\n"
NEAR = "".join(f"near {n} {at.hz} {at.v} 0.01 {at.distance} 0.1\n" for n, at in TARGETS.items())
GUARDS = {"neither": "", "agree": AGREE, "agree and near": AGREE + NEAR}
# A chain's commands go one by one, and its last one together with the first one of the next.
MOST, SOON = 2, 0.005


def station(program, width, has_store, guard, cycles, folder):
    """A station over such a line: its verdict, and what is to be noted."""
    log = folder / "log"
    with closing(Surveying(list(TARGETS.values()), min(width, MOST), has_store, SOON)) as instrument:
        line = AlteringLine(instrument.port, ALTERED, SEED + 10 * width + has_store, instrument.heard)
        words, text = f"{WORDS} --width {width} --cycles {cycles} --log {log}", GUARDS[guard] + CHAINS
        with measuring(program, line.port, words, text.encode()) as run:
            rows, _ = finished(run, patience=60 + 2 * cycles, sendings=1 + (guard != "neither"))
        time.sleep(0.5)
        verdict = judge_values(rows, log.read_text(encoding="ascii"), line, TARGETS, TOLERANCES)
        kinds = collections.Counter("ok" if row["quality"] in GOOD else row["quality"] or row["outcome"] for row in rows)
        counts = ", ".join(f"{kind} {count}" for kind, count in sorted(kinds.items()))
        return verdict, (f"{len(rows)} rows: {counts}; {sum(row['sent'] != '' for row in rows)} requests; {verdict.good} values that count, "
                         f"{verdict.false} of them false, {len(verdict.by_fewer)} by fewer than two damaged lines; line: {line.told()}")


@pytest.fixture(scope="module", params=GUARDS)
def guard(request):
    """What the stations' texts have before the chains."""
    return request.param


@pytest.fixture(scope="module")
def measured(request, program, guard, tmp_path_factory):
    """Those of the trials with this guard that were chosen, all of which are running."""
    cycles, given = request.config.option.cycles, (item.callspec.params for item in request.session.items if "measured" in item.fixturenames)
    chosen = [(params["width"], params["has_store"]) for params in given if params["guard"] == guard]
    started = {each: Side(station, program, *each, guard, cycles, tmp_path_factory.mktemp("station")) for each in chosen}
    yield started
    for side in started.values():
        side.stop()


@pytest.mark.title("values measured over one byte in five hundred altered, {guard}, width {width}, store {has_store}")
@pytest.mark.parametrize("has_store", [False, True])
@pytest.mark.parametrize("width", WIDTHS)
def test_confirmed_values(measured, width, has_store, guard, note):
    """Of chains that are sent twice, each false value that counts has two damaged lines behind it."""
    verdict, said = measured[width, has_store].result()
    note(said)
    assert not verdict.faults, "\n".join(verdict.faults[:10])
    assert verdict.good, "nothing was measured"
    if GUARDS[guard]:
        assert not verdict.by_fewer, "\n".join(verdict.by_fewer[:10])
