"""Stations over a line that alters one byte in five hundred, in requests and in replies, at each width from 1 to 6, at instruments that store
the last reply and at such that don't. All of them run side by side."""

import time
from contextlib import closing

import pytest

from altering import AlteringLine
from counting import Counting
from judging import judge
from measuring import counts_of, finished, measuring
from side import Side

ALTERED = b"alter 0.2\n"
WIDTHS, COMMANDS, SEED = range(1, 7), 8, 71
TEXT = b"unchained\n" + b"".join(b"%d 5003\n" % target for target in range(1, COMMANDS + 1))
WORDS = "--deadline 250 --settle 100 --retries always"


def station(program, width, has_store, cycles, folder):
    """A station over such a line: its verdict, and what is to be noted."""
    log = folder / "log"
    with closing(Counting(width, has_store)) as instrument:
        line = AlteringLine(instrument.port, ALTERED, SEED + 10 * width + has_store, instrument.heard)
        with measuring(program, line.port, f"{WORDS} --width {width} --cycles {cycles} --log {log}", TEXT) as run:
            rows, _ = finished(run, patience=60 + 2 * cycles)
        time.sleep(0.5)
        verdict = judge(rows, log.read_text(encoding="ascii"), line, instrument)
        return verdict, (f"{len(rows)} rows; {counts_of(rows)}; {sum(verdict.false.values())} false by {verdict.damaged} damaged lines that "
                         f"ended anything, {verdict.displaced} more behind two in a row; line: {line.told()}")


@pytest.fixture(scope="module")
def stations(request, program, tmp_path_factory):
    """Those of the trials that were chosen, all of which are running."""
    cycles = request.config.option.cycles
    chosen = [(item.callspec.params["width"], item.callspec.params["has_store"]) for item in request.session.items if "stations" in item.fixturenames]
    started = {each: Side(station, program, *each, cycles, tmp_path_factory.mktemp("station")) for each in chosen}
    yield started
    for side in started.values():
        side.stop()


@pytest.mark.title("one byte in five hundred altered, width {width}, store {has_store}")
@pytest.mark.parametrize("has_store", [False, True])
@pytest.mark.parametrize("width", WIDTHS)
def test_altered_bytes(stations, width, has_store, note):
    """Each false row is by a damaged line, one at most for each, or follows two damaged lines in a row."""
    verdict, said = stations[width, has_store].result()
    note(said)
    assert not verdict.faults, "\n".join(verdict.faults[:10])
    assert verdict.false, "nothing was shown"
