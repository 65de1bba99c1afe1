"""Ends that are chosen: a file by which somebody stops a run, and a run that has had no good answer for too long."""

import random
import re
import time

import pytest

from far_end import LOSES, good, standing
from measuring import STAMP, finished, measuring
from programs import until
from records import moment

# Two chains, and a command by itself.
CHAINS = b"chained\n7 9027 1,1,0,0,0\n7 2107 5000\n8 9027 2,1,0,0,0\n8 2107 5000\n9 5003\n"
# The places at which a chain begins.
HEADS = (0, 2, 4)
WELL = "answered"


def slow(request):
    """Each request is answered well, some milliseconds later."""
    time.sleep(random.uniform(0, 0.02))
    return good(request)


def expect_whole(far, rows):
    """Each command that went out has its row, in order, and the rows end where a chain does."""
    places = [(int(row["cycle"]), int(row["step"])) for row in rows]
    assert places == [(n // 5 + 1, n % 5) for n in range(len(rows))], "cycles and places"
    assert len(far.commands()) == len(rows), f"{len(far.commands())} commands went out, and {len(rows)} have rows"
    assert len(rows) % 5 in HEADS, f"a chain was cut behind {len(rows)} commands"
    assert {row["outcome"] for row in rows} <= {WELL}, "the outcomes"


@pytest.mark.title("twenty stops by --until")
def test_stops(program, note, tmp_path):
    """A file ends a run with status 0, between two chains, and no row is lost."""
    count, longest = 0, 0.0
    for n in range(20):
        path = tmp_path / f"stop{n}"
        with standing(slow) as far:
            words = f"--cycles unlimited --settle 100 --deadline 2000 --until {path}"
            with measuring(program, far.port, words, CHAINS) as run:
                until(lambda: far.commands(), "no command went out")
                time.sleep(random.uniform(0, 0.5))
                path.touch()
                began = time.monotonic()
                rows, messages = finished(run)
                longest = max(longest, time.monotonic() - began)
            assert messages == [], f"{messages} was told"
            expect_whole(far, rows)
            count += len(rows)
    note(f"{count} rows of 20 runs; the longest stop took {longest:.2f} s")
    assert longest < 2, "how long a stop took"


@pytest.mark.title("--until in a wait between cycles")
def test_stops_in_a_wait(program, tmp_path):
    """Within a second of the file a run ends that waits for its next cycle; so does one that has no connection."""
    for plugged in True, False:
        path = tmp_path / f"stop{plugged}"
        with standing() as far:
            with measuring(program, far.port, f"--every 60 --cycles unlimited --retries always --settle 60000 --until {path}", CHAINS) as run:
                until(lambda: len(far.commands()) == 5, "the first cycle")
                if not plugged:
                    far.pull()
                time.sleep(0.3)
                path.touch()
                began = time.monotonic()
                rows, _ = finished(run)
                assert time.monotonic() - began < 2, "how long the stop took"
            expect_whole(far, rows)


@pytest.mark.title("--until beside a log")
def test_stops_beside_a_log(program, tmp_path):
    """A run that writes a log looks for the file, too."""
    path = tmp_path / "stop"
    with standing() as far:
        words = f"--every 60 --cycles unlimited --retries always --settle 100 --deadline 100 --log {tmp_path / 'log'} --until {path}"
        with measuring(program, far.port, words, CHAINS) as run:
            until(lambda: len(far.commands()) == 5, "the first cycle")
            path.touch()
            rows, messages = finished(run)
    assert (len(rows), messages) == (5, [])


@pytest.mark.title("--until, and a reply that never comes")
def test_stops_at_a_deadline(program, tmp_path):
    """What is in flight is waited for until its deadline, and is lost then; its chain's rest is skipped."""
    path = tmp_path / "stop"

    def answers(request):
        return LOSES if request.rpc == 9027 else good(request)

    with standing(answers) as far:
        with measuring(program, far.port, f"--cycles unlimited --deadline 1500 --until {path}", CHAINS) as run:
            until(lambda: far.commands(), "no command went out")
            path.touch()
            rows, _ = finished(run)
    places = [(int(row["cycle"]), int(row["step"])) for row in rows]
    assert places == [(1, n) for n in range(len(rows))], "cycles and places"
    assert {row["outcome"] for row in rows} <= {"lost", "skipped"} and len(rows) in (1, 2), f"the rows are {rows}"


@pytest.mark.title("--stale over an instrument that refuses all")
def test_stale(program):
    """A run ends where nothing is answered well, though each request is answered; a line says of which command, and since when."""
    with standing(lambda request: good(request) if request.rpc == 0 else request.reply(b"8710")) as far:
        began = time.time()
        with measuring(program, far.port, "--cycles unlimited --every 1 --retries always --stale 3", b"7 5003\n8 5003\n") as run:
            rows, messages = finished(run, status=1)
        lasted = time.time() - began
    assert messages[-1] == "geocom: fault 48", f"{messages} was told"
    assert re.fullmatch(f"geocom: target 7, 5003: no answer with quality ok or warning since {STAMP}", messages[-2]), f"{messages} was told"
    assert abs(moment(messages[-2][-24:]).timestamp() - began) < 1, "since when"
    assert 2.9 < lasted < 4.5, f"it lasted {lasted:.2f} s"
    assert rows and {row["quality"] for row in rows} == {"refused"}, "the qualities"


@pytest.mark.title("--stale counts from the last good answer")
def test_stale_behind_answers(program):
    """It counts from the last good answer, also over a line that is silent then."""

    def answers(request):
        return good(request) if request.rpc == 0 or len(far.commands()) <= 2 else LOSES

    with standing(answers) as far:
        with measuring(program, far.port, "--cycles unlimited --every 1 --deadline 500 --retries always --stale 2 --silent", b"7 5003\n") as run:
            rows, messages = finished(run, status=1)
    assert messages[-1] == "geocom: fault 48", f"{messages} was told"
    good_rows = [row for row in rows if row["quality"] == "ok"]
    assert good_rows and messages[-2][-24:] == good_rows[-1]["time"], f"{messages} was told, and the rows are {rows}"


@pytest.mark.title("--stale below --every")
def test_stale_below_every(program):
    """The words are refused."""
    with measuring(program, 4001, "--every 60 --stale 59", b"7 5003\n") as run:
        assert run.status() == 2 and "--stale is below --every" in run.messages(), run.messages()
