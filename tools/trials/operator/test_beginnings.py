"""Beginnings of runs and of connections: null procedures, the quiet time, and lines on which no reply comes."""

import time

import pytest

from far_end import CLOSES, LOSES, good, loses, standing
from measuring import finished, measuring

# The ids of a beginning's null procedures.
BEGINNING = [6, 5, 4, 3, 2, 1, 0, 7]


@pytest.mark.title("an answer of three seconds from an earlier run")
def test_earlier_run(program):
    """An answer of three seconds, which an earlier run asked for, goes to no target, and neither does what has its first command's id."""
    busy = []

    def says(_):
        busy.append(time.monotonic() + 6.1)
        return [(3, b"%R1P,0,0:0\r\n"), (6, b"%R1P,0,1:0,111111\r\n")]

    def answers(request):
        time.sleep(max(0.0, busy[0] - time.monotonic()))
        return good(request)

    with standing(answers, says) as far, measuring(program, far.port, "--deadline 4000", b"7 5003\n8 5003\n") as run:
        rows, messages = finished(run, patience=18)
        assert [row["values"] for row in rows] == ["123456", "123456"], "the values"
        assert messages == [], "what was told"


# Words and texts with which a run begins at once.
BEGINNINGS = {
    "the beginning": ("", b"7 5003\n"),
    "the beginning, long times": ("--settle 60000 --deadline 60000", b"deadline 90000\n7 5003\n"),
}


@pytest.mark.title("{what}")
@pytest.mark.parametrize("what", BEGINNINGS)
def test_begins_at_once(program, what):
    """A run begins by eight null procedures, each once the one before it is answered, and one more before its first command; and nothing
    is waited for."""
    words, text = BEGINNINGS[what]
    began = time.monotonic()
    with standing() as far, measuring(program, far.port, words, text) as run:
        rows, messages = finished(run)
        assert [(request.rpc, request.id) for request in far.requests[:10]] == [(0, n) for n in [*BEGINNING, 0]] + [(5003, 1)], "what was asked"
        took = 1000 * (far.commands()[0].moment - began)
        assert took <= 1000, f"the first command came {took:.0f} ms behind the start"
        assert far.came[0][:1] == b"\n", "the first byte"
        assert messages == [], "what was told"
        assert {row["outcome"] for row in rows} == {"answered"}, "the outcomes"


@pytest.mark.title("the beginning, null procedures that aren't answered")
def test_unanswered_null_procedures(program):
    """A null procedure that isn't answered is repeated with its id, at its deadline and on the next connection; what has another id is
    dropped; and a refusal answers it."""
    came = []

    def answers(request):
        came.append(request.id)
        if request.rpc:
            return good(request)
        tries = came.count(request.id)
        if request.id == 4 and tries == 1:
            return LOSES
        if request.id == 3 and tries == 1:
            return CLOSES
        if request.id == 2 and tries == 1:
            return b"%R1P,0,0:0,111111\r\n%R1P,0,7:0\r\n"
        return b"%%R1P,3077,%d:13,5\r\n" % request.id

    with standing(answers) as far, measuring(program, far.port, "--deadline 300 --settle 100", b"7 5003\n") as run:
        rows, _ = finished(run)
        assert came == [6, 5, 4, 4, 3, 3, 2, 2, 1, 0, 7, 0, 1], "the ids"
        assert len(far.came) == 2, "the connections"
        assert [row["values"] for row in rows] == ["123456"], "the values"


@pytest.mark.title("the first null procedure after the beginning isn't answered")
def test_lost_null_procedure(program):
    """The null procedure that follows the beginning is alone on the line, and no command is sent before it, or the one that is sent at its
    deadline with the next id, has its reply."""

    def answers(request):
        return LOSES if len(far.requests) == len(BEGINNING) + 1 else good(request)

    words = "--deadline 300 --unchained --width 3"
    with standing(answers) as far, measuring(program, far.port, words, b"7 5003\n8 5003\n") as run:
        rows, messages = finished(run)
        asked = [(request.rpc, request.id) for request in far.requests[len(BEGINNING) :]]
        assert asked == [(0, 0), (0, 1), (5003, 2), (5003, 3)], "what was asked"
        assert [row["outcome"] for row in rows] == ["answered", "answered"], "the outcomes"
        assert messages == [], "what was told"


@pytest.mark.title("the quiet time, {what}")
@pytest.mark.parametrize("what, words, least", [("without a word", "", 2000), ("shorter than the deadline", "--settle 300", 300)])
def test_quiet_time(program, what, words, least):
    """Within a run a connection is made again after so many milliseconds, and is quiet for as long before a request is sent on it."""
    opened, closed = [], []

    def says(connection):
        opened.append(time.monotonic())
        return [(0.1, b"noise\r\n")] if connection > 1 else []

    def answers(request):
        if request.rpc and not closed:
            closed.append(time.monotonic())
            return CLOSES
        return good(request)

    with standing(answers, says) as far, measuring(program, far.port, f"--deadline 1000 {words}", b"7 5003\n8 5003\n") as run:
        rows, _ = finished(run, patience=10)
        paused = 1000 * (opened[1] - closed[0])
        assert least - 20 <= paused <= least + 500, f"it paused for {paused:.0f} ms, and it should be {least}"
        quiet = 1000 * (far.commands()[1].moment - opened[1]) - 100
        assert least - 20 <= quiet <= least + 500, f"it was quiet for {quiet:.0f} ms, and it should be {least}"
        assert [row["outcome"] for row in rows] == ["lost", "answered"], "the outcomes"


@pytest.mark.title("the beginning, anew{what}")
@pytest.mark.parametrize("what, width", [("", 1), (", width 7", 7)])
def test_begins_anew(program, what, width):
    """Where six requests have timed out they are lost at once, and null procedures are sent on the same connection, without a line feed.
    The reply that settled last, again, keeps the line alive."""

    def answers(request):
        return b"%R1P,0,0:0\r\n" if request.rpc and len(far.commands()) <= 6 else good(request)

    text = b"".join(b"%d 5003\n" % target for target in range(9))
    with standing(answers) as far:
        with measuring(program, far.port, f"--deadline 300 --settle 200 --unchained --width {width}", text) as run:
            rows, messages = finished(run, patience=10)
        assert [row["outcome"] for row in rows] == 6 * ["lost"] + 3 * ["answered"], "the outcomes"
        ids = [request.id for request in far.requests]
        assert ids == BEGINNING + list(range(7)) + BEGINNING + list(range(4)), "the ids"
        assert (len(far.came), far.came[0].count(b"\n")) == (1, 1 + len(ids)), "the connections, and the line feeds"
        assert messages == [], "what was told"


def falls_mute():
    """What answers the null procedures of the beginning and the one after them, and nothing more."""
    came = []

    def answers(request):
        came.append(request)
        return good(request) if len(came) <= len(BEGINNING) + 1 else LOSES

    return answers


@pytest.mark.title("{what}")
@pytest.mark.parametrize("what, answers, words, outcomes", [
    ("a mute line", falls_mute(), "--retries 1 --cycles 2", ["lost", "lost"]),
    ("a mute line from the beginning", loses, "--retries 1", []),
])
def test_mute_line(program, what, answers, words, outcomes):
    """A line on which no reply comes is fault 46, and what was sent is lost."""
    with standing(answers) as far, measuring(program, far.port, f"--deadline 200 --settle 200 {words}", b"7 5003\n8 5004\n") as run:
        rows, messages = finished(run, status=1, patience=15)
        assert messages[-2:] == ["geocom: fault 46", f"geocom: 127.0.0.1:{far.port}: no further reply came"], "the last lines"
        assert [row["outcome"] for row in rows] == outcomes, "the outcomes"
