"""Values of files: what is sent of them, and that nothing is sent where a file is too old, is ahead of the clock, or has no number."""

import os
import re
import time

import pytest

from far_end import LOSES, good, standing
from measuring import STAMP, finished, measuring, outcomes_of
from programs import until

SHORT = "--deadline 300 --settle 150"
# What a file has, how many seconds ago it was written, and what is sent of it; None: nothing.
KEPT = [
    (b"1013.25\n", 0, b"1013.25"),
    (b"-5\n", 0, b"-5.0"),
    (b"1e3\r\n", 0, b"1000.0"),
    (b"1013.250\n", 30, b"1013.25"),
    (b"1013.25\n", 90, None),
    (b"1013.25\n", -90, None),
    (b"1013.25", 0, None),
    (b"1013.25\n1\n", 0, None),
    (b"1013.25 \n", 0, None),
    (b"\n", 0, None),
    (b"", 0, None),
    (b"ten\n", 0, None),
    (b"0" * 70 + b"1\n", 0, None),
    (b"99999999999999\n", 0, None),
]
TEXT = "procedure 2028 pressure_mbar Double ->\n0 2028 {%s 60}\n0 0\n7 2011\n"


def answering(request):
    """What answers: any other procedure is a call of the table."""
    return request.reply(b"0") if request.rpc == 2028 else good(request)


def asked(program, path):
    """The parameters of 2028 that were sent, and the rows."""
    with standing(answering) as far, measuring(program, far.port, SHORT, (TEXT % path).encode()) as run:
        rows, _ = finished(run)
        return [request.params for request in far.commands() if request.rpc == 2028], rows


@pytest.mark.title("values of files")
def test_kept(program, tmp_path):
    """Each file is sent as its number, or its chain isn't sent; the next chain is."""
    path = tmp_path / "pressure"
    for kept, age, sent in KEPT:
        path.write_bytes(kept)
        then = time.time() - age
        os.utime(path, (then, then))
        params, rows = asked(program, path)
        assert params == ([sent] if sent else []), (kept, age)
        ends = ["answered", "answered", "answered"] if sent else ["no_value", "skipped", "answered"]
        assert outcomes_of(rows) == list(zip((0, 0, 7), (2028, 0, 2011), ends)), (kept, age)
        assert rows[0]["request"] == (f"%R1Q,2028,1:{sent.decode()}" if sent else ""), (kept, age)


@pytest.mark.title("values of files that can't be read")
def test_unreadable(program, tmp_path):
    """No file, a folder, and a pipe, whose opening would wait, are no values."""
    os.mkfifo(tmp_path / "pipe")
    for path in (tmp_path / "none", tmp_path, tmp_path / "pipe"):
        params, rows = asked(program, path)
        assert params == [] and rows[0]["outcome"] == "no_value", path


@pytest.mark.title("values of files, each cycle anew")
def test_each_cycle(program, tmp_path):
    """A number that is renamed into place between two cycles is sent in the second."""
    path = tmp_path / "pressure"
    path.write_bytes(b"1.5\n")
    changes = iter([b"2.5\n", b"3.5\n", b"4.5\n"])

    def changing(request):
        if request.rpc == 2028:
            (tmp_path / "new").write_bytes(next(changes))
            os.replace(tmp_path / "new", path)
        return answering(request)

    words = f"{SHORT} --every 1 --cycles 3"
    with standing(changing) as far, measuring(program, far.port, words, (TEXT % path).encode()) as run:
        rows, _ = finished(run)
        params = [request.params for request in far.commands() if request.rpc == 2028]
    assert params == [b"1.5", b"2.5", b"3.5"] and all(row["outcome"] == "answered" for row in rows)


@pytest.mark.title("values of files, and which has none")
def test_which(program, tmp_path):
    """The line on a command that wasn't sent for want of a value has the items of the text that stand for files."""
    (tmp_path / "dry").write_bytes(b"12.5\n")
    items = f"{{{tmp_path / 'pressure'} 60}},{{{tmp_path / 'dry'} 3600}}"
    text = f"procedure 2028 wavelength Double pressure_mbar Double dry_c Double ->\n7 2028 0.5,{items}\n"
    with standing(answering) as far, measuring(program, far.port, SHORT, text.encode()) as run:
        _, messages = finished(run)
    line = rf"geocom: commands not answered well since {STAMP}: 1; the last: target 7, 2028: no value of {re.escape(items)}"
    assert len(messages) == 1 and re.fullmatch(line, messages[0]), messages


@pytest.mark.title("values of files, and no answer: {what}")
@pytest.mark.parametrize("what, last, told", [
    ("nothing is asked", "", False), ("what another chain asks is lost", "8 5003\n", True),
])
def test_nothing_asked(program, tmp_path, what, last, told):
    """Where each chain begins with a command that has no value nothing is asked, so that no answer is missing for more than a minute. One
    is where another chain's command is lost, also at an instrument that answers null procedures."""
    item = f"{{{tmp_path / 'none'} 60}}"
    text = f"procedure 2028 pressure_mbar Double ->\n0 2028 {item}\n0 2011\n7 2028 {item}\n{last}"
    with standing(lambda request: LOSES if request.rpc else good(request)) as far:
        with measuring(program, far.port, f"{SHORT} --every 2 --cycles 40 --retries always", text.encode()) as run:
            if told:
                until(lambda: "no answer since" in run.messages(), f"no line within a minute, {what}", 64)
            else:
                time.sleep(64)
            messages = run.messages()
    assert ("no answer since" in messages) == told, messages
    assert {request.rpc for request in far.commands()} <= {0, 5003}, what
