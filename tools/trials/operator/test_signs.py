"""Signs of life: what a station reports of itself while it measures, on its standard error and on a terminal."""

import os
import pty
import re
import select
import socket
import time
import tty
from contextlib import contextmanager

import pytest

from far_end import GOOD, LOSES, closes, good, loses, standing
from measuring import STAMP, expect_each_once, finished, measuring
from programs import Run, ended, until
from records import counts_line, moment

TWO = b"7 5003\n8 5004\n"
AWAY, AGAIN = f"geocom: no connection since {STAMP}(?:: .+)?", "geocom: connected again"


def expect_signs(messages, signs):
    """The messages are these signs, each once, and in order."""
    assert len(messages) == len(signs) and all(map(re.fullmatch, signs, messages)), f"the messages are {messages}"


def pulls(far, outages):
    """Pulls the line so often, each time while a cycle becomes due."""
    for _ in range(outages):
        time.sleep(0.6)
        far.pull()
        time.sleep(0.8)
        far.plug()
        time.sleep(0.6)


@pytest.mark.title("signs of life, {what}")
@pytest.mark.parametrize("what, words, outages, signs", [
    ("an outage", "", 1, [AWAY, AGAIN]),
    ("three outages within a minute", "", 3, [AWAY, AGAIN]),
    ("--silent", "--silent", 1, []),
])
def test_outages(program, what, words, outages, signs):
    """Of outages within a minute the first is reported, and that there is a connection again."""
    with standing() as far:
        words = f"--every 1 --cycles 8 --settle 100 --deadline 100 --retries 50 {words}"
        with measuring(program, far.port, words, TWO) as run:
            until(lambda: len(far.asked()) == 2, "nothing was asked")
            pulls(far, outages)
            rows, messages = finished(run, patience=15)
        expect_each_once(rows, 2, 8)
        expect_signs([line for line in messages if " was not done when " not in line], signs)


@pytest.mark.title("signs of life, {what}")
@pytest.mark.parametrize("what, answers, has_lost", [
    ("an instrument is off behind a live port", loses, False),
    ("a far end that closes each connection", closes, True),
])
def test_no_answer(program, what, answers, has_lost):
    """Where nothing is answered that is reported within a minute, since the first want of it, whatever becomes of connections; and that it
    is connected again only once something was answered. An instrument is off after a live port for 63 seconds."""
    began = time.time()
    with standing(lambda request: good(request) if time.time() > began + 63 else answers(request)) as far:
        with measuring(program, far.port, "--settle 500 --deadline 1000 --retries always", TWO) as run:
            until(lambda: "no answer since" in run.messages(), "no line within a minute", 61)
            assert time.time() < began + 61, "the line came late"
            assert "connected again" not in run.messages()
            rows, messages = finished(run, patience=90)
    since = [moment(line[-24:]).timestamp() for line in messages if "no answer" in line]
    assert all(began - 0.1 <= one <= began + 2 for one in since), f"{messages} was told, and it began at {began:.3f}"
    kinds = [re.sub(r" since .*", "", line.removeprefix("geocom: ")) for line in messages]
    assert (kinds[-1], kinds.count("connected again")) == ("connected again", 1), f"the last sign, of {messages}"
    assert ("no connection" in kinds) == has_lost, f"whether a connection was missed, of {messages}"


def without_id(request):
    """A far end whose replies have no id, as a program that answers by itself may write them."""
    return b"%%R1P,0:%s\r\n" % GOOD[request.rpc]


def measured_data(_):
    """A far end that sends its measured data in GSI, whatever is asked."""
    return b"*110001+0000000000000007 21.102+0000000012345670\r\n"


@pytest.mark.title("signs of life, bytes that are no reply: {what}")
@pytest.mark.parametrize("what, answers", [("without an id", without_id), ("measured data", measured_data)])
def test_no_reply(program, what, answers):
    """Where bytes arrive, and no reply, their number is in the line on the answer that doesn't come."""
    with standing(answers) as far:
        with measuring(program, far.port, "--deadline 1000 --retries always", TWO) as run:
            until(lambda: "no answer since" in run.messages(), f"no line within a minute, {what}", 61)
            line = next(line for line in run.messages().splitlines() if "no answer" in line)
            found = re.fullmatch(rf"geocom: no answer since {STAMP}: (\d+) bytes arrived, none a reply", line)
            sent = sum(map(len, far.went))
    assert found and 0 < int(found[1]) <= sent, f"{line!r} was told, and {sent} bytes were sent"


@pytest.mark.title("signs of life, no connection")
@pytest.mark.parametrize("where, why", [
    ("/dev/ttyNONE", r"No such file or directory \(os error 2\)"), ("127.0.0.1:1", r"Connection refused \(os error 111\)"),
])
def test_why_no_connection(program, where, why):
    """Where no connection can be made, the line says why, as the system says it."""
    with measuring(program, where, "--retries always", TWO) as run:
        until(lambda: "no connection since" in run.messages(), "no line", 5)
        expect_signs(run.messages().splitlines()[1:2], [f"geocom: no connection since {STAMP}: {why}"])


@pytest.mark.title("signs of life, the start")
def test_start(program):
    """At its start a run says how many commands it has, where, and what it waits for; with --silent it doesn't."""
    with standing() as far:
        for words, count in ([], 1), (["--silent"], 0):
            status, _, messages = ended([program, "station", far.port, "--settle", "100", "--deadline", "100", *words], TWO)
            start = f"geocom: 2 commands for 127.0.0.1:{far.port}: waits until eight null procedures are answered, one after the other"
            assert (status, messages.splitlines().count(start)) == (0, count), f"status and start, of {messages!r}"


def refuses_positions(request):
    """A far end that doesn't find its target."""
    return request.reply(b"8704") if request.rpc == 9027 else good(request)


@pytest.mark.title("signs of life, skipped commands")
def test_skipped(program):
    """The first line of skipped commands has all of the chain, and not the first of them."""
    text = b"7 9027 0.5,1.5,0,1,0\n7 5003\n7 5004\n7 2011\n8 5003\n"
    with standing(refuses_positions) as far, measuring(program, far.port, "--settle 200 --deadline 200", text) as run:
        rows, messages = finished(run)
    assert [row["outcome"] for row in rows] == ["answered", "skipped", "skipped", "skipped", "answered"], "the outcomes"
    expect_signs(messages, [
        f"geocom: commands not answered well since {STAMP}: 1; the last: target 7, 9027: refused 8704",
        f"geocom: commands skipped since {STAMP}: 3",
    ])


@contextmanager
def at_a_terminal(program, far, words, text):
    """A station whose standard error is a terminal, and that terminal's other end."""
    master, slave = pty.openpty()
    tty.setraw(slave)
    words = [program, "station", far.port, *words.split()]
    try:
        with open(master, "rb", buffering=0) as terminal, Run(words, text, shell=f"exec 2>{os.ttyname(slave)}") as run:
            yield run, terminal
    finally:
        os.close(slave)


@pytest.mark.title("signs of life, the columns of a terminal")
def test_columns_of_a_terminal(program):
    """The line of a terminal has 79 columns at most, however much is to be counted."""
    text = b"7 9027 0.5,1.5,0,1,0\n7 5004\n8 5003\n9 5003\n"
    shown = b""
    with standing(lambda request: LOSES if request.rpc == 5003 else refuses_positions(request)) as far:
        with at_a_terminal(program, far, "--every 1 --cycles 12 --settle 300 --deadline 700", text) as (_, terminal):
            end = time.monotonic() + 10
            while select.select([terminal], [], [], max(0, end - time.monotonic()))[0] and time.monotonic() < end:
                shown += terminal.read(4096)
    lines = [line for part in shown.decode().split("\r\x1b[K") for line in part.split("\n") if line.startswith("cycle ")]
    assert any(" lost " in line and " skipped " in line for line in lines), lines
    assert max(map(len, lines)) <= 79


@pytest.mark.title("signs of life, none needed")
def test_none_needed(program):
    """A connection that ends between cycles, and is made again once the next is due, is no sign."""
    with standing() as far:
        with measuring(program, far.port, "--every 1 --cycles 3 --settle 100 --deadline 100", TWO) as run:
            until(lambda: len(far.asked()) == 2, "nothing was asked")
            time.sleep(0.1)
            far.near.shutdown(socket.SHUT_RDWR)
            rows, messages = finished(run, patience=10)
        expect_each_once(rows, 2, 3)
        assert messages == [], "what was told"


@pytest.mark.title("signs of life, {what}")
@pytest.mark.parametrize("what, words, most", [("a terminal", "", 5), ("a terminal, --silent", "--silent", 0)])
def test_terminal(program, what, words, most):
    """On a terminal, and only there, a line is written over, at most once a second; it is gone in the end."""
    shown = b""
    with standing() as far:
        words = f"--every 1 --cycles 4 --settle 100 --deadline 100 {words}"
        with at_a_terminal(program, far, words, TWO) as (run, terminal):
            assert run.status(10) == 0
            while select.select([terminal], [], [], 0.1)[0] and not shown.endswith(b"retried 0\n"):
                shown += terminal.read(4096)
    *lines, last = shown.decode().split("\r\x1b[K")
    assert last == counts_line(answered=8) + "\n", "the last line"
    assert bool(lines) == bool(most)
    if lines:
        start, end, lines[0] = lines[0].partition(" one after the other\n")
        assert start.startswith("geocom: ") and end
    assert all(re.fullmatch(r"cycle \d: answered \d( \(last \d s ago\))?", line) for line in lines), lines
    assert len(lines) <= most, "how many lines were shown in four seconds"
