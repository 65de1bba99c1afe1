"""What each word of a bad line does, seen at both ends: the far end is a trial's own."""

import select
import socket
import time

import pytest

from far_end import LOSES, good, standing
from line_ends import Far, Listening
from line_notes import Notes
from line_relay import Relay
from line_text import text_of
from lining import Caller, lining

FIRST, SECOND = b"%R1P,0,1:0,123456\r\n", b"%R1P,0,2:0,1.65\r\n"


def asked(folder, text, *words):
    """What a client hears that asks twice, what the far end was asked, and how long it took, in seconds."""
    with standing() as far, lining(folder, text, far.port, *words) as (port, _), Caller(port) as caller:
        began = time.monotonic()
        caller.say(5003, 1)
        caller.say(2011, 2)
        lines = caller.lines(0.4)
        return lines, far.asked(), time.monotonic() - began - 0.4


@pytest.mark.title("what a client hears: {number}, {words}")
@pytest.mark.parametrize("number, words, text, lines, requests", [(n, one[0].replace("\n", " and "), *one) for n, one in enumerate([
    ("", [FIRST, SECOND], [5003, 2011]),
    ("up 1 lose", [SECOND], [2011]),
    ("down 1 lose", [SECOND], [5003, 2011]),
    ("lose 100", [], []),
    ("down lose 100", [], [5003, 2011]),
    ("up 2 repeat", [FIRST, SECOND, SECOND], [5003, 2011, 2011]),
    ("down 1 repeat", [FIRST, FIRST, SECOND], [5003, 2011]),
    ("up 1 behead 4", [SECOND], [2011]),
    ("down 1 behead 4", [FIRST[4:], SECOND], [5003, 2011]),
    ("up 1 echo", [b"%R1Q,5003,1:\r\n", FIRST, SECOND], [5003, 2011]),
    ("up 1 pieces 1\ndown 2 pieces 7", [FIRST, SECOND], [5003, 2011]),
    ("pieces 100 3", [FIRST, SECOND], [5003, 2011]),
    ("down 1 alter 8=32", [b"%R1P,0,2:0,123456\r\n", SECOND], [5003, 2011]),
    ("down 1 alter 8=32\ndown 1 repeat", [b"%R1P,0,2:0,123456\r\n"] * 2 + [SECOND], [5003, 2011]),
    ("down 1 alter 18-,19-", [FIRST[:-2] + SECOND], [5003, 2011]),
    ("down 1 alter 9+0a\ndown 1 pieces 1", [b"%R1P,0,1\n", b":0,123456\r\n", SECOND], [5003, 2011]),
    ("up 1 alter 11=32", [b"%R1P,0,2:0,123456\r\n", SECOND], [5003, 2011]),
    ("up 1 alter 14-", [], []),
    ("up 1 alter 1-\nup 1 echo", [b"%R1Q,5003,1:\r\n", SECOND], [2011]),
    ("down 1 alter " + ",".join(f"{at}-" for at in range(1, 20)), [SECOND], [5003, 2011]),
    ("down 1 alter 1-\ndown 1 lose", [SECOND], [5003, 2011]),
    ("up 1 repeat\nup 1 lose", [SECOND], [2011]),
], 1)])
def test_lines(folder, number, words, text, lines, requests):
    assert asked(folder, text)[:2] == (lines, requests), f"{number}: {words}"


@pytest.mark.title("{text}, {least} ms")
@pytest.mark.parametrize("text, least", [("up 1 delay 300", 300), ("delay 150 150", 300), ("down 2 hold 300", 300), ("up hold 100 300", 300)])
def test_waits(folder, text, least):
    """A line that waits keeps those after it waiting, and none is lost."""
    lines, requests, seconds = asked(folder, text)
    assert (lines, requests) == ([FIRST, SECOND], [5003, 2011])
    assert least / 1000 - 0.02 <= seconds < least / 1000 + 0.5


@pytest.mark.title("closes: {text}")
@pytest.mark.parametrize("text, comes", [
    ("down 1 close", []), ("down 1 reset", []), ("down 1 cut 5", [FIRST[:5]]), ("up 1 close", []), ("idle 300", [FIRST]),
])
def test_closes(folder, text, comes):
    """The connection ends; a next one is made, and has none of what was in flight."""
    with standing() as far, lining(folder, text, far.port, "--seed", 1) as (port, run):
        with Caller(port) as caller:
            caller.say(5003, 1)
            heard = []
            while (line := caller.line()) is not None:
                assert line, "the connection doesn't end"
                heard.append(line)
            assert heard + [caller.rest] * bool(caller.rest) == comes
        with Caller(port) as caller:
            caller.say(2011, 2)
            assert caller.lines()[:1] == [SECOND]
        assert len(far.came) == 1, "the instrument's connection lives on"
        assert run.is_running()


@pytest.mark.title("keep: what was under way comes on the next connection, in order")
def test_keeps(folder):
    text = "up 2 delay 900\nup 2 keep 200\nup 3 keep 0\ndown 1 delay 300\ndown 1 close\ndown 1 keep 0\nup 4 lose"
    with standing() as far, lining(folder, text, far.port) as (port, _):
        with Caller(port) as caller:
            caller.say(5003, 1)
            caller.say(2011, 2)
            caller.say(2011, 3)
            caller.say(2011, 4)
            assert caller.is_over()
        assert far.asked() == [5003]
        began = time.monotonic()
        with Caller(port) as caller:
            caller.say(2011, 5)
            lines = caller.lines()
            seconds = time.monotonic() - began - 0.3
        assert lines == [FIRST] + [b"%%R1P,0,%d:0,1.65\r\n" % number for number in (2, 3, 5)]
        assert 0.18 < seconds < 0.6, "200 ms behind the begin"
        assert far.asked() == [5003, 2011, 2011, 2011]


@pytest.mark.title("refuse: nobody connects for so long")
def test_refuses(folder):
    with standing() as far, lining(folder, "down 1 close\ndown 1 refuse 600", far.port) as (port, _):
        with Caller(port) as caller:
            caller.say(5003, 1)
            assert caller.is_over()
        time.sleep(0.1)
        with pytest.raises(ConnectionRefusedError):
            socket.create_connection(("127.0.0.1", port))
        began = time.monotonic()
        with Caller(port) as caller:
            assert 0.2 < time.monotonic() - began < 1
            caller.say(2011, 2)
            assert caller.line() == SECOND


@pytest.mark.title("restart: the instrument has a new connection, the client keeps its own")
def test_restarts(folder):
    with standing() as far, lining(folder, "up 2 restart", far.port) as (port, _), Caller(port) as caller:
        caller.say(5003, 1)
        assert caller.line() == FIRST
        caller.say(2011, 2)
        assert caller.line() == SECOND
        assert [request.connection for request in far.requests] == [1, 2]


@pytest.mark.title("restart: replies that came together go on, all of them")
def test_restarts_behind_replies(folder):
    """The far end answers two requests in one piece; the first reply has the instrument restart."""
    kept = []

    def answers(request):
        kept.append(good(request))
        return b"".join(kept) if len(kept) % 2 == 0 else LOSES

    with standing(answers) as far, lining(folder, "down 1 restart", far.port) as (port, _), Caller(port) as caller:
        caller.say(5003, 1)
        caller.say(2011, 2)
        assert caller.lines() == [FIRST, SECOND]
        assert len(far.came) == 2, "the instrument's connections"


class Broken:
    """A link that takes no bytes."""

    def write(self, data):
        raise BrokenPipeError

    def drained(self, is_reset):
        return iter(())

    def close(self):
        pass


@pytest.mark.title("keep: a line whose client went away while it was handed over is lost")
def test_keeps_no_begun_one():
    relay = Relay(Listening(("127.0.0.1", 0)), Far(("127.0.0.1", 1)), text_of(b"keep 100 0 0"), 0, Notes())
    relay.hear(relay.down, FIRST + SECOND)
    assert relay.deliver(relay.down, Broken()) == "client"
    relay.finish(Broken(), "client")
    assert [list(item.pieces) for item in relay.down.queue] == [[SECOND]]


@pytest.mark.title("one client at a time; what is no line goes over")
def test_one_client(folder):
    with standing() as far, lining(folder, "lose 0", far.port) as (port, _):
        with Caller(port) as caller, Caller(port) as other:
            other.say(2011, 2)
            caller.link.sendall(b"\nhalf a li\n%R1Q,5003,1:\r\n" + b"x" * 5000)
            assert caller.line() == FIRST
            assert not select.select([other.link], [], [], 0.2)[0]
            caller.link.close()
            assert other.line() == b"", "it is joined to what came without a line feed"
        assert far.came[0].startswith(b"\nhalf a li\n%R1Q,5003,1:\r\n")
