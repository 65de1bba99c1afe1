"""Standard streams that are closed, as a supervisor may start the program."""

import itertools
import os
import select
import socket
import time

import pytest

from asking import COMMANDS, ask, ask_once
from programs import PATIENCE, STREAMS, Run, connect, ended, free_port, is_listening, until

# All ways in which some of the standard streams are closed.
CLOSED = [" and ".join(names) for count in (1, 2, 3) for names in itertools.combinations(STREAMS, count)]


def numbers(streams):
    """The numbers of streams by their names."""
    return [STREAMS.index(name) for name in streams.split(" and ")]


@pytest.mark.title("{command}, closed {streams}")
@pytest.mark.parametrize("streams", CLOSED)
@pytest.mark.parametrize("command", ["station", "ask", "loop"])
def test_asks_nothing(program, command, streams):
    """A command that asks does nothing where a stream is closed but report it."""
    closed = numbers(streams)
    with socket.create_server(("127.0.0.1", 0)) as listener:
        place = [] if command == "loop" else [listener.getsockname()[1]]
        with Run([program, command, *place], COMMANDS, closed) as run:
            end = time.monotonic() + PATIENCE
            while run.is_running() and time.monotonic() < end:
                assert not select.select([listener], [], [], 0.02)[0], "it connected"
            assert run.status() == 1
            assert not select.select([listener], [], [], 0)[0], "it had connected"
            assert run.bytes_read() == 0
            assert run.output() == b""
            assert run.messages() == ("" if 2 in closed else "geocom: fault 56\n")


@pytest.mark.title("{command}, closed {streams}")
@pytest.mark.parametrize("streams", CLOSED)
@pytest.mark.parametrize("command", ["serve", "serve --keep"])
def test_serves(program, command, streams):
    """A port is served where a stream is closed, and its place is filled."""
    closed, port = numbers(streams), free_port()
    command, *words = command.split()
    with Run([program, command, port, *words], COMMANDS, closed) as run:
        with connect(port) as caller:
            ask(caller)
            for stream in closed:
                assert os.readlink(f"/proc/{run.pid}/fd/{stream}") == "/dev/null", f"in the place of the {STREAMS[stream]}"
        if words:
            ask_once(port)
            assert run.is_running(), "it ended"
        else:
            assert run.status() == 0
        assert (run.output(), run.messages()) == (b"", "")


@pytest.mark.title("all streams open")
def test_all_open(program):
    """With all streams open commands are asked, over a port and without one."""
    port = free_port()
    with Run([program, "serve", port]) as server:
        until(lambda: is_listening(port), "nobody listens")
        for words in ["ask", port], ["loop"]:
            status, output, messages = ended([program, *words], COMMANDS)
            assert status == 0, f"{words[0]}: {messages!r}"
            assert output.count(b" answered ") == 2, words[0]
        assert server.status() == 0
