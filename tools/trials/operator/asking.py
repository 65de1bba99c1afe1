"""Asks at a place: by hand, over a connection to a port, or by `geocom ask` and `geocom station`."""

import socket
import struct

from measuring import expect_each_once, finished, measuring
from programs import PATIENCE, connect, ended

COMMANDS = b"7 5003\n8 5004\n"
REQUEST = b"%R1Q,5003,2:\r\n"
REPLY = b"%R1P,0,2:0,123456\r\n"
# What `ask` writes of the commands.
ANSWERED = b'0 7 answered %R1P,0,0:0,123456\n1 8 answered %R1P,0,1:0,"GEOCOM SIM"\n'
# The times of a station where all is answered.
SHORT = "--settle 100 --deadline 2000"


def ask(caller, request=REQUEST, reply=REPLY):
    """Asks once, and expects the reply."""
    caller.sendall(request)
    came = b""
    while not came.endswith(b"\n"):
        try:
            piece = caller.recv(4096)
        except TimeoutError:
            raise AssertionError(f"no reply, {came!r}") from None
        assert piece, f"closed behind {came!r}"
        came += piece
    assert came == reply


def ask_once(port):
    """Asks over a connection of its own."""
    with connect(port) as caller:
        ask(caller)


def reset(caller):
    """Breaks a connection, in place of ending it."""
    caller.setsockopt(socket.SOL_SOCKET, socket.SO_LINGER, struct.pack("ii", 1, 0))
    caller.close()


def expect_asked(program, place):
    """Each command that is asked there is answered."""
    assert ended([program, "ask", place], COMMANDS) == (0, ANSWERED, ""), f"ask {place}"


def expect_measured(program, place, words=SHORT, cycles=2, patience=PATIENCE):
    """Each command of a station there is answered. Its messages besides its start and its counts."""
    with measuring(program, place, f"{words} --cycles {cycles}", COMMANDS) as run:
        rows, messages = finished(run, patience=patience)
    expect_each_once(rows, 2, cycles)
    assert [row["values"] for row in rows] == ["123456", '"GEOCOM SIM"'] * cycles, "the values"
    return messages
