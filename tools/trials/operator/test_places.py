"""Places: ports of other addresses and names, where nobody is, and what is no place."""

import socket

import pytest

from asking import COMMANDS, expect_asked, expect_measured
from far_end import standing
from programs import Run, ended, free_port

NO_PLACES = ["0", "65536", "word", ":4001", "host:0", "host:", "[fd00::5", "fd00::5", "[]:1", "[127.0.0.1]:1", "tcp://host:1"]
NO_PLACE = "error: a place is a port from 1 to 65535, HOST:PORT, [ADDRESS]:PORT, or the path of a device, which has a /"
NOT_SERVED = "a simulator is served on a port of 127.0.0.1, from 1 to 65535, on the path of a device, which has a /, or with --any-address at HOST:PORT"


@pytest.mark.title("places, {command} {place}")
@pytest.mark.parametrize("place", NO_PLACES)
@pytest.mark.parametrize("command", ["station", "ask"])
def test_no_place(program, command, place):
    """What is no place is refused before anything else is done."""
    with Run([program, command, place], COMMANDS) as run:
        assert run.status() == 2, run.messages()
        assert (run.bytes_read(), run.output()) == (0, b""), "what was read, and written"
        assert NO_PLACE in run.messages()


@pytest.mark.title("places, serve localhost:4001")
def test_serve_of_another_address(program):
    """A simulator is served on a port of 127.0.0.1 alone."""
    status, output, messages = ended([program, "serve", "localhost:4001"])
    assert (status, output) == (2, b""), messages
    assert NOT_SERVED in messages


@pytest.mark.title("places, {host}:PORT")
@pytest.mark.parametrize("listening, host", [("127.0.0.2", "127.0.0.2"), ("127.0.0.1", "localhost"), ("::1", "[::1]")])
def test_addresses(program, listening, host):
    """A station and `ask` reach a far end that listens at an address."""
    try:
        socket.create_server((listening, 0), family=socket.AF_INET6 if ":" in listening else socket.AF_INET).close()
    except OSError as why:
        pytest.skip(str(why))
    with standing(address=listening) as far:
        place = f"{host}:{far.port}"
        assert expect_measured(program, place) == [], "what was told"
        expect_asked(program, place)
        assert len(far.came) == 2, "the connections"


@pytest.mark.title("places, {what}")
@pytest.mark.parametrize("what, place", [
    ("a port where nobody listens", "127.0.0.2:PORT"),
    # No resolver asks for a name with a part that is so long, so that nothing is sent of this machine.
    ("a name that isn't found", 64 * "a" + ":4001"),
    ("a device that isn't there, ask", "/dev/nowhere"),
])
def test_nobody(program, what, place):
    """`ask` where nobody listens, or where no name is found. A second line says where, and gives the system's reason."""
    place = place.replace("PORT", str(free_port()))
    status, output, messages = ended([program, "ask", place], COMMANDS, patience=20)
    assert (status, output) == (1, b""), messages
    first, second = messages.splitlines()
    assert first == "geocom: fault 54"
    assert second.startswith(f"geocom: {place.removesuffix(':4001')}: ")
