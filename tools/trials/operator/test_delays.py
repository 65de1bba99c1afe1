"""Scenes with delays: a slow pointing, what becomes of a line that comes meanwhile, and addresses beyond 127.0.0.1."""

import socket
import time

import pytest

from asking import REPLY, REQUEST, ask, reset
from programs import Run, connect, ended, free_port

# A pointing takes three seconds, so a reply is late below this and punctual above.
DELAY = 3.0
POINTING = b"%R1Q,9027,1:0.5,1.5,0,1,0\r\n"
POINTED = b"%R1P,0,1:0\r\n"
MEANWHILE = b"%R1Q,5003,2:\r\n"
ANSWERED = b"%R1P,0,2:0,123456\r\n"
BEHIND = b"%R1Q,5004,3:\r\n"
NAMED = b'%R1P,0,3:0,"GEOCOM SIM"\r\n'


def scene_of(folder, *lines):
    """The path of a scene with these lines."""
    path = folder / "scene"
    path.write_text("".join(f"{line}\n" for line in lines), encoding="ascii")
    return path


def heard(caller, size, begun):
    """So many bytes, and how many seconds after the moment `begun` the last of them came."""
    caller.settimeout(2 * DELAY)
    came = b""
    while len(came) < size:
        more = caller.recv(size - len(came))
        assert more, f"the connection ended behind {came!r}"
        came += more
    return came, time.monotonic() - begun


@pytest.mark.title("delay: a slow pointing")
@pytest.mark.parametrize("words", [[], ["--keep"]])
def test_slow_pointing(program, folder, words):
    """The reply to a pointing comes three seconds later, and other replies at once."""
    scene = scene_of(folder, "delay 9027 3000")
    port = free_port()
    with Run([program, "serve", port, "--scene", scene, *words]), connect(port) as caller:
        ask(caller, REQUEST, REPLY)
        begun = time.monotonic()
        caller.sendall(POINTING)
        came, after = heard(caller, len(POINTED), begun)
        assert came == POINTED, "the reply to the pointing"
        assert DELAY - 0.01 <= after < DELAY + 2, f"it came after {after:.3f} s"
        begun = time.monotonic()
        caller.sendall(BEHIND)
        came, after = heard(caller, len(NAMED), begun)
        assert (came, after < 1) == (NAMED, True), f"a reply without a delay came after {after:.3f} s"


@pytest.mark.title("delay: a client that goes away before its replies, and the next one")
@pytest.mark.parametrize("leave", [lambda caller: caller.close(), reset], ids=["close", "reset"])
@pytest.mark.parametrize("busy", ["queue", "drop"])
def test_client_that_goes_away(program, folder, leave, busy):
    """Whoever calls next is served at once, although the replies would take hours."""
    scene = scene_of(folder, "delay 9027 3600000", f"busy {busy}")
    port = free_port()
    with Run([program, "serve", port, "--scene", scene, "--keep", "--idle", "5"]) as run:
        for _ in range(2):
            gone = connect(port)
            gone.sendall(POINTING * 3)
            time.sleep(0.5)
            leave(gone)
            begun = time.monotonic()
            with connect(port) as caller:
                ask(caller, REQUEST, REPLY)
            assert time.monotonic() - begun < 2, f"the next one waited {time.monotonic() - begun:.3f} s"
        assert run.is_running(), "it ended"


@pytest.mark.title("delay: a client that ends its writing")
def test_ended_writing(program, folder):
    """It has its reply, when it is due, where nobody else calls."""
    scene = scene_of(folder, "delay 9027 3000")
    port = free_port()
    with Run([program, "serve", port, "--scene", scene]), connect(port) as caller:
        begun = time.monotonic()
        caller.sendall(POINTING)
        caller.shutdown(socket.SHUT_WR)
        came, after = heard(caller, len(POINTED), begun)
        assert (came, after >= DELAY - 0.01) == (POINTED, True), f"the reply to the pointing came after {after:.3f} s"


@pytest.mark.title("busy queue: what comes meanwhile is answered behind the slow reply")
def test_queue(program, folder):
    """A line that comes while the instrument is busy is answered in order, as soon as it is free."""
    scene = scene_of(folder, "delay 9027 3000", "busy queue")
    port = free_port()
    with Run([program, "serve", port, "--scene", scene]), connect(port) as caller:
        begun = time.monotonic()
        caller.sendall(POINTING)
        time.sleep(1)
        caller.sendall(MEANWHILE)
        came, after = heard(caller, len(POINTED + ANSWERED), begun)
        assert came == POINTED + ANSWERED, "the replies"
        assert DELAY - 0.01 <= after < DELAY + 2, f"they came after {after:.3f} s"


@pytest.mark.title("busy drop: what comes meanwhile gets no reply")
def test_drop(program, folder):
    """A line that comes while the instrument is busy gets no reply, also one that came in two parts. The next one is answered."""
    scene = scene_of(folder, "delay 9027 3000", "busy drop")
    port = free_port()
    with Run([program, "serve", port, "--scene", scene]), connect(port) as caller:
        begun = time.monotonic()
        caller.sendall(POINTING)
        time.sleep(0.5)
        caller.sendall(MEANWHILE[:5])
        time.sleep(0.5)
        caller.sendall(MEANWHILE[5:] + MEANWHILE)
        came, after = heard(caller, len(POINTED), begun)
        assert (came, after >= DELAY - 0.01) == (POINTED, True), f"the reply to the pointing came after {after:.3f} s"
        ask(caller, BEHIND, NAMED)


@pytest.mark.title("busy drop: a client that asks as soon as it is answered")
def test_quick_client(program, folder):
    """A request that is sent as soon as a slow reply came isn't dropped, over one connection and over the next one."""
    scene = scene_of(folder, "delay 5003 50", "busy drop")
    port = free_port()
    with Run([program, "serve", port, "--scene", scene, "--keep"]):
        for _ in range(3):
            with connect(port) as caller:
                for _ in range(20):
                    ask(caller, b"%R1Q,5003,2:\r\n", ANSWERED)
                    ask(caller, BEHIND, NAMED)


@pytest.mark.title("busy drop: nothing that is dropped is executed")
def test_dropped_acts_not(program, folder):
    """A date that is set while the instrument is busy isn't set."""
    scene = scene_of(folder, "delay 9027 3000", "busy drop")
    port = free_port()
    with Run([program, "serve", port, "--scene", scene]), connect(port) as caller:
        begun = time.monotonic()
        caller.sendall(POINTING)
        time.sleep(0.5)
        caller.sendall(b"%R1Q,2012,2:1.75\r\n")
        heard(caller, len(POINTED), begun)
        ask(caller, b"%R1Q,2011,3:\r\n", b"%R1P,0,3:0,0.0\r\n")


@pytest.mark.title("delay without a clock: {command}")
@pytest.mark.parametrize("command", ["exec", "drill", "loop"])
def test_no_clock(program, folder, command):
    """`exec`, `drill` and `loop` refuse a scene with delays by its line."""
    for line in ["delay 9027 3000", "busy queue", "busy drop"]:
        scene = scene_of(folder, "serial 7", line)
        status, output, messages = ended([program, command, "--scene", scene], b"")
        assert (status, output, messages.splitlines()[0]) == (1, b"", "geocom: fault 51 line 2"), line


@pytest.mark.title("--any-address: an address of this machine")
def test_any_address(program):
    """With --any-address a simulator is served at an address. Without it the word is refused, and nothing is bound."""
    port = free_port()
    status, output, messages = ended([program, "serve", f"127.0.0.1:{port}"], b"")
    assert (status, output) == (2, b""), "without --any-address"
    assert "--any-address at HOST:PORT" in messages, messages
    for host in ["127.0.0.1", "0.0.0.0", "localhost"]:
        port = free_port()
        with Run([program, "serve", f"{host}:{port}", "--any-address"]), connect(port) as caller:
            ask(caller, REQUEST, REPLY)
    status, output, messages = ended([program, "serve", "192.0.2.1:4001", "--any-address"], b"")
    assert (status, output, messages.splitlines()[0]) == (1, b"", "geocom: fault 54"), "an address of no machine here"
