"""A port that `geocom serve` keeps, and clients that break their connection, say nothing, or take nothing."""

import resource
import select
import socket
import time
from contextlib import contextmanager

import pytest

from asking import REPLY, REQUEST, ask, ask_once, reset
from programs import PATIENCE, Run, connect, free_port, until

# More than a counter of five digits holds.
MANY_READS = 100_001


@contextmanager
def kept(program, *words, **options):
    """The program, which keeps a port, and that port."""
    port = free_port()
    with Run([program, "serve", port, "--keep", *words], **options) as run:
        yield run, port


@pytest.mark.title("serve --keep, a connection that is reset")
def test_reset(program):
    """A connection that is broken is reported, and the next one is served."""
    with kept(program) as (run, port):
        broken = connect(port)
        ask(broken)
        reset(broken)
        ask_once(port)
        until(lambda: run.messages() == "geocom: connection 1: fault 42\n", f"its messages are {run.messages()!r}")
        reset(connect(port))
        ask_once(port)
        assert run.is_running(), "it ended"


@pytest.mark.title("serve --keep, an idle client and a second one")
def test_idle_client(program):
    """A client that says nothing is closed and reported, and the one after it is served."""
    with kept(program, "--idle", "1") as (run, port):
        with connect(port) as idle:
            time.sleep(0.1)
            ask_once(port)
            assert idle.recv(1) == b"", "the idle one is closed"
        assert run.messages() == "geocom: connection 1: idle\n"
        assert run.is_running(), "it ended"


@pytest.mark.title("serve --keep, a client that takes nothing and a second one")
def test_client_that_takes_nothing(program):
    """A client that sends and never reads holds up the one after it no longer than an idle one."""
    with kept(program, "--idle", "1") as (run, port):
        with connect(port) as deaf:
            deaf.setblocking(False)
            end = time.monotonic() + PATIENCE
            while select.select([], [deaf], [], 0.5)[1] and time.monotonic() < end:
                try:
                    deaf.send(REQUEST * 1000)
                except BlockingIOError:
                    pass
                except ConnectionError:
                    break
            ask_once(port)
        assert run.messages().startswith("geocom: connection 1: fault 43 reply ")
        assert run.is_running(), "it ended"


@pytest.mark.title("serve --keep, a client that pauses, and a stop")
def test_client_that_pauses(program):
    """A client that asks again before it is idle is kept, also over a stop of the program."""
    with kept(program, "--idle", "2") as (run, port):
        with connect(port) as caller:
            for _ in range(3):
                ask(caller)
                time.sleep(1)
            with run.stopped():
                time.sleep(0.2)
            time.sleep(0.2)
            ask(caller)
        ask_once(port)
        assert run.messages() == ""


@pytest.mark.title("serve --keep, no end, and an end behind so many")
def test_end(program):
    """Without a number of connections it has no end, and with one it ends after them."""
    with kept(program) as (run, port):
        for _ in range(20):
            ask_once(port)
        assert run.is_running(), "it ended"
    with kept(program, "--connections", "3") as (run, port):
        broken = connect(port)
        ask(broken)
        reset(broken)
        ask_once(port)
        ask_once(port)
        assert run.status() == 0
        assert run.messages() == "geocom: connection 1: fault 42\n"


@pytest.mark.title(f"serve --keep, {MANY_READS} requests over one connection")
def test_many_reads(program):
    """A client that goes on asking is served on: each of its requests is a read by itself."""
    with kept(program) as (run, port), connect(port) as caller:
        caller.setsockopt(socket.IPPROTO_TCP, socket.TCP_NODELAY, 1)
        for _ in range(MANY_READS):
            caller.sendall(REQUEST)
            came = caller.recv(4096)
            while came and not came.endswith(b"\n"):
                came += caller.recv(4096)
            assert came == REPLY
        assert run.messages() == ""


@pytest.mark.title("serve --keep, no connection can be accepted")
def test_none_is_accepted(program):
    """Where no connection can be accepted that is reported, no more than once a second, and no processor is kept busy by it."""
    with kept(program, shell="ulimit -S -n 4") as (run, port):
        with connect(port) as caller:
            time.sleep(2.5)
            lines = run.messages().splitlines()
            assert 1 <= len(lines) <= 4, "how many lines came in 2.5 seconds"
            assert lines == [f"geocom: connection {number}: fault 54" for number in range(1, len(lines) + 1)]
            assert run.seconds() < 0.5
            most = resource.prlimit(run.pid, resource.RLIMIT_NOFILE)[1]
            resource.prlimit(run.pid, resource.RLIMIT_NOFILE, (64, most))
            ask(caller)


@pytest.mark.title("serve, the first fault is its end")
def test_first_fault_without_keep(program):
    """Without --keep the first fault of a connection ends it, and --idle is refused."""
    port = free_port()
    with Run([program, "serve", port, "--connections", "3"]) as run:
        broken = connect(port)
        ask(broken)
        reset(broken)
        assert run.status() == 1
        assert run.messages() == "geocom: fault 42\n"
    with Run([program, "serve", port, "--idle", "5"]) as run:
        assert run.status() == 2
