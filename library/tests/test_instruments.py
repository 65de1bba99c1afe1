"""The instrument within the process, from Python: what it replies, its delays, its refusals, as a
port and for asyncio, by pytest. The expected replies follow from docs/PROTOCOL.md."""

import asyncio
import threading
import time

import pytest

import geocom
import geocom.aio

pytest_plugins = ["geocom.testing"]

TRUCK = "serial 71\ntarget 0.5 1.5 10\nblocked 1 2 3\n"
ASKED = b"%R1Q,5003,0:\r\n\n%R1Q,9027,1:0.5,1.5,0,1,0\r\n%R1Q,17017,2:2\r\nx\r\n%R1Q,17017,3:2\r\n"
TOLD = b"%R1P,0,0:0,71\r\n%R1P,0,1:0\r\n%R1P,0,2:0,0.5,1.5,10.0,2\r\n%R1P,0,3:1285\r\n"


def test_cut_anywhere(instrument):
    for piece in range(1, len(ASKED) + 1):
        truck = instrument(TRUCK)
        cut = [ASKED[at : at + piece] for at in range(0, len(ASKED), piece)]
        assert b"".join(truck.feed(each) for each in cut) == TOLD


def test_delays_are_moments(instrument):
    slow = instrument("delay 9027 8000\n")
    ok = b"%R1P,0,0:0\r\n"
    assert slow.replies_to(b"%R1Q,9027,0:0.5,1.5,0,1,0\r\n", 1000) == [geocom.Reply(9000, ok)]
    assert [each.due for each in slow.replies_to(b"%R1Q,0,1:\r\n%R1Q,0,2:\r\n", 2000)] == [9000, 9000]
    assert [each.due for each in slow.replies_to(b"%R1Q,0,3:\r\n", 9500)] == [9500]


@pytest.mark.parametrize(
    ("scene", "number", "line", "why"),
    [
        ("serial 1\nblocked 1 2\n", 51, 2, "line 2: 'blocked 1 2' isn't of the form 'blocked TARGET FROM TO'"),
        ("cloud 1\n", 51, 1, "line 1: 'cloud 1' begins with no word of a scene"),
        ("target 1 1.5 10\n" * 33, 41, 0, "more targets"),
        ("\n" * 65537, 53, 0, "more than 65,536 bytes"),
    ],
)
def test_a_refused_scene(scene, number, line, why):
    with pytest.raises(geocom.BadScene, match=f"fault {number}: ") as refused:
        geocom.Instrument(scene)
    assert (refused.value.number, refused.value.line) == (number, line)
    assert why in str(refused.value)
    assert isinstance(refused.value, ValueError)


def test_a_restart(instrument):
    truck = instrument(TRUCK)
    assert truck.feed(b"%R1Q,9027,1:0.5,1.5,0,1,0\r\n%R1Q,17017,2:2\r\n%R1Q,50").endswith(b"10.0,2\r\n")
    truck.restart()
    assert truck.feed(b"03,3:\r\n") == b""
    assert truck.feed(b"%R1Q,9027,1:0.5,1.5,0,1,0\r\n%R1Q,17017,2:2\r\n").endswith(b"%R1P,0,2:1285\r\n")


def test_as_a_port(instrument):
    port = instrument("serial 71\ndelay 5003 200\n", timeout=5)
    begun = time.monotonic()
    assert port.write(b"%R1Q,0,0:\r\n%R1Q,5003,1:\r\n") == 25
    assert port.in_waiting == 12
    assert port.read_until() == b"%R1P,0,0:0\r\n"
    port.timeout = 0.01
    assert port.read(256) == b""
    port.timeout = 5
    assert port.read(4) == b"%R1P"
    assert time.monotonic() - begun >= 0.199
    assert port.read(256) == b",0,1:0,71\r\n"
    port.close()
    with pytest.raises(OSError):
        port.read()
    port.open()
    port.write(b"%R1Q,0,0:\r\n")
    assert port.read_until() == b"%R1P,0,0:0\r\n"


def test_a_read_is_woken(instrument):
    """By a write of another thread, and by a close."""
    port = instrument(timeout=30)
    threading.Timer(0.05, port.write, [b"%R1Q,0,0:\r\n"]).start()
    assert port.read(256) == b"%R1P,0,0:0\r\n"
    threading.Timer(0.05, port.close).start()
    with pytest.raises(OSError):
        port.read()


def test_a_station(instrument):
    with geocom.Station(instrument("serial 71\n"), timeout=5) as station:
        assert station.csv.get_instrument_no().serial == 71


def test_a_new_connection(instrument):
    """A port that was closed is opened again, and the instrument goes on."""
    port = instrument("serial 71\n")
    with geocom.Station(port, timeout=5, settle=0.05) as station:
        assert station.csv.get_instrument_no().serial == 71
        port.close()
        assert station.csv.get_instrument_no().serial == 71


def test_two_at_once_in_asyncio(instrument):
    async def serial(port):
        async with geocom.aio.Station(port.connect, timeout=5) as station:
            return (await station.csv.get_instrument_no()).serial

    async def both():
        return await asyncio.gather(*(serial(each) for each in (first, second)))

    first, second = instrument("serial 71\ndelay 5003 50\n"), instrument("serial 72\n")
    assert asyncio.run(both()) == [71, 72]


def test_threads_share_it(instrument):
    shared = instrument("serial 71\nrepeats no\n")
    told = []

    def ask(number):
        for _ in range(200):
            told.append(shared.feed(b"%%R1Q,5003,%d:\r\n" % number) == b"%%R1P,0,%d:0,71\r\n" % number)

    threads = [threading.Thread(target=ask, args=[number]) for number in range(4)]
    for each in threads:
        each.start()
    for each in threads:
        each.join()
    assert told == [True] * 800
