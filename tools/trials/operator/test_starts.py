"""Starts of a station, over a simulator: how soon the first row comes, and runs that are killed and begun again at once."""

import csv
import queue
import random
import socket
import threading
import time
from contextlib import contextmanager

import pytest

from measuring import Processors, measuring
from programs import connect, simulator
from records import HEAD

# What is asked in each cycle, and what the simulator answers: five in a cycle, while ids go round at eight.
VALUES = {"5003": "123456", "5004": '"GEOCOM SIM"', "110": "1,0,0", "5034": "1,2,0", "2026": "0"}
TEXT = "".join(f"{target} {procedure}\n" for target, procedure in enumerate(VALUES)).encode()


@contextmanager
def delayed(port, delay):
    """A port from which each byte takes so long to that one, and back."""

    def hand_over(sent, to):
        while (one := sent.get()) is not None:
            time.sleep(max(0, one[0] - time.monotonic()))
            to.sendall(one[1])
        to.shutdown(socket.SHUT_WR)

    def carry(one, other):
        sent = queue.SimpleQueue()
        threading.Thread(target=hand_over, args=[sent, other], daemon=True).start()
        while data := one.recv(4096):
            sent.put((time.monotonic() + delay, data))
        sent.put(None)

    def serve():
        near, _ = listener.accept()
        far = connect(port)
        for end in near, far:
            end.setsockopt(socket.IPPROTO_TCP, socket.TCP_NODELAY, 1)
        for ends in (near, far), (far, near):
            threading.Thread(target=carry, args=ends, daemon=True).start()

    with socket.create_server(("127.0.0.1", 0)) as listener:
        threading.Thread(target=serve, daemon=True).start()
        yield listener.getsockname()[1]


class Start:
    """A running station, and when it began."""

    def __init__(self, program, port, words=""):
        self.began = time.monotonic()
        self.run = measuring(program, port, f"--silent {words}", TEXT)

    def __enter__(self):
        return self

    def __exit__(self, *exception):
        self.run.__exit__(*exception)

    def first_row(self):
        """How many seconds after the start the first row came."""
        while self.run.output().count(b"\n") < 2:
            assert time.monotonic() < self.began + 30, f"no row came: {self.run.output()!r}"
            time.sleep(0.001)
        return time.monotonic() - self.began

    def rows(self):
        """How many whole rows there are, each of which was answered with the value of its procedure, in order."""
        output = self.run.output()
        whole = output[: output.rfind(b"\n") + 1]
        assert HEAD.startswith(whole) or whole.startswith(HEAD), f"the head is {whole[:100]!r}"
        rows = list(csv.DictReader(whole.decode().splitlines()))
        for n, row in enumerate(rows):
            cycle, place = divmod(n, len(VALUES))
            procedure = list(VALUES)[place]
            found = row["cycle"], row["step"], row["procedure"], row["outcome"], row["values"]
            assert found == (str(cycle + 1), str(place), procedure, "answered", VALUES[procedure]), "a row"
        return len(rows)


@pytest.mark.title("a start, a loopback simulator")
def test_first_row(program, note):
    """Over a loopback simulator the first row comes within a tenth of a second."""
    took = []
    processors = Processors()
    with simulator(program) as port:
        for _ in range(10):
            with Start(program, port) as start:
                took.append(start.first_row())
                assert start.run.status() == 0
                assert start.rows() == len(VALUES), "how many rows there are"
    share = processors.share()
    note(f"the first row of ten starts came behind {1000 * min(took):.0f} to {1000 * max(took):.0f} ms")
    if max(took) > 0.1:
        note(f"at {100 * share:.0f} % of the processors")
        assert share >= 0.5 and max(took) <= 0.5, f"{max(took):.3f} s, at {100 * share:.0f} % of the processors"


@pytest.mark.title("a start, half a second of round trip")
def test_ten_round_trips(program, note):
    """Over half a second of round trip the first row comes within five and a half seconds, after ten of them."""
    with simulator(program) as port, delayed(port, 0.25) as far, Start(program, far) as start:
        took = start.first_row()
        note(f"the first row came behind {took:.2f} s")
        assert 5 <= took <= 5.5
        assert start.run.status(10) == 0
        assert start.rows() == len(VALUES), "how many rows there are"


@pytest.mark.title("a start, twenty kills and starts in a row, width {width}")
@pytest.mark.parametrize("width", [1, 7])
def test_kills_and_starts(program, note, width):
    """Twenty runs are killed, while they begin and while they measure, and each is begun again at once: no row is false, none waits."""
    draw, took, rows = random.Random(width), [], 0
    with simulator(program) as port:
        for n in range(20):
            with Start(program, port, f"--cycles unlimited --width {width}") as start:
                if n % 2:
                    took.append(start.first_row())
                time.sleep(draw.uniform(0, 0.2) if n % 2 else draw.uniform(0, 0.01))
                start.run.kill()
                rows += start.rows()
        with Start(program, port, f"--width {width}") as start:
            took.append(start.first_row())
            assert start.run.status() == 0, "the last run"
            assert start.rows() == len(VALUES), "how many rows the last run has"
    note(f"{rows} rows, none false; the first row came behind {1000 * max(took):.0f} ms at most")
    assert rows > 100 and max(took) <= 0.5
