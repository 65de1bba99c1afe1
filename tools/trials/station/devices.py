"""Measures over a device whose line goes away at every tenth cycle and comes back as another, and judges each row: each command
of a cycle has one, in order; each answer is that of its own request, for it says on which request it was made; and no descriptor is
left open. Before that a far end is mute for a while, so that the station closes its connection and rests: all the time a second
opener is refused the device's lock.

The device is a symbolic link to a pseudo terminal. The line goes away, at each place of a cycle in turn, before an answer, after
one, within one, or before one and for a while.
"""

import collections
import csv
import fcntl
import itertools
import os
import tempfile
import threading
import time
from pathlib import Path

from far_end import CLOSES, GOOD, LOSES, good
from measuring import counts_of, measuring
from tagging import tagged
from terminals import Terminal, lead, terminal

PROCEDURES = [5003, 5004, 2011]
COMMANDS = "".join(f"{target} {rpc}\n" for target, rpc in enumerate(PROCEDURES, 7)).encode()
# How many cycles there are from one time to the next at which the line goes away.
CYCLES_BETWEEN = 10
WAYS = ["before", "behind", "within", "for a while"]


def values_of(rpc, number):
    """What a request of this number is answered with."""
    return tagged(GOOD[rpc].decode().partition(",")[2], number)


def number_in(values):
    """The number of the request on which this answer was made."""
    return int(float(values.strip('"')))


class Device:
    """A name, and the line that it leads to now. Commands' requests are numbered from 1 as they come, over all lines."""

    def __init__(self, link):
        self.link, self.station, self.line = link, None, None
        # The procedure of each request that came, its number's place less one.
        self.came = []
        self.descriptors = []
        self.pulled = 0
        self.plug()

    def plug(self):
        self.line = Terminal(self.answer)
        lead(self.link, self.line.path)

    def answer(self, request):
        if request.rpc == 0:
            return request.reply(b"0")
        self.came.append(request.rpc)
        number = len(self.came)
        if number % len(PROCEDURES) == 0 and self.station:
            self.descriptors.append(len(os.listdir(f"/proc/{self.station.pid}/fd")))
        reply = request.reply(b"0," + values_of(request.rpc, number).encode())
        return self.pull(reply) if number == self.next_pull() else reply

    def next_pull(self):
        """The number of the request at which the line goes away next: at each place of a cycle in turn."""
        cycle = CYCLES_BETWEEN * (self.pulled + 1)
        return (cycle - 1) * len(PROCEDURES) + 1 + self.pulled % len(PROCEDURES)

    def pull(self, reply):
        """The line goes away, in one way after the other."""
        way, old = WAYS[self.pulled % len(WAYS)], self.line
        self.pulled += 1
        if way == "for a while":
            os.unlink(self.link)
            threading.Timer(0.3, self.plug).start()
        else:
            self.plug()
        os.write(old.far, {"behind": reply, "within": reply[: len(reply) // 2]}.get(way, b""))
        return CLOSES


def faults_of(rows, came, cycles):
    """What is wrong with these rows, where these procedures were asked for."""
    places = list(itertools.product(range(1, cycles + 1), range(len(PROCEDURES))))
    if [(int(row["cycle"]), int(row["step"])) for row in rows] != places:
        yield f"{len(rows)} rows, which aren't one for each place of {cycles} cycles in order"
        return
    at, last = -1, 0
    for index, row in enumerate(rows):
        if row["outcome"] != "answered":
            continue
        number, rpc = number_in(row["values"]), PROCEDURES[index % len(PROCEDURES)]
        if not last < number <= len(came) or came[number - 1] != rpc or row["values"] != values_of(rpc, number):
            yield f"row {index + 1} was answered {row['values']}, and the one before it {last}"
        # What came between two answers are requests of rows between them, in order.
        between = iter(int(other["procedure"]) for other in rows[at + 1 : index])
        if not all(asked in between for asked in came[last : number - 1]):
            yield f"row {index + 1}: between {last} and {number} came {came[last : number - 1]}, in {index - at - 1} rows"
        at, last = index, number


def measured(program, cycles, folder):
    """The rows, the messages, and the device."""
    device = Device(str(Path(folder, "device")))
    words = f"--deadline 300 --settle 100 --retries 1000 --cycles {cycles}"
    with measuring(program, device.link, words, COMMANDS) as device.station:
        status = device.station.status(60 + cycles)
        rows = list(csv.DictReader(device.station.output().decode().splitlines()))
        messages = device.station.messages().splitlines()
        device.station = None
    device.line.pull()
    assert status == 0, messages
    return rows, messages, device


def is_held(path):
    """Whether a second opener is refused the lock of a device. It gives the lock back at once."""
    opened = os.open(path, os.O_RDWR | os.O_NOCTTY | os.O_NONBLOCK)
    try:
        fcntl.flock(opened, fcntl.LOCK_EX | fcntl.LOCK_NB)
        return False
    except BlockingIOError:
        return True
    finally:
        os.close(opened)


def hold(program, folder):
    """Where a far end is mute from the second cycle on, for so many requests that the line is dead, the device is to be held from the
    first request on to the end, over each close. At how many looks it was, and over how many closes."""
    # After nine null procedures and a cycle of three commands.
    mute = range(14, 24)
    came, looks = [], []
    log = Path(folder, "log")

    def answer(request):
        came.append(request)
        return LOSES if len(came) in mute else good(request)

    with terminal(answer) as line:
        words = f"--cycles 4 --deadline 200 --settle 150 --retries 100 --log {log}"
        with measuring(program, line.path, words, COMMANDS) as station:
            end = time.monotonic() + 60
            while station.is_running() and time.monotonic() < end:
                # A look counts where the station measured before it and goes on after it.
                is_up = bool(came)
                held = is_held(line.path)
                time.sleep(0.002 if held else 0.1)
                if is_up and station.is_running():
                    looks.append(held)
            assert station.status() == 0, "a station with a mute far end"
    closes = sum(entry.endswith("- closed") for entry in log.read_text().splitlines())
    assert closes >= 3, "how many connections were closed"
    assert all(looks) and len(looks) >= 100, f"the device was held at {sum(looks)} of {len(looks)} looks, over {closes} closes"
    return len(looks), closes


def pull(program, cycles):
    """Measures over the device."""
    began = time.monotonic()
    with tempfile.TemporaryDirectory() as folder:
        looks, closes = hold(program, folder)
    with tempfile.TemporaryDirectory() as folder:
        rows, messages, device = measured(program, cycles, folder)
    faults = list(faults_of(rows, device.came, cycles))
    assert not faults, "\n".join(faults[:10])
    assert messages[-1:] == [counts_of(rows)]
    # A pull costs the requests that it meets, and few besides.
    answered = collections.Counter(row["outcome"] for row in rows)["answered"]
    assert answered >= len(rows) - 6 * device.pulled - len(rows) // 20, f"of {len(rows)}, where the line went away {device.pulled} times"
    first, most = device.descriptors[0], max(device.descriptors)
    assert most <= first, "how many descriptors are open"
    return (f"held at {looks} looks over {closes} closes; {cycles} cycles over a device that went away {device.pulled} times: "
            f"{counts_of(rows)}; {len(device.came)} requests came; {first} descriptors at first and {most} at most; "
            f"{time.monotonic() - began:.0f} s")
