"""A night at a real site: the text of a station, the total station at its far end, and the bad line between them, which knows of each
reply which request it was made for.

The instrument forgets all when it restarts: target recognition is off, and it points nowhere. Prisms vanish for a while; it is
turned by hand; measurements come with warnings. Where a reply has values, the last one is the number of the execution that made it.
"""

import itertools
import math
import random
import re
import threading
import time
from dataclasses import dataclass

from far_end import FarEnd
from line_ends import Far, Listening
from line_notes import Notes
from line_relay import Relay
from line_text import text_of
from programs import free_port

REQUEST = re.compile(rb"%R1Q,(\d+),(\d):([^\r\n]*)\r\n")
# The set-up: each target with its procedure and parameters; None where the moment stands.
SETUP = [(9, 5004, ""), (9, 18005, "1"), (9, 5007, None)]
# Where the prisms are, and what is done with each in a chain.
PRISMS = {1: ("0.5", "1.5"), 2: ("2.25", "1.625"), 3: ("6.25", "1.5625")}
TOLERANCE = 0.02
RETRIES, AGAIN = 2, {"8710", "8711", "8716", "late", "lost", "off_target"}
CHAIN = [(9027, "{hz},{v},0,1,0"), (2008, "1,1"), (2108, "5000,1"), (2167, "5000,1")]
# A command that stands by itself: the atmospheric corrections.
LONE = (5, 2028, "")
COMMANDS = [*((target, rpc, form.format(hz=hz, v=v)) for target, (hz, v) in PRISMS.items() for rpc, form in CHAIN), LONE]
RAW = {18005, 2167, 2028}
DEADLINE = 400
# What the line does, in both directions, as `docs/BAD-LINES.md` has it.
LINE = b"delay 0 20\nlose 1.5\nrepeat 1\nlate 1 450 900\nhold 0.1 1500\nclose 0.15\nrefuse 20 700\nkeep 50 0 300\nrestart 0.05\npieces 20 30\n"


def line_of(target, rpc, params):
    """A command as the text has it."""
    said = "now" if params is None else params
    return f"{target} {'raw ' if rpc in RAW else ''}{rpc} {said}".rstrip()


def text():
    """The commands of the station."""
    lines = ["at start", *(line_of(*command) for command in SETUP), "each cycle", f"deadline {DEADLINE}", "accept 1283 1284"]
    lines += [f"retry {RETRIES} {' '.join(sorted(AGAIN))}"]
    lines += [f"near {target} {hz} {v} {TOLERANCE}" for target, (hz, v) in PRISMS.items()]
    lines += [f"name {target} prism {target}" for target in PRISMS]
    lines += [line_of(*command) for command in COMMANDS[:-1]]
    return "\n".join([*lines, "retry 0", line_of(*LONE)]).encode() + b"\n"


class TotalStation:
    """What answers each request, and keeps of each execution what it was asked for."""

    def __init__(self, seed):
        self.chance = random.Random(f"night {seed}")
        self.executed = []
        # Until when each prism is hidden, in seconds of the monotonic clock.
        self.hidden = dict.fromkeys(PRISMS, 0.0)
        self.connection, self.vanished, self.turned = None, 0, 0
        self.start()

    def start(self):
        self.aims, self.pointing = False, (0.0, 1.5707)

    def answer(self, request):
        if request.connection != self.connection:
            self.connection = request.connection
            self.start()
        self.executed.append(request)
        return request.reply(self.execute(request.rpc, request.params.decode(), str(len(self.executed))).encode())

    def execute(self, rpc, params, number):
        """What follows the colon of the reply."""
        if rpc == 9027:
            return self.position(*map(float, params.split(",")[:2]))
        if self.chance.random() < 0.006:
            self.turned += 1
            self.pointing = (self.chance.uniform(0, 2 * math.pi), 1.6)
        hz, v = (angle + self.chance.gauss(0, 2e-5) for angle in self.pointing)
        code = self.chance.choices(["0", "1283", "1284", "1285"], [90, 5, 3, 2])[0]
        if rpc == 2108:
            return f"{code},{hz:.9f},{v:.9f},{number}" if code != "1285" else code
        if rpc == 2167:
            return f"{code},{hz:.9f},{v:.9f},0.0012,{number}" if code != "1285" else code
        if rpc == 18005:
            self.aims = params == "1"
        return {5004: '0,"NIGHT"', 2028: f"0,1013.25,15.0,0.0,{number}"}.get(rpc, "0")

    def position(self, hz, v):
        """Turns to a place, and aims at the prism there."""
        target = next(target for target, place in PRISMS.items() if tuple(map(float, place)) == (hz, v))
        now = time.monotonic()
        if not self.aims:
            return "8714"
        if now >= self.hidden[target] and self.chance.random() < 0.02:
            self.hidden[target] = now + self.chance.uniform(1, 8)
            self.vanished += 1
        self.pointing = hz, v
        return self.chance.choice(["8710", "8711"]) if now < self.hidden[target] else "0"


@dataclass
class Asked:
    """A request as it came from the station: when, in milliseconds since 1970, over which connection, and what it asked for."""

    utc: float
    connection: int
    rpc: int
    params: str


class NightLine(Relay):
    """The line, and what went over it."""

    def __init__(self, port, far_port, seed, line):
        super().__init__(Listening(("127.0.0.1", port)), Far(("127.0.0.1", far_port)), text_of(line), seed, Notes())
        self.asked, self.delivered = [], []

    def known(self, way, line):
        found = REQUEST.fullmatch(line) if way is self.up else None
        if not found:
            return line, None
        self.asked.append(Asked(time.time() * 1000, self.counts["connections"], int(found[1]), found[3].decode()))
        return line, len(self.asked) - 1

    def crossed(self, way):
        if way is self.up and way.of is not None and REQUEST.fullmatch(way.gone):
            self.delivered.append(way.of)

    def run(self):
        self.near.open()
        while True:
            self.one()


class Night:
    """An instrument after a bad line, until it is closed."""

    def __init__(self, seed, line=LINE):
        self.instrument = TotalStation(seed)
        self.far = FarEnd(self.instrument.answer, lambda _: [])
        self.port = free_port()
        self.line = NightLine(self.port, self.far.port, seed, line)
        threading.Thread(target=self.line.run, daemon=True).start()

    def close(self):
        self.far.pull()

    def requests(self):
        """Of each execution the request that it was made on, as its number on the line."""
        executed, delivered = self.instrument.executed, self.line.delivered
        assert len(executed) <= len(delivered) <= len(executed) + 1, (len(executed), len(delivered))
        for one, number in zip(executed, delivered):
            asked = self.line.asked[number]
            assert (one.rpc, one.params.decode()) == (asked.rpc, asked.params), (one, asked)
        return delivered

    def said(self):
        """What happened, in words."""
        one = self.instrument
        return f"{one.vanished} times a prism vanished, {one.turned} times it was turned; line: {self.line.told()}"


def attempts_of(rows):
    """The rows of a cycle, in order, by chains and attempts: the target with the rows of each attempt."""
    for target, chain in itertools.groupby(rows, key=lambda row: row["target"]):
        yield target, [list(one) for _, one in itertools.groupby(chain, key=lambda row: row["attempt"])]
