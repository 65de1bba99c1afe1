"""A bad line between `geocom station` and `geocom serve`, or an instrument that knows more (`knowing.py`), by a seed: `tools/bad-line`'s
relay, with a text that has all of its words. The instrument lives on, or restarts, at any time.

What is in flight where a connection ends is lost, or held back and handed over on a later one, before all that is new. It comes while
each connection is drained, or well after the quiet time, or after the first request, also where the station starts afresh: ids alone
tell then what is from before.

With `--tag` each answer carries, in place of its first value, the number of the request on whose execution it was made. The log has
a line for each thing that came or went, with the milliseconds of this machine's clock in front:

    clear                       the station's lone line feed
    null ID                     a null procedure of the station's own, in a beginning, before its first command, or after commands that had
                                timed out
    sent NUMBER CYCLE PLACE     a command's request, as it came from the station; cycles of which none came aren't counted
    came NUMBER                 a reply to it that went on to the station, whole
"""

import argparse
import math
import random
import re
import signal
import sys
import time
from pathlib import Path

# It is a program by itself, which `lines.py` begins.
sys.path[1:1] = map(str, Path(__file__).resolve().parents[1:3])

from instrument import Instrument
from line_ends import Listening
from line_notes import Notes
from line_relay import Relay
from line_text import text_of
from tagging import tagged

REQUEST = re.compile(rb"%R1Q,(\d+),(\d):")
REPLY = re.compile(rb"%R1P,0,(\d):(\d+),([^\r]*)\r\n$")
# Of so many thousand lines, where the line is as bad as it is where nothing is said.
SHARES = {"lose": 30, "repeat": 30, "late": 15, "behead": 15, "up echo": 15, "hold": 2, "restart": 4}
KILLING = {"cut": 6, "close": 10, "refuse": 100}


def text(options):
    """The text of the line."""
    half, twice = options.deadline // 2, 2 * options.deadline
    behind = {"late": f" {half} {twice}", "hold": f" {3 * options.deadline}", "refuse": f" {1.5 * options.settle:.0f}"}
    shares = SHARES | (KILLING if options.kill else {})
    lines = [f"{word} {min(100, share * options.bad / 10):g}{behind.get(word, '')}" for word, share in shares.items()]
    lines += [f"delay 0 {options.delay}", "pieces 50 20", "keep 80 0 0"] + [f"idle {options.idle}"] * bool(options.idle)
    return "\n".join(lines).encode("ascii")


class StationRelay(Relay):
    """The line, and what it knows of a station's requests."""

    def __init__(self, options):
        self.instrument = Instrument(options.geocom, options.knowing)
        super().__init__(Listening((options.at, options.listen)), self.instrument, text_of(text(options)), options.seed, Notes())
        self.options = options
        self.random = random.Random(options.seed)
        self.places = [int(p) for p in options.procedures.split(",")]
        self.log = open(options.log, "w")
        self.number, self.cycle, self.place = 0, 1, -1
        # Whether a request came after the station's line feed, and until when what was held back waits.
        self.asked, self.held = False, 0.0

    def note(self, *words):
        print(int(time.monotonic() * 1000), *words, file=self.log, flush=True)

    def known(self, way, line):
        return self.request(line) if way is self.up else self.reply(line)

    def request(self, line):
        """A request of the station: its id, and the number of a command's."""
        found = REQUEST.match(line)
        procedure, number = int(found[1]), None
        if procedure in self.places:
            number = self.name(self.places.index(procedure))
        else:
            self.note("null", int(found[2]))
        if not self.asked:
            self.asked = True
            self.past()
        return line, (found[2], number)

    def name(self, place):
        """The number of a command's request: places go up within a cycle."""
        self.cycle += place <= self.place
        self.place = place
        self.number += 1
        self.note("sent", self.number, self.cycle, place)
        return self.number

    def reply(self, line):
        """A reply, and the number of the request on whose execution it was made."""
        number = self.instrument.owed.popleft()
        found = REPLY.match(line)
        if self.options.tag and number and found:
            line = b"%%R1P,0,%s:%s,%s\r\n" % (found[1], found[2], tagged(found[3].decode(), number).encode())
        return line, (None, number)

    def other(self, way, line):
        """The station has a new connection: what is in flight was held back."""
        self.note("clear")
        self.asked, self.still = False, 0.0
        self.held = time.monotonic() + self.options.settle / 1000 * self.random.choice([0, 0.5, 1.4, math.inf])
        for old in [*self.up.queue, *self.down.queue]:
            old.at = self.held
        super().other(way, line)

    def past(self):
        """The station is past its drain: what was held back may come."""
        for old in [*self.up.queue, *self.down.queue]:
            if old.pieces[0] != b"\n":
                old.at = time.monotonic() + self.random.uniform(0, self.options.deadline) / 1000

    def moment(self, way, wait):
        return super().moment(way, wait) if self.asked else self.held

    def begun(self):
        """Nothing goes over before the station's line feed."""

    def finish(self, near, why):
        super().finish(near, why)
        self.asked, self.held, self.still = False, math.inf, math.inf

    def crossed(self, way):
        """A line went over, whole. A front that was cut, and the line feed after it, are one line."""
        if way is self.down and way.of and way.of[1]:
            self.note("came", way.of[1])
        if way is self.up and way.of and REQUEST.match(way.gone) and way.gone.endswith(b"\r\n"):
            self.instrument.owe(way.of)

    def lost(self):
        sys.exit("geocom serve ended")

    def run(self):
        self.start_anew()
        self.near.open()
        while True:
            self.one()


def main():
    words = argparse.ArgumentParser()
    words.add_argument("--at", default="127.0.0.1", help="the address that is listened at")
    words.add_argument("--listen", type=int, required=True)
    words.add_argument("--geocom", required=True)
    words.add_argument("--seed", type=int, required=True)
    words.add_argument("--procedures", required=True, help="of the commands, in their order, each once")
    words.add_argument("--deadline", type=int, required=True)
    words.add_argument("--settle", type=int, required=True)
    words.add_argument("--delay", type=int, default=8, help="milliseconds of a line, at most")
    words.add_argument("--bad", type=float, default=1, help="0: a good line")
    words.add_argument("--kill", action="store_true")
    words.add_argument("--idle", type=int, help="milliseconds after which a connection that carries nothing is closed; without it none is")
    words.add_argument("--tag", action="store_true")
    words.add_argument("--knowing", action="store_true", help="the instrument knows procedures that aren't in the table")
    words.add_argument("--log", required=True)
    relay = StationRelay(words.parse_args())

    def stop(*_):
        relay.instrument.end()
        print(f"{relay.told()} starts {relay.instrument.starts}", file=sys.stderr)
        sys.exit(0)

    for end in (signal.SIGTERM, signal.SIGINT):
        signal.signal(end, stop)
    relay.run()


main()
