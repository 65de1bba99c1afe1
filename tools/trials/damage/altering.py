"""A line that alters bytes, between a station and an instrument that counts: what went over it, and which line was altered."""

import collections
import re
import threading
from dataclasses import dataclass

from counting import REQUEST
from line_ends import Far, Listening
from line_notes import Notes
from line_relay import Relay
from line_text import text_of
from programs import free_port

# A direction, and the number of a line in it.
Place = tuple[str, int]


@dataclass
class Reached:
    """A request that reached the instrument: the number of the line of the station that it was, where it was one, and which line was altered."""

    number: int | None
    altered: Place | None


@dataclass
class Arrived:
    """A line that arrived at the station, over which connection, and which line was altered, if one was: it, or the request that it
    answers. It was made on executing the request of the station with this number."""

    connection: int
    text: bytes
    altered: Place | None
    made_on: int | None


class Passing(Notes):
    """Which lines went over, in order, of those that set out. One that was lost with its connection is left out."""

    def __init__(self):
        super().__init__()
        self.out = {"up": collections.deque(), "down": collections.deque()}
        self.over = {"up": [], "down": []}

    def went(self, way, length, is_whole):
        del length, is_whole
        self.over[way].append(self.out[way].popleft())


class AlteringLine(Relay):
    """The line. A line that lost its line feed goes over with the next one."""

    def __init__(self, far_port, text, seed, heard):
        self.port, self.passing = free_port(), Passing()
        super().__init__(Listening(("127.0.0.1", self.port)), Far(("127.0.0.1", far_port)), text_of(text), seed, self.passing)
        self.heard = heard
        # The lines as they came, and those that went over.
        self.came = {"up": [], "down": []}
        self.reached, self.arrived = [], []
        self.near.open()
        threading.Thread(target=self.run, daemon=True).start()

    def known(self, way, line):
        self.came[way.name].append(line)
        return line, None

    def put(self, way, line, of, fate):
        super().put(way, line, of, fate)
        self.passing.out[way.name].append(len(self.came[way.name]))

    def other(self, way, line):
        super().other(way, line)
        self.passing.out[way.name].append(None)

    def begun(self):
        """A client came: what set out before is lost, and so is the first part of a line down."""
        super().begun()
        self.passing.over["down"] = []
        for lines in self.passing.out.values():
            lines.clear()

    def crossed(self, way):
        """Something ending in a line feed went over."""
        lines, self.passing.over[way.name] = self.passing.over[way.name], []
        numbers = list(filter(None, lines))
        altered = None
        # Only what lost its line feed goes over with more.
        if numbers and (len(lines) > 1 or way.gone != self.came[way.name][numbers[0] - 1]):
            altered = way.name, numbers[0]
        parts = way.gone.split(b"\n")[:-1]
        if way is self.up:
            number = numbers[0] if len(numbers) == 1 else None
            self.reached += [Reached(number, altered) for _ in filter(REQUEST.match, parts)]
        else:
            connection, made_on = self.counts["connections"], self.made_on(numbers[0])
            self.arrived += [Arrived(connection, part, altered or self.altered_before(numbers[0]), made_on.number) for part in parts]

    def altered_before(self, number):
        """Which request was altered, where the reply with this number is to one, or is one's that was stored."""
        return self.reached[number - 1].altered or self.made_on(number).altered

    def made_on(self, number):
        """The request on whose execution the reply with this number was made."""
        return self.reached[self.heard[number - 1].made]

    def run(self):
        while True:
            self.one()
