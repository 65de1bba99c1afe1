"""Rows of a station that measures prisms whose places are known, for trials: its circle may turn, references and targets may move or be
hidden, and each reading may have noise. It computes readings from places, in floats, as nothing in `tools` does.
"""

import datetime
import math
import random
from dataclasses import dataclass, field

from growing import stamp
from records import HEAD, line_of

BEGIN = datetime.datetime(2026, 11, 1, tzinfo=datetime.timezone.utc)
RUN = "2026-10-31T23:59:50.000Z"


@dataclass
class Survey:
    """What is measured and how wrong: angles in radians, lengths in metres."""

    # Of each prism its place.
    prisms: dict
    station: tuple = (1000.0, 2000.0, 100.0)
    instrument: float = 1.65
    # The bearing of the circle's zero.
    zero: float = 0.5
    index: float = 15e-6
    collimation: float = -20e-6
    hz_noise: float = 0.0
    v_noise: float = 0.0
    distance_noise: float = 0.0
    faces: tuple = (1, 2)
    every: int = 3600
    chance: random.Random = field(default_factory=lambda: random.Random(1))

    def moment(self, cycle):
        return BEGIN + datetime.timedelta(seconds=(cycle - 1) * self.every)

    def text(self, *lines):
        """The text of a site, with further lines."""
        return "\n".join([f"station {' '.join(map(str, self.station))} {self.instrument}", *lines, ""])

    def line(self, word, *numbers):
        """The lines of some prisms, as they were at first."""
        return "\n".join(f"{word} {number} {' '.join(map(str, self.prisms[number]))}" for number in numbers)

    def reading(self, place, face, factor=1.0):
        """What a prism at a place reads in a face, on a flat earth."""
        east, north, up = (there - here for there, here in zip(place, self.station))
        up -= self.instrument
        along = math.hypot(east, north)
        v = math.atan2(along, up)
        sign = 1 if face == 1 else -1
        hz = math.atan2(east, north) - self.zero + (face - 1) * math.pi + sign * self.collimation / math.sin(v)
        hz, v = hz + self.chance.gauss(0, self.hz_noise), v + self.chance.gauss(0, self.v_noise)
        v = v + self.index if face == 1 else math.tau - v + self.index
        return hz % math.tau, v, math.hypot(along, up) * factor + self.chance.gauss(0, self.distance_noise)

    def cycle(self, cycle, moved=None, hidden=(), faces=None, factor=1.0, more=""):
        """The rows of a cycle, in which prisms have moved by so much, and some are hidden."""
        rows, place = [], 0
        for number, at in self.prisms.items():
            at = tuple(map(sum, zip(at, (moved or {}).get(number, (0, 0, 0)))))
            for face in (faces or {}).get(number, self.faces):
                values = "{:.9f},{:.9f},{:.5f}".format(*self.reading(at, face, factor))
                rc, values, quality = (8710, "", "refused") if number in hidden else (0, values, "ok")
                time = self.moment(cycle) + datetime.timedelta(seconds=1 + 2 * place)
                sent = stamp(time - datetime.timedelta(seconds=1)).decode()
                row = {"run": RUN, "sent": sent, "time": stamp(time).decode(), "cycle": cycle, "step": place, "target": number, "name": f"P{number}",
                       "procedure": 2108, "outcome": "answered", "rc_com": 0, "rc": rc, "values": values, "quality": quality}
                rows.append(line_of(row)[:-1] + f"{more}\n".encode())
                place += 1
        return rows

    def table(self, cycles):
        """The whole file of some cycles, each given by what happens in it."""
        return HEAD + b"".join(row for number, what in enumerate(cycles, 1) for row in self.cycle(number, **what))
