"""Rows of a station that measures each target in both faces, for trials: coordinates that are known, an instrument with errors that are
known, and a target that moves from a day on. Each target's chain is a positioning, a measurement and a reading in each face.
"""

import csv
import datetime
import math
import random
from dataclasses import dataclass, field, replace

from growing import stamp
from records import COLUMNS, HEAD, line_of

BEGIN = datetime.datetime(2026, 11, 1, tzinfo=datetime.timezone.utc)
STATION, HEIGHT_OF_INSTRUMENT, ORIENTATION = (1000.0, 2000.0, 100.0), 1.65, 0.5
SITE = "station 1000 2000 100 1.65\norientation 0.5\nflat\n"


def fields_of_row(row):
    """The fields of a row by the names of their columns."""
    return dict(zip(COLUMNS, next(csv.reader([row.decode()[:-1]]))))


def other(row, **fields):
    """The row with these fields in place of its own."""
    return line_of(fields_of_row(row) | fields)


@dataclass
class Month:
    """What is measured, how often, and how wrong: angles in radians, lengths in metres."""

    cycles: int = 720
    every: int = 3600
    targets: dict = field(default_factory=lambda: {
        7: ("pier 4", (1090.0, 2040.0, 103.0)), 8: ("dam crest", (1005.0, 2100.0, 98.0)), 9: ("rock", (940.0, 1930.0, 110.0))})
    # The one that moves to the east, from when on, and how far in a week.
    moves: int = 8
    from_day: float = 10.0
    a_week: float = 0.003
    index: float = 15e-6
    collimation: float = -20e-6
    noise: float = 0.0
    # How many cycles each target's chain is answered otherwise, by target: a range of cycles and an outcome.
    bad: dict = field(default_factory=dict)

    def moment(self, cycle):
        return BEGIN + datetime.timedelta(seconds=(cycle - 1) * self.every)

    def moved(self, cycle):
        """How far it has moved in a cycle, counted from 1."""
        days = (cycle - 1) * self.every / 86400 - self.from_day
        return max(0.0, days) / 7 * self.a_week

    def position(self, target, cycle):
        easting, northing, height = self.targets[target][1]
        return easting + (self.moved(cycle) if target == self.moves else 0.0), northing, height

    def readings(self, target, cycle, chance):
        """What is read in face I and in face II."""
        east, north, up = (there - here for there, here in zip(self.position(target, cycle), STATION))
        up -= HEIGHT_OF_INSTRUMENT
        along = math.hypot(east, north)
        hz, v, distance = math.atan2(east, north) - ORIENTATION, math.atan2(along, up), math.hypot(along, up)
        for face in 1, 2:
            sign = 1 if face == 1 else -1
            read_hz = hz + (face - 1) * math.pi + sign * self.collimation / math.sin(v) + chance.gauss(0, self.noise)
            read_v = v + self.index + chance.gauss(0, self.noise)
            if face == 2:
                read_v = math.tau - v + self.index + chance.gauss(0, self.noise)
            yield read_hz % math.tau, read_v, distance + chance.gauss(0, self.noise * 50)

    def rows(self, seed=3):
        """The rows of each cycle."""
        chance = random.Random(seed)
        for cycle in range(1, self.cycles + 1):
            place, rows = 0, []
            for target, (name, _) in self.targets.items():
                span, outcome = self.bad.get(target, (range(0), ""))
                for face, (hz, v, distance) in enumerate(self.readings(target, cycle, chance)):
                    for procedure, values in [(9028 if face else 9027, ""), (2008, ""), (2108, f"{hz:.9f},{v:.9f},{distance:.5f}")]:
                        is_bad = cycle in span and procedure == 2108
                        rows.append(self.row(cycle, place, target, name, procedure, values, outcome if is_bad else "answered"))
                        place += 1
            yield rows

    def row(self, cycle, place, target, name, procedure, values, outcome, attempt=1):
        moment = self.moment(cycle) + datetime.timedelta(seconds=1 + 2 * place)
        how = {"outcome": outcome}
        if outcome == "answered":
            how |= {"rc_com": 0, "rc": 0, "values": values, "quality": "ok"}
        elif outcome == "refused":
            how = {"outcome": "answered", "rc_com": 0, "rc": 1285, "quality": "refused"}
        sent = stamp(moment - datetime.timedelta(seconds=1)).decode()
        return line_of({"run": "2026-10-31T23:59:50.000Z", "sent": sent, "time": stamp(moment).decode(), "cycle": cycle, "step": place, "target": target,
                        "name": name, "procedure": procedure, "attempt": attempt, **how})

    def table(self, seed=3):
        """The whole file."""
        return HEAD + b"".join(row for rows in self.rows(seed) for row in rows)

    def tables_of_attempts(self):
        """Two files that come to the same: in one each chain is sent twice, since its last command is refused at first, and the set-up
        is sent between; its first attempt measures what is wrong. The other has the second attempts alone."""
        wrong, refused = replace(self, index=0.001), replace(self, bad={target: (range(1, self.cycles + 1), "refused") for target in self.targets})
        both, last = [HEAD], [HEAD]
        for first, behind, again in zip(wrong.rows(), refused.rows(), self.rows()):
            for begin in range(0, len(again), 6):
                chain = [other(row, attempt=2) for row in again[begin : begin + 6]]
                both += [*first[begin : begin + 5], behind[begin + 5], self.row(0, 0, 9, "", 2107, "0.5,1.5", "answered", begin + 1), *chain]
                last += chain
        return b"".join(both), b"".join(last)

    def tables_of_agreeing(self):
        """Two files that come to the same: in one each chain is sent twice, so that the rows of its first sending are unconfirmed. The other
        has the second sendings alone."""
        both, last = [HEAD], [HEAD]
        for rows in self.rows():
            for begin in range(0, len(rows), 6):
                first = [self.unconfirmed(row) for row in rows[begin : begin + 6]]
                second = [other(row, attempt=2) for row in rows[begin : begin + 6]]
                both += first + second
                last += second
        return b"".join(both), b"".join(last)

    @staticmethod
    def unconfirmed(row):
        """The row of a first sending, which measured something far from what its second one did."""
        fields = fields_of_row(row)
        values = ",".join(f"{float(each) + 0.25:.9f}" for each in fields["values"].split(",") if each) or "9,1.5,77" * (fields["procedure"] == "2108")
        return other(row, outcome="answered", fault="", rc_com=0, rc=0, values=values, quality="unconfirmed")

    def first_outside(self, tolerance, outside=1):
        """The cycle in which the moving target was further than this for so many rows, without noise."""
        return next(cycle for cycle in range(1, self.cycles + 1) if self.moved(cycle) > tolerance) + outside - 1
