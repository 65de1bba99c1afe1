"""What is drawn of a file of rows: of each target its quantities over time, face by face, and what its commands came to.

What was measured in face II is turned over, so that both faces are beside one another, and directions are joined over the circle's
end. Numbers are floats here: a picture has no more places.
"""

import datetime
import math
import statistics
from dataclasses import dataclass, field
from pathlib import Path

import dated
import quantities
import records
from faulty import Faulty
from followed import Refused

NEEDED = ["time", "step", "target", "name", "procedure", "outcome", "rc_com", "rc", "values"]
# The columns that are no values of a row's own answer: those of `tools/reduce`.
PLACES = ["target_easting_m", "target_northing_m", "target_height_m"]
# How far from zero a decimal of the protocol is at most.
FURTHEST = 1e13


@dataclass
class Series:
    """A quantity of a target in a face: its moments and values."""

    moments: list = field(default_factory=list)
    values: list = field(default_factory=list)

    def add(self, moment, value):
        self.moments.append(moment)
        self.values.append(value)


@dataclass
class Target:
    """What is known of a target: its name, of each quantity a series a face, and the moments of each outcome."""

    number: str
    name: str = ""
    series: dict = field(default_factory=dict)
    marks: dict = field(default_factory=dict)
    direction: float = None
    first: datetime.datetime = None
    last: datetime.datetime = None

    def title(self):
        return f"target {self.number}" + (f": {self.name}" if self.name else "")

    def take(self, fields):
        """Takes a row."""
        self.name = fields["name"] or self.name
        moment = records.moment(fields["time"])
        self.first, self.last = min(self.first or moment, moment), max(self.last or moment, moment)
        marked = outcome_of(fields)
        if marked:
            self.marks.setdefault(marked, []).append(moment)
        found = {name: finite(value) for name, value in quantities.quantities(fields).items() if name in quantities.POINT}
        found = {name: value for name, value in found.items() if value is not None}
        face = self.turn(found)
        for name, value in found.items():
            self.add(name, face, moment, value)
        for name in PLACES if quantities.has_values(fields) else []:
            value = finite(fields.get(name, ""))
            if value is not None:
                self.add(name, 1, moment, value)

    def add(self, name, face, moment, value):
        self.series.setdefault(name, {}).setdefault(face, Series()).add(moment, value)

    def turn(self, found):
        """Turns what was measured in face II over, and joins a direction to the one before it; gives the face."""
        face = 2 if {"hz_rad", "v_rad"} <= found.keys() and found["v_rad"] % math.tau > math.pi else 1
        if face == 2:
            found["v_rad"] = math.tau - found["v_rad"]
            found["hz_rad"] -= math.pi
        if "hz_rad" in found:
            if self.direction is None:
                self.direction = found["hz_rad"] % math.tau
            self.direction += math.remainder(found["hz_rad"] - self.direction, math.tau)
            found["hz_rad"] = self.direction
        return face

    def base(self, name):
        """About the median of a quantity in the face that it has first: what its differences are counted from."""
        values = next(series.values for _, series in sorted(self.series[name].items()))
        return float(format(statistics.median(values), ".6f" if name.endswith("_rad") else ".4f"))


def finite(text):
    """The number of a text; nothing where it is none, or is further from zero than any decimal of the protocol."""
    try:
        number = float(text)
    except ValueError:
        return None
    return number if abs(number) <= FURTHEST else None


def outcome_of(fields):
    """What is marked: the outcome, a warning, a refusal, what is unconfirmed, or nothing where both codes are 0."""
    if fields["outcome"] != "answered":
        return fields["outcome"]
    if fields.get("quality") == records.UNCONFIRMED:
        return records.UNCONFIRMED
    if not quantities.has_values(fields):
        return "refused"
    return "warning" if fields.get("quality") == "warning" else None


def read(path):
    """The targets of a file, or of files by date, in the order of their numbers, by the last attempt of each command in a cycle. Half a row
    at an end is left out, and so are those of the set-up."""
    try:
        paths = dated.files_of(path)
    except Faulty as why:
        raise Refused(why) from None
    if not paths:
        raise Refused(f"{path}: no such file is there")
    targets = {}
    files = [rows_of(each, len(paths) > 1) for each in paths]
    for fields in records.last_attempts(dated.merged(files) if len(paths) > 1 else files[0]):
        targets.setdefault(fields["target"], Target(fields["target"])).take(fields)
    return [target for _, target in sorted(targets.items(), key=lambda pair: int(pair[0]))]


def rows_of(path, may_be_new):
    """The rows of a file; none of a new one, that has no line yet."""
    data = Path(path).read_bytes()
    lines = data[: data.rfind(b"\n") + 1].split(b"\n")[:-1]
    rows = []
    if may_be_new and not lines:
        return rows
    try:
        form = records.form_of(lines[0] if lines else b"", NEEDED)
    except records.NoRow as why:
        raise Refused(f"{path} {why}") from None
    for number, line in enumerate(lines, 1):
        try:
            fields = form.row(line)
        except records.NoRow as why:
            raise Refused(f"{path}: line {number} is no row: {why}") from None
        if fields:
            rows.append(fields)
    return rows
