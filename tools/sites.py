"""The text of a site: where an instrument and its references are, and how its readings are reduced. All that reads its lines lives here.

All angles are radians, lengths metres, and numbers exact decimals. `geocom-reduce`(1) has the lines.
"""

import re
from dataclasses import dataclass, field
from decimal import Decimal

import air
import moments
from angles import on_circle
from faulty import Faulty

DECIMAL = re.compile(r"[-+]?[0-9]+(\.[0-9]+)?")
COUNT = re.compile(r"[1-9][0-9]{0,4}")
TARGET = re.compile(r"[0-9]+")
COLUMN = re.compile(r"[A-Za-z_][A-Za-z0-9_]*")
# The lines of versions that wrote the columns up to `freedom` alone: a text of these goes on in such a table.
EARLIER = {"station", "orientation", "reference", "reflector", "atmosphere", "carrier", "earth", "flat"}

OF_TARGETS = {"reference", "reflector", "initial"}


@dataclass
class Site:
    """Where the instrument is and how its readings are reduced."""

    station: tuple = None
    height_of_instrument: Decimal = Decimal(0)
    orientation: Decimal = None
    # Of each reference its easting and northing, and its height where that is known.
    references: dict = field(default_factory=dict)
    reflectors: dict = field(default_factory=dict)
    # How many references a cycle needs; how far the direction to one may be off, and its distance and height.
    least_references: int = 1
    within: Decimal = None
    within_metres: Decimal = None
    # The same of faces: of a pair its index and collimation errors, and the difference of its distances.
    least_faces: int = 2
    faces_within: Decimal = None
    faces_within_metres: Decimal = None
    scale_from_references: bool = False
    refraction_from_references: bool = False
    # The light's wavelength in nanometres, and the refractivity in ppm at which the instrument's distances are right.
    carrier: tuple = (Decimal(658), Decimal("286.34"))
    atmosphere: tuple = None
    # Where the air of a cycle is read.
    air: object = None
    # The coefficient of refraction and the earth's radius.
    earth: tuple = (Decimal("0.13"), Decimal(6_370_000))
    # Over how many cycles coordinates are averaged, and over how many days velocities reach.
    mean: int = None
    days: Decimal = None
    # From when until when the reference epoch is, in milliseconds; the places of targets that are given instead.
    epoch: tuple = None
    initial: dict = field(default_factory=dict)
    # A vertical axis, or two points of a line.
    axis: tuple = None
    # Whether it has lines of today alone.
    is_earlier: bool = True


def site_of(text, folder="."):
    """The site of a text; `Faulty` with the number of its first line that doesn't read. Files that it names are in the folder."""
    site, seen = Site(), []
    for number, line in enumerate(text.splitlines(), 1):
        word, *given = line.split("#")[0].split() or [""]
        if word:
            try:
                take_line(site, seen, word, given, folder)
            except Faulty as why:
                raise Faulty(f"line {number}: {why}") from None
    if (site.orientation is None) == (not site.references) and site.station:
        raise Faulty("a station wants one of both: a line orientation, or lines reference")
    expect_references(site)
    return site


def expect_references(site):
    """Refuses what asks for references of a site that has none, or too few."""
    if site.least_references > max(1, len(site.references)):
        raise Faulty(f"at least {site.least_references} references are wanted, and {len(site.references)} are there")
    if site.scale_from_references and not site.references:
        raise Faulty("a scale from references wants lines reference")
    if site.refraction_from_references and not (site.earth and any(len(place) == 3 for place in site.references.values())):
        raise Faulty("a refraction from references wants lines reference with a height, and no line flat")


def take_line(site, seen, word, given, folder):
    """Takes a line of a site, each once."""
    if word not in LINES:
        raise Faulty(f"no line begins with {ascii(word)}")
    # Each target has lines of its own, and so has the air of each cycle.
    key = given[:1] if word in OF_TARGETS else given[:1] in (["columns"], ["file"]) if word == "atmosphere" else None
    if (word, key) in seen:
        raise Faulty(f"a second line {word}")
    seen.append((word, key))
    LINES[word](Line(word, given, folder), site)
    if word not in EARLIER:
        site.is_earlier = False


@dataclass
class Line:
    """What follows a line's first word."""

    word: str
    given: list
    folder: str

    def numbers(self, least, most):
        """The rest as this many decimals: of an angle, a length or a temperature."""
        if not least <= len(self.given) <= most or not all(map(DECIMAL.fullmatch, self.given)):
            raise Faulty(f"{self.word} wants {least if least == most else f'{least} or {most}'} numbers")
        return tuple(map(Decimal, self.given))

    def target(self):
        """The number of a target, which comes first."""
        target = self.given.pop(0) if self.given else ""
        if not TARGET.fullmatch(target):
            raise Faulty(f"{self.word} wants a target's number")
        return str(int(target))

    def words(self, *words):
        """Whether these words come next; they are taken."""
        if self.given[: len(words)] != list(words):
            return False
        self.given = self.given[len(words):]
        return True

    def count(self, most=99999):
        """A whole number that comes next, from 1 on."""
        count = self.given.pop(0) if self.given else ""
        if not COUNT.fullmatch(count) or int(count) > most:
            raise Faulty(f"{self.word} wants a number from 1 to {most}")
        return int(count)

    def ended(self):
        if self.given:
            raise Faulty(f"{self.word} has more than its line wants: {ascii(self.given[0])}")


def take_station(line, site):
    numbers = line.numbers(3, 4)
    site.station, site.height_of_instrument = numbers[:3], (*numbers, Decimal(0))[3]


def take_orientation(line, site):
    site.orientation = on_circle(line.numbers(1, 1)[0])


def take_reference(line, site):
    target = line.target()
    site.references[target] = line.numbers(2, 3)
    # A reference with a height is no line of an earlier version.
    site.is_earlier &= len(site.references[target]) == 2


def take_reflector(line, site):
    target = line.target()
    site.reflectors[target], = line.numbers(1, 1)


def at_least(line, most=99999):
    """`at least N [within RAD [M]]`: the count, and both limits."""
    if not line.words("at", "least"):
        raise Faulty(f"{line.word} wants: at least N, and maybe within RAD or within RAD M")
    least, within = line.count(most), (None, None)
    if line.words("within"):
        within = (*line.numbers(1, 2), None)[:2]
        if min(each for each in within if each is not None) < 0:
            raise Faulty("a limit is not below 0")
    else:
        line.ended()
    return least, *within


def take_references(line, site):
    site.least_references, site.within, site.within_metres = at_least(line)


def take_faces(line, site):
    site.least_faces, site.faces_within, site.faces_within_metres = at_least(line, 2)


def from_references(line):
    """`from references`, which is all that can be said."""
    if not line.words("from", "references"):
        raise Faulty(f"{line.word} wants: from references")
    line.ended()
    return True


def take_scale(line, site):
    site.scale_from_references = from_references(line)


def take_refraction(line, site):
    site.refraction_from_references = from_references(line)


def take_atmosphere(line, site):
    """A constant, or where the air of each cycle is read. Beside it a constant is what is taken where nothing is read."""
    for word, take in [("columns", take_columns), ("file", take_file)]:
        if line.words(word):
            site.air, site.is_earlier = take(line), False
            return
    site.atmosphere = line.numbers(3, 3)
    air.check("atmosphere", *site.atmosphere)


def take_columns(line):
    if not 2 <= len(line.given) <= 3 or not all(map(COLUMN.fullmatch, line.given)):
        raise Faulty("atmosphere columns wants the names of two or three columns: of a temperature, a pressure and a humidity")
    return air.Columns(line.given)


def take_file(line):
    if not line.given:
        raise Faulty("atmosphere file wants a path")
    path, seconds = line.given.pop(0), 3600
    if line.given:
        seconds = line.count()
    line.ended()
    return air.File(line.folder, path, seconds)


def take_carrier(line, site):
    site.carrier = line.numbers(2, 2)
    air.check("carrier", *site.carrier)


def take_earth(line, site):
    site.earth = line.numbers(2, 2)
    coefficient, radius = site.earth
    if not (-10 <= coefficient <= 10 and 6_300_000 <= radius <= 6_400_000):
        raise Faulty("earth has a number out of its range")


def take_flat(line, site):
    line.numbers(0, 0)
    site.earth = None


def take_mean(line, site):
    site.mean = line.count()
    line.ended()


def take_velocity(line, site):
    site.days, = line.numbers(1, 1)
    if not 0 < site.days <= 10_000:
        raise Faulty("velocity wants days, above 0 and at most 10000")


def take_epoch(line, site):
    try:
        begin, end = map(moments.milliseconds, line.given)
    except ValueError:
        raise Faulty("epoch wants two moments such as 2026-11-01T00:00:00Z") from None
    if begin >= end:
        raise Faulty("an epoch ends after its beginning")
    site.epoch = (begin, end)


def take_initial(line, site):
    target = line.target()
    site.initial[target] = line.numbers(3, 3)


def take_axis(line, site):
    if len(line.given) not in (2, 4):
        raise Faulty("axis wants 2 or 4 numbers")
    site.axis = line.numbers(2, 4)
    if len(site.axis) == 4 and site.axis[:2] == site.axis[2:]:
        raise Faulty("both points of the axis are the same")


LINES = {
    "station": take_station, "orientation": take_orientation, "reference": take_reference, "reflector": take_reflector,
    "references": take_references, "faces": take_faces, "scale": take_scale, "refraction": take_refraction,
    "atmosphere": take_atmosphere, "carrier": take_carrier, "earth": take_earth, "flat": take_flat, "mean": take_mean,
    "velocity": take_velocity, "epoch": take_epoch, "initial": take_initial, "axis": take_axis,
}
