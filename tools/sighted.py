"""Where a prism is, by readings in both faces, and whether they scatter. Readings are those of geocom-reduce: radians and metres, exact
decimals (`angles.py`, `reductions.py`).
"""

from dataclasses import dataclass
from decimal import Decimal

import angles
from asked import Refused
from reductions import Reading, pair_of

# How many places of a length and of an angle are shown: a tenth of a millimetre, and less than half a second of arc.
PLACES = {"m": 4, "gon": 4, "degree": 5}
FACES = ["", "I", "II"]
# What is no direction in radians, and no slope distance in metres.
MOST_ANGLE, MOST_METRES = 2 * angles.TURN, 100_000


def shown(number, unit):
    """A length, or an angle in radians, as it is shown in a unit."""
    if unit != "m":
        number = angles.in_unit(number, unit)
    return f"{number:.{PLACES[unit]}f}"


@dataclass(frozen=True)
class Tolerance:
    """An angle in radians and a length in metres."""

    rad: Decimal
    m: Decimal


@dataclass(frozen=True)
class Sight:
    """Where a prism is, in face I, and the errors of the instrument that its pairs had in the mean."""

    hz: Decimal
    v: Decimal
    distance: Decimal
    index: Decimal
    collimation: Decimal


def reading_of(values, face=None):
    """The reading that an answer's quantities are, which has to be in this face if one is named."""
    hz, v, distance = (Decimal(values[name]) for name in ("hz_rad", "v_rad", "distance_m"))
    if max(abs(hz), abs(v)) > MOST_ANGLE or not 0 < distance <= MOST_METRES:
        raise Refused(f"{values['hz_rad']} {values['v_rad']} {values['distance_m']} is no direction in radians with a slope distance in metres")
    if face and angles.face_of(v) != face:
        raise Refused(f"the telescope is in face {FACES[angles.face_of(v)]}, and not in face {FACES[face]}, at V {v:f} rad")
    return Reading(None, hz, v, distance)


def spread(numbers):
    return max(numbers) - min(numbers)


def spreads(readings):
    """By how much the readings of one face differ: in Hz, as an angle between the sights, in V and in the distance."""
    first = readings[0]
    across = spread([angles.difference(each.hz, first.hz) for each in readings]) * abs(angles.sine(first.v))
    return {
        ("Hz", "rad"): across, ("V", "rad"): spread([angles.difference(each.v, first.v) for each in readings]),
        ("distance", "m"): spread([each.distance for each in readings])}


def differences(pairs, readings):
    """What may not be above a tolerance: of each pair what its faces differ by, and of the readings of each face."""
    for pair in pairs:
        yield "the faces differ: index error", pair.index, "rad"
        yield "the faces differ: collimation error", pair.collimation, "rad"
        yield "the faces differ: distance", pair.apart, "m"
    for face in (1, 2):
        alike = [each for each in readings if angles.face_of(each.v) == face]
        for (what, kind), apart in spreads(alike).items() if alike else ():
            yield f"repeated measurements in face {FACES[face]} differ: {what}", apart, kind


def sight_of(found, sets, within, unit):
    """Where a prism is, by the reading that found it and by sets of a reading in each face. Readings that scatter are refused: the greatest
    difference is named."""
    pairs = [pair_of(one, two) for one, two in sets]
    readings = [found, *(each for pair in sets for each in pair)]
    worst, why = 1, ""
    for what, apart, kind in differences(pairs, readings):
        limit = within.m if kind == "m" else within.rad
        if abs(apart) > limit * worst:
            worst, said = abs(apart) / limit, kind if kind == "m" else unit
            why = f"{what} {shown(apart, said)} {said} ({shown(limit, said)} allowed)"
    if why:
        raise Refused(why)
    return Sight(
        angles.mean_direction([each.hz for each in pairs])[0], *(angles.mean([getattr(each, name) for each in pairs])[0]
                                                                for name in ("v", "distance", "index", "collimation")))
