"""From readings to coordinates: pairs of both faces, what a target comes to in a cycle, and the rows of that.

All angles are radians, lengths metres, and numbers exact decimals (`angles.py`). The rules are in `docs/COORDINATES.md`.
"""

import itertools
from dataclasses import dataclass
from decimal import Decimal
from functools import cached_property

import air
import angles
import gama
import moments
import movements
import orienting
import quantities
import records
from angles import TURN, deviation, difference, face_of, in_face_one, mean, mean_direction, on_circle, written

# What a row of a target has beside the columns of a station's rows. Up to `freedom` they are those of earlier versions.
PLACE = ["target_easting_m", "target_northing_m", "target_height_m"]
ADDED_EARLIER = [
    "pairs", "index_rad", "collimation_rad", "orientation_rad", *PLACE, "hz_residuals_rad", "v_residuals_rad", "distance_residuals_m",
    "hz_deviation_rad", "v_deviation_rad", "distance_deviation_m", "freedom",
]
RESIDUALS = ["reference_hz_residual_rad", "reference_distance_residual_m", "reference_height_residual_m"]
ADDED = [
    *ADDED_EARLIER, "faces", "references", "left_out", "orientation_deviation_rad", *RESIDUALS, "scale_ppm", "refraction", "atmosphere",
    "atmosphere_ppm", *movements.COLUMNS, "reason",
]


def named(added):
    """The columns of a table that has these, too. It has no request: a row of a target is of several."""
    return [name for name in records.with_columns(added) if name != "request"]


NAMES, EARLIER_NAMES = named(ADDED), named(ADDED_EARLIER)


@dataclass
class Reading:
    """A row that measured a direction."""

    fields: dict
    hz: Decimal
    v: Decimal
    distance: Decimal = None


def reading_of(fields):
    """The reading of a row; `None` of one that measured no direction."""
    found = quantities.quantities(fields)
    if "hz_rad" not in found or "v_rad" not in found:
        return None
    distance = found.get("distance_m")
    return Reading(fields, Decimal(found["hz_rad"]), Decimal(found["v_rad"]), Decimal(distance) if distance else None)


@dataclass
class Pair:
    """What a reading in each face comes to: as it would read in face I without errors, and the errors, which are what a reading in
    face I has too much: the index error of V, and the collimation error of Hz at the horizon. And how much longer the distance of face I
    is. One face alone says no errors."""

    hz: Decimal
    v: Decimal
    distance: Decimal
    index: Decimal = None
    collimation: Decimal = None
    apart: Decimal = None


def pair_of(one, two):
    """The pair of a reading in face I and one in face II."""
    half = difference(two.hz - one.hz, TURN / 2) / 2
    index = difference(one.v + two.v, Decimal(0)) / 2
    v = on_circle(one.v - index)
    distances = [each.distance for each in (one, two) if each.distance is not None]
    return Pair(
        on_circle(one.hz + half), v, mean(distances)[0] if distances else None, index, -half * angles.sine(v),
        distances[0] - distances[1] if len(distances) == 2 else None)


def pairs_of(readings):
    """The pairs of a target in a cycle: the first reading in face I with the first in face II, and so on."""
    faces = [[each for each in readings if face_of(each.v) == face] for face in (1, 2)]
    return list(map(pair_of, *faces)) if all(faces) else []


class Target:
    """A target in a cycle: the mean of its pairs, or of its readings in the only face that it was measured in, or why it has none."""

    def __init__(self, rows, in_both=False):
        """With `in_both` it counts as measured in both faces alone."""
        self.rows = rows
        self.number = str(int(rows[0]["target"]))
        self.readings = [each for each in map(reading_of, rows) if each]
        self.pairs = pairs_of(self.readings)
        if in_both and not self.pairs:
            self.readings = []
        if self.is_measured():
            self.average(self.pairs or [Pair(*in_face_one(each.hz, each.v), each.distance) for each in self.readings])

    def is_measured(self):
        return bool(self.readings)

    def average(self, measured):
        """Takes the means, and the last reading that has all that they have."""
        self.count = len(measured)
        self.hz, self.hz_residuals = mean_direction([each.hz for each in measured])
        self.v, self.v_residuals = mean([each.v for each in measured])
        distances = [each.distance for each in measured if each.distance is not None]
        self.distance, self.distance_residuals = mean(distances) if distances else (None, [])
        self.last = [each.fields for each in self.readings if each.distance is not None or not distances][-1]

    @cached_property
    def sine(self):
        """Of V, which is how much of a slope distance is horizontal."""
        return abs(angles.sine(self.v))

    @cached_property
    def cosine(self):
        return angles.cosine(self.v)

    def unanswered(self):
        """Its last row that measured nothing because it wasn't answered well; `None` where there is none."""
        return next((row for row in reversed(self.rows) if not quantities.has_values(row)), None)

    def quality(self):
        """That of its readings."""
        return "warning" if any(each.fields.get("quality") == "warning" for each in self.readings) else "ok"

    def faces(self):
        return 2 if self.pairs else 1

    def between_faces(self, site):
        """By what its faces differ by more than the site allows."""
        limits = {"index": site.faces_within, "collimation": site.faces_within, "apart": site.faces_within_metres}
        return [
            {"apart": "distance"}.get(what, what) for what, limit in limits.items()
            if limit is not None and any(abs(getattr(pair, what) or 0) > limit for pair in self.pairs)]

    def doubts(self, site):
        """What is doubtful about its own readings."""
        found = ["one face"] if self.faces() < site.least_faces else []
        found += [f"faces differ by {what}" for what in self.between_faces(site)]
        found += dict.fromkeys(f"return code {each.fields['rc']}" for each in self.readings if each.fields.get("quality") == "warning")
        if site.station and self.distance is None and self.unanswered():
            found.append("no distance")
        return found


def place_of(site, target, orientation):
    """Easting, northing and height of a target; nothing where one of what they need is missing."""
    if site.station is None or orientation.angle is None or target.distance is None:
        return None, None, None
    along, up = orienting.along_and_up(site, target, orientation.factor, orientation.refraction)
    way = orientation.angle + target.hz
    easting, northing, height = site.station
    reflector = site.reflectors.get(target.number, Decimal(0))
    return easting + along * angles.sine(way), northing + along * angles.cosine(way), height + site.height_of_instrument + up - reflector


def listed(numbers, unit):
    """Numbers as one field, where there is more than one."""
    return " ".join(written(number, unit) for number in numbers) if len(numbers) > 1 else ""


def mean_of_pairs(target, what):
    return written(mean([getattr(pair, what) for pair in target.pairs])[0], "rad") if target.pairs else ""


def row_of(site, target, orientation, place):
    """The row of a target that was measured: it is as one of face I that has no errors."""
    row = {name: target.last.get(name, "") if name in records.COLUMNS else "" for name in NAMES}
    values = [written(target.hz, "rad"), written(target.v, "rad"), written(target.distance, "m")]
    row.update(zip(PLACE, (written(each, "m") for each in place)))
    row.update(zip(RESIDUALS, map(written, orientation.residuals.get(target.number, [None] * 3), ("rad", "m", "m"))))
    doubts = target.doubts(site) + orientation.doubts
    return row | {
        "time": target.rows[-1]["time"], "step": target.rows[-1]["step"], "sent": target.rows[0].get("sent", ""),
        "values": ",".join(filter(None, values)), "quality": "warning" if doubts else "ok", "rc": "0", "pairs": str(len(target.pairs)),
        "index_rad": mean_of_pairs(target, "index"), "collimation_rad": mean_of_pairs(target, "collimation"),
        "orientation_rad": written(orientation.angle, "rad"),
        "hz_residuals_rad": listed(target.hz_residuals, "rad"), "v_residuals_rad": listed(target.v_residuals, "rad"),
        "distance_residuals_m": listed(target.distance_residuals, "m"),
        "hz_deviation_rad": written(deviation(target.hz_residuals), "rad"),
        "v_deviation_rad": written(deviation(target.v_residuals), "rad"),
        "distance_deviation_m": written(deviation(target.distance_residuals), "m"), "freedom": str(target.count - 1),
        "faces": str(target.faces()), "references": "" if orientation.number is None else str(orientation.number),
        "left_out": " ".join(orientation.left_out), "orientation_deviation_rad": written(orientation.deviation, "rad"),
        # Without an orientation no scale was applied: the residuals are by medians then.
        "scale_ppm": "" if None in (orientation.scale, orientation.angle) else written((orientation.scale - 1) * 1_000_000, "ppm"),
        "refraction": written(orientation.refraction, "1") if site.refraction_from_references and orientation.angle is not None else "",
        "atmosphere": orientation.air[0], "atmosphere_ppm": written(orientation.air[1], "ppm"), "reason": "; ".join(doubts),
    }


def targets_of(rows, in_both=False):
    """The targets of a cycle, in the order of their first rows, by the last attempt of each command."""
    by_target = {}
    for row in records.last_attempts(rows):
        by_target.setdefault(str(int(row["target"])), []).append(row)
    return [Target(each, in_both) for each in by_target.values()]


class Reducer:
    """What cycles come to, one after the other. In the form of earlier versions a target that was measured in one face alone has no row,
    and no row says a doubt."""

    def __init__(self, site, is_earlier=False):
        self.site, self.is_earlier = site, is_earlier
        self.cycle, self.tracks = 0, {}

    def orientation(self, targets, cycle):
        """What the references say of a cycle, in its air."""
        atmosphere, said, doubts = air.air_of(self.site, records.last_attempts(cycle))
        factor = air.factor(self.site.carrier, atmosphere)
        found = orienting.orientation_of(self.site, targets, factor)
        found.doubts += doubts
        found.air = said, None if atmosphere is None else (factor - 1) * 1_000_000
        # Without its air a cycle has no coordinates.
        found.angle = None if doubts and atmosphere is None else found.angle
        return found

    def network(self, cycle, is_free):
        """A cycle as a network for GNU Gama; `None` where nobody says where the station is."""
        if self.site.station is None:
            return None
        targets, said = targets_of(cycle), f"run {cycle[0].get('run', '')}, cycle {cycle[0]['cycle']}"
        orientation = self.orientation(targets, cycle)
        return gama.network(self.site, targets, orientation, lambda target: place_of(self.site, target, orientation), said, is_free)

    def rows(self, cycle):
        """The rows that a cycle comes to: one for each target that was measured, and of each other one its last row that wasn't answered
        well."""
        targets = targets_of(cycle, self.is_earlier)
        orientation = self.orientation(targets, cycle)
        self.cycle += 1
        for target in targets:
            if target.is_measured():
                place = place_of(self.site, target, orientation)
                row = row_of(self.site, target, orientation, place)
                yield row | {"quality": target.quality()} if self.is_earlier else row | self.followed(target, place)
            elif target.unanswered():
                yield {name: target.unanswered().get(name, "") for name in NAMES}

    def followed(self, target, place):
        """What a target's coordinates come to with those of earlier cycles."""
        if None in place:
            return {}
        if target.number not in self.tracks:
            self.tracks[target.number] = movements.Track(self.site, target.number)
        moment = moments.milliseconds(target.rows[-1]["time"])
        return self.tracks[target.number].columns(self.cycle, moment, place, not target.doubts(self.site))


class Cycles:
    """Parts rows into cycles. One is over with the row of the text's last command, which is known once a cycle of the same run was
    followed by another one, where its chain can't be repeated; and else with the first row of the next. The last command is that of all
    cycles of the run so far: it may have its turn in some cycles alone. Rows of the set-up are in none."""

    def __init__(self):
        self.at, self.rows, self.last_step = None, [], None

    def take(self, fields):
        """Takes a row; gives the cycles that are over with it, each as its rows."""
        if records.is_of_setup(fields):
            return []
        at, over = (fields.get("run", ""), fields["cycle"]), []
        if at != self.at:
            over += [self.rows] if self.rows else []
            is_same_run = self.at is not None and self.at[0] == at[0]
            self.last_step = max(self.last_row_step, self.last_step or 0) if is_same_run else None
            self.at, self.rows = at, []
        self.rows.append(fields)
        self.last_row_step = int(fields["step"])
        if self.last_row_step == self.last_step and self.is_settled():
            over.append(self.rows)
            self.rows = []
        return over

    def is_settled(self):
        """Whether the last chain can't be repeated: it is among the last rows of one target, and each of them is fine. (A warning or a
        refusal may be what a chain is repeated for.)"""
        target = self.rows[-1]["target"]
        last = itertools.takewhile(lambda row: row["target"] == target, reversed(records.last_attempts(self.rows)))
        return all(quantities.has_values(row) and row.get("quality") != "warning" for row in last)
