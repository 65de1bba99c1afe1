"""What the references of a cycle say: the orientation of the circle, and where it is wanted the scale and the refraction; which of them
are left out, and each one's residuals. The rules are in `docs/COORDINATES.md`, "References".
"""

from dataclasses import dataclass, field
from decimal import Decimal

from angles import bearing, deviation, difference, mean_direction, median, median_direction, on_circle

# What lies outside is no air's: references are too near, or too high.
MOST_REFRACTION = 10


@dataclass
class Orientation:
    """The bearing of the circle's zero in a cycle; nothing where it isn't known. What a reference lacks to where it is said to be is in
    the residuals: of its direction, its horizontal distance and its height."""

    angle: Decimal = None
    # The standard deviation of the mean, and how many references are in it; nothing of an orientation that is given.
    deviation: Decimal = None
    number: int = None
    # Of each reference that was left out why.
    left_out: dict = field(default_factory=dict)
    residuals: dict = field(default_factory=dict)
    # What measured distances are multiplied by, for the air and by the scale, and what they are by the scale alone, where it is from
    # references; the coefficient of refraction.
    factor: Decimal = Decimal(1)
    scale: Decimal = None
    refraction: Decimal = None
    # What the air was read from, and by how many ppm it changes distances.
    air: tuple = ("", None)
    # What is doubtful about all coordinates of the cycle.
    doubts: list = field(default_factory=list)


def along_and_up(site, target, factor, refraction):
    """The horizontal distance to a target, and how high it is above the instrument's axis; nothing of one without a distance."""
    if target.distance is None:
        return None
    slope = target.distance * factor
    along, up = slope * target.sine, slope * target.cosine
    if site.earth:
        radius = site.earth[1]
        along, up = (along - (1 - refraction / 2) / radius * up * along, up + (1 - refraction) / (2 * radius) * along * along)
    return along, up


class Reference:
    """A reference that was measured, and where it should be: in easting and northing from the instrument, in horizontal distance and,
    where that is known, in height above its axis."""

    def __init__(self, site, target):
        self.target, self.number = target, target.number
        self.east, self.north, *height = (there - here for there, here in zip(site.references[target.number], site.station))
        self.way = bearing(self.east, self.north)
        self.along = (self.east * self.east + self.north * self.north).sqrt()
        self.up = height[0] + site.reflectors.get(target.number, Decimal(0)) - site.height_of_instrument if height else None
        # What the circle's zero is by this one alone.
        self.angle = None if self.way is None else on_circle(self.way - target.hz)

    def has_distance(self):
        return self.target.distance is not None

    def bend(self, factor):
        """Its horizontal distance squared, and how far it is above a straight line, as curvature and refraction lift it; `None` where its
        height isn't known."""
        if self.up is None or not self.has_distance():
            return None
        slope = self.target.distance * factor
        along = slope * self.target.sine
        return along * along, self.up - slope * self.target.cosine

    def ratio(self, site, found):
        """Its horizontal distance, as it is measured, and as it should be."""
        measured = along_and_up(site, self.target, found.factor, found.refraction)
        return (measured[0], self.along) if measured else None

    def residuals(self, site, angle, factor, refraction):
        """What it lacks in direction, horizontal distance and height."""
        measured = along_and_up(site, self.target, factor, refraction)
        return (
            difference(self.angle, angle), self.along - measured[0] if measured else None,
            self.up - measured[1] if measured and self.up is not None else None)


def orientation_of(site, targets, factor=Decimal(1)):
    """What the references of a cycle say, of which the distances are multiplied by a factor; or the site's own orientation."""
    refraction = site.earth[0] if site.earth else None
    if site.station is None or site.orientation is not None:
        return Orientation(site.orientation, factor=factor, refraction=refraction)
    measured = [Reference(site, target) for target in targets if target.is_measured() and target.number in site.references]
    measured = [reference for reference in measured if reference.angle is not None]
    found = Orientation(number=0, factor=factor, refraction=refraction)
    found.left_out = {each.number: "its faces" for each in measured if each.target.between_faces(site)}
    kept = [each for each in measured if each.number not in found.left_out]
    leave_out(site, found, kept, factor)
    kept = [each for each in kept if each.number not in found.left_out]
    found.doubts = list(doubts_of(site, found, measured, kept))
    found.number = len(kept)
    if len(kept) < site.least_references:
        found.doubts.append(f"{len(kept)} of at least {site.least_references} references")
    elif tune(site, found, kept, factor, fitted):
        found.angle, residuals = mean_direction([each.angle for each in kept])
        one = deviation(residuals)
        found.deviation = one / Decimal(len(kept)).sqrt() if one is not None else None
    # Where there is no orientation the residuals are from the median.
    about = found.angle if found.angle is not None else median_direction([each.angle for each in measured])
    found.residuals = {each.number: each.residuals(site, about, found.factor, found.refraction) for each in measured}
    return found


def doubts_of(site, found, measured, kept):
    """What is doubtful about the references of a cycle."""
    for number in sorted(set(site.references) - {each.number for each in measured}, key=int):
        yield f"reference {number} not measured"
    for each in kept:
        if each.target.faces() < site.least_faces:
            yield f"reference {each.number} in one face"
    for number, why in found.left_out.items():
        yield f"reference {number} left out by {why}"


def fitted(pairs):
    """The factor of the first numbers by which they come next to the second ones, by least squares."""
    return sum(one * other for one, other in pairs) / sum(one * one for one, _ in pairs)


def middle(pairs):
    """The median of the factors, in which one that is wrong has no part."""
    return median([other / one for one, other in pairs])


def tune(site, found, references, air, factor_of):
    """Sets the refraction and the scale, where they are from references, by a rule for the factor of pairs; whether they are known."""
    found.factor = air
    if site.refraction_from_references:
        bends = [bend for bend in (each.bend(air) for each in references) if bend and bend[0]]
        refraction = 1 - 2 * site.earth[1] * factor_of(bends) if bends else None
        if refraction is None or abs(refraction) > MOST_REFRACTION:
            found.doubts.append("no refraction of references")
            return False
        found.refraction = refraction
    if site.scale_from_references:
        ratios = [ratio for ratio in (each.ratio(site, found) for each in references) if ratio and ratio[0]]
        if not ratios:
            found.doubts.append("no scale of references")
            return False
        found.scale = factor_of(ratios)
        found.factor = air * found.scale
    return True


def leave_out(site, found, references, air):
    """Leaves out each reference whose direction is further from the median of all than the site allows, or whose distance or height is
    further from what it should be, by the medians of scale and refraction where these are from references. All are compared at once."""
    if not references or site.within is None:
        return
    if not tune(site, found, references, air, middle):
        return
    about = median_direction([each.angle for each in references])
    for each in references:
        residuals = each.residuals(site, about, found.factor, found.refraction)
        limits = [site.within, site.within_metres, site.within_metres]
        for what, residual, limit in zip(("direction", "distance", "height"), residuals, limits):
            if None not in (residual, limit) and abs(residual) > limit:
                found.left_out.setdefault(each.number, what)
