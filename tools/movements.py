"""What a target's coordinates come to over cycles: means, movements since a reference epoch, and velocities. All is computed from
coordinates as they are written, in whole micrometres: so it can be checked from the table alone. The rules are in `docs/COORDINATES.md`.
"""

from collections import deque
from decimal import Decimal

from angles import written
from moments import DAY

MEAN_COLUMNS = [
    "mean_of", "mean_easting_m", "mean_northing_m", "mean_height_m", "mean_easting_deviation_m", "mean_northing_deviation_m",
    "mean_height_deviation_m",
]
MOVED_COLUMNS = [
    "moved_easting_m", "moved_northing_m", "moved_height_m", "moved_horizontal_m", "moved_radial_m", "moved_tangential_m",
]
VELOCITY_COLUMNS = [
    "velocity_easting_m_per_day", "velocity_northing_m_per_day", "velocity_height_m_per_day", "velocity_radial_m_per_day",
    "velocity_tangential_m_per_day",
]
COLUMNS = MEAN_COLUMNS + MOVED_COLUMNS + VELOCITY_COLUMNS
METRE = 1_000_000


def micrometres(place):
    """The coordinates of a place as they are written."""
    return tuple(int(Decimal(written(each, "m")) * METRE) for each in place)


def metres(place):
    return tuple(Decimal(each) / METRE for each in place)


class Mean:
    """The mean of the coordinates in the last cycles, of those cycles that have them."""

    def __init__(self, cycles):
        self.cycles, self.kept = cycles, deque()

    def take(self, cycle, place):
        self.kept.append((cycle, place))
        while self.kept[0][0] <= cycle - self.cycles:
            self.kept.popleft()

    def columns(self):
        """How many there are, their mean, and the standard deviation of that, where there are two."""
        many = len(self.kept)
        sums = [sum(axis) for axis in zip(*(place for _, place in self.kept))]
        squares = [sum(each * each for each in axis) for axis in zip(*(place for _, place in self.kept))]
        means = [Decimal(each) / many / METRE for each in sums]
        deviations = [
            (Decimal(many * square - each * each) / (many * many * (many - 1))).sqrt() / METRE if many > 1 else None
            for each, square in zip(sums, squares)]
        return dict(zip(MEAN_COLUMNS, [str(many), *(written(each, "m") for each in means + deviations)]))


class Epoch:
    """The mean place from one moment until another, which is known once that has passed."""

    def __init__(self, begin, end):
        self.begin, self.end, self.many, self.sums = begin, end, 0, (0, 0, 0)

    def take(self, moment, place):
        if self.begin <= moment < self.end:
            self.many, self.sums = self.many + 1, tuple(map(sum, zip(self.sums, place)))

    def place(self, moment):
        return tuple(Decimal(each) / self.many / METRE for each in self.sums) if self.many and moment >= self.end else None


class Velocity:
    """How fast the coordinates change over the last days: the slope of the straight line through them by least squares, where there are
    three at least, which reach over half of that time."""

    def __init__(self, days):
        self.span, self.kept = max(1, int(days * DAY)), deque()
        # What has a time later than the last one, as where the clock was set back; the earliest one comes last.
        self.ahead = []
        self.times, self.squares, self.sums, self.products = 0, 0, [0, 0, 0], [0, 0, 0]
        self.origin = None

    def take(self, moment, place):
        self.origin = moment if self.origin is None else self.origin
        now = moment - self.origin
        while self.kept and self.kept[-1][0] > now:
            self.ahead.append(self.kept.pop())
            self.add(*self.ahead[-1], -1)
        while self.ahead and self.ahead[-1][0] <= now:
            self.keep(*self.ahead.pop())
        self.keep(now, place)
        while self.kept[0][0] <= now - self.span:
            self.add(*self.kept.popleft(), -1)

    def keep(self, time, place):
        self.kept.append((time, place))
        self.add(time, place, 1)

    def add(self, time, place, sign):
        """Adds a place to the sums, or takes it out of them; they are whole numbers, so nothing is lost."""
        self.times += sign * time
        self.squares += sign * time * time
        for axis, each in enumerate(place):
            self.sums[axis] += sign * each
            self.products[axis] += sign * time * each

    def slopes(self):
        """In metres a day; nothing where they aren't known."""
        many = len(self.kept)
        below = many * self.squares - self.times * self.times
        if many < 3 or 2 * (self.kept[-1][0] - self.kept[0][0]) < self.span or not below:
            return None
        return tuple(
            Decimal((many * product - self.times * each) * DAY) / (below * METRE) for each, product in zip(self.sums, self.products))


def across_and_along(axis, place, change):
    """The radial and the tangential part of a change at a place. Of a vertical axis: away from it, and clockwise around it. Of the line
    from one point to another: to its left, and along it."""
    if len(axis) == 2:
        radial = [there - here for there, here in zip(place, axis)]
    else:
        easting, northing = axis[2] - axis[0], axis[3] - axis[1]
        radial = [-northing, easting]
    length = (radial[0] * radial[0] + radial[1] * radial[1]).sqrt()
    if not length:
        return None, None
    east, north = radial[0] / length, radial[1] / length
    return east * change[0] + north * change[1], north * change[0] - east * change[1]


class Track:
    """What is known of a target over the cycles."""

    def __init__(self, site, number):
        self.axis = site.axis
        self.mean = Mean(site.mean) if site.mean else None
        self.initial = site.initial.get(number)
        self.epoch = Epoch(*site.epoch) if site.epoch and not self.initial else None
        self.velocity = Velocity(site.days) if site.days else None

    def columns(self, cycle, moment, place, is_sure):
        """What the coordinates in a cycle come to. Those that are doubtful by the target's own readings enter nothing."""
        place, found = micrometres(place), {}
        if is_sure:
            if self.mean:
                self.mean.take(cycle, place)
                found |= self.mean.columns()
            if self.epoch:
                self.epoch.take(moment, place)
            if self.velocity:
                self.velocity.take(moment, place)
        first = self.initial or (self.epoch.place(moment) if self.epoch else None)
        if first:
            found |= self.moved(first, metres(place))
        slopes = self.velocity.slopes() if self.velocity and is_sure else None
        if slopes:
            parts = self.parts(first or metres(place), slopes)
            found |= dict(zip(VELOCITY_COLUMNS, (written(each, "m_per_day") for each in (*slopes, *parts))))
        return found

    def parts(self, place, change):
        return across_and_along(self.axis, place, change) if self.axis else (None, None)

    def moved(self, first, place):
        """How far a place is from the first one."""
        change = [there - here for there, here in zip(place, first)]
        level = (change[0] * change[0] + change[1] * change[1]).sqrt()
        return dict(zip(MOVED_COLUMNS, (written(each, "m") for each in (*change, level, *self.parts(first, change)))))
