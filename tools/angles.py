"""Angles and lengths as exact decimals: all arithmetic on the circle and of the two faces lives here. No number is ever a float.

Angles are radians. A telescope is in face I where its vertical angle V, counted from the zenith, is below half a turn, and in face II
above it. The same point reads Hz ± π and 2π − V in face II.
"""

from decimal import ROUND_HALF_EVEN, Decimal, getcontext

getcontext().prec = 50
PI = Decimal("3.14159265358979323846264338327950288419716939937510582097494459230782")
TURN = 2 * PI
# What half a turn is in the units that people read.
UNITS = {"gon": Decimal(200), "degree": Decimal(180)}
# What is written: a tenth of a nanoradian, a micrometre, a nanometre a day, and of a coefficient and of ppm four places.
LAST_PLACE = {
    "rad": Decimal("1e-10"), "m": Decimal("1e-6"), "m_per_day": Decimal("1e-9"), "ppm": Decimal("1e-4"), "1": Decimal("1e-4")}


def written(number, unit):
    """A number as it is written; nothing of none."""
    if number is None:
        return ""
    rounded = number.quantize(LAST_PLACE[unit], ROUND_HALF_EVEN)
    return format(abs(rounded) if rounded == 0 else rounded, "f")


def in_unit(angle, unit):
    """Radians in a unit that people read."""
    return angle / PI * UNITS[unit]


def of_unit(number, unit):
    """Radians of a number in such a unit."""
    return number / UNITS[unit] * PI


def on_circle(angle):
    """The same direction from 0 on, below a whole turn."""
    angle %= TURN
    return angle + TURN if angle < 0 else angle


def difference(angle, reference):
    """How far an angle is from another one, the shorter way round: above -π, at most π."""
    apart = on_circle(angle - reference)
    return apart - TURN if apart > PI else apart


def face_of(v):
    """1 or 2."""
    return 1 if on_circle(v) <= PI else 2


def in_face_one(hz, v):
    """A direction as it reads in face I, without the errors of the instrument."""
    return (on_circle(hz + PI), on_circle(-v)) if face_of(v) == 2 else (hz, v)


def sine(angle):
    """By its series, on the half turn around 0."""
    angle = difference(angle, Decimal(0))
    term, total, number = angle, Decimal(0), 1
    while total + term != total:
        total += term
        number += 2
        term *= -angle * angle / (number * (number - 1))
    return +total


def cosine(angle):
    return sine(angle + PI / 2)


def bearing(easting, northing):
    """The direction from 0 to a point, clockwise from north; `None` of the same point."""
    if easting == northing == 0:
        return None
    # The half of an angle to the northing has this tangent, and no more than a quarter turn.
    reach = (easting * easting + northing * northing).sqrt()
    if northing < 0 and easting == 0:
        return +PI
    return on_circle(2 * arc_tangent(easting / (reach + northing)))


def arc_tangent(tangent):
    """By its series, after three halvings."""
    for _ in range(3):
        tangent /= 1 + (1 + tangent * tangent).sqrt()
    term, total, number = tangent, Decimal(0), 1
    while total + term / number != total:
        total += term / number
        number += 2
        term *= -tangent * tangent
    return 8 * total


def mean(numbers):
    """The mean, and what each lacks to it."""
    middle = sum(numbers) / len(numbers)
    return middle, [middle - number for number in numbers]


def mean_direction(angles):
    """The same of directions, on the circle. They lie within a quarter turn of the first one."""
    offset, residuals = mean([difference(angle, angles[0]) for angle in angles])
    return on_circle(angles[0] + offset), residuals


def median(numbers):
    """The middle one in their order, or the mean of both."""
    numbers = sorted(numbers)
    return (numbers[(len(numbers) - 1) // 2] + numbers[len(numbers) // 2]) / 2


def median_direction(angles):
    """The same of directions, counted from the one that is next to all others; `None` of none."""
    if not angles:
        return None
    first = min(angles, key=lambda angle: sum(abs(difference(each, angle)) for each in angles))
    return on_circle(first + median([difference(angle, first) for angle in angles]))


def deviation(residuals):
    """The standard deviation of one observation; `None` of one alone."""
    if len(residuals) < 2:
        return None
    return (sum(each * each for each in residuals) / (len(residuals) - 1)).sqrt()
