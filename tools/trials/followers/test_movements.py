"""Movements: differences from an epoch, velocities, and both in a stated direction, by hand and by another computation."""

import math
import random
import statistics
from decimal import Decimal

import movements
import pytest
import sites
from faulty import Faulty
from surveyed import BEGIN, Survey
from test_references import PRISMS, reduced

HOUR = 3_600_000
PLACES = [f"moved_{name}_m" for name in ("easting", "northing", "height", "horizontal", "radial", "tangential")]
SPEEDS = [f"velocity_{name}_m_per_day" for name in ("easting", "northing", "height", "radial", "tangential")]


def tracked(text, *places, number="7", every=HOUR, sure=lambda cycle: True):
    """The columns of places that follow one another, each an hour behind the other, from the first of November on."""
    track, begin = movements.Track(sites.site_of(text), number), int(BEGIN.timestamp() * 1000)
    return [track.columns(cycle, begin + cycle * every, tuple(map(Decimal, place)), sure(cycle)) for cycle, place in enumerate(places)]


def test_moved_by_hand():
    """The epoch has the first two places: 0 and 2 mm have the mean 1, so 4 and 6 mm at the third place are 3 and 6 off it, and √45 apart."""
    text = "epoch 2026-11-01T00:00:00Z 2026-11-01T02:00:00Z\n"
    found = tracked(text, ("10", "20", "30"), ("10.002", "20", "30"), ("10.004", "20.006", "29.999"))
    assert found[:2] == [{}, {}]
    assert [found[2][name] for name in PLACES] == ["0.003000", "0.006000", "-0.001000", "0.006708", "", ""]
    # What is doubtful by itself isn't in the epoch, but has moved.
    found = tracked(text, ("10", "20", "30"), ("99", "20", "30"), ("10.004", "20", "30"), sure=lambda cycle: cycle == 0)
    assert found[2]["moved_easting_m"] == "0.004000"
    # A place that is given comes before the epoch.
    found = tracked(text + "initial 7 10.001 20 30\n", ("10", "20", "30"))
    assert found[0]["moved_easting_m"] == "-0.001000"
    assert tracked(text, ("10", "20", "30"), every=10 * HOUR) == [{}]


@pytest.mark.parametrize("axis, wanted", [
    # 3 m east and 4 m north of a vertical axis: away from it are 0.6 east and 0.8 north, clockwise 0.8 east and -0.6 north.
    ("axis 7 16", [Decimal("0.6") * 5 + Decimal("0.8") * 10, Decimal("0.8") * 5 - Decimal("0.6") * 10]),
    # A line to the north: to the left is west.
    ("axis 0 0 0 50", [-5, 10]),
    # One to the east: to the left is north.
    ("axis 50 0 100 0", [10, 5]),
])
def test_directions_by_hand(axis, wanted):
    """A movement of 5 mm to the east and 10 mm to the north of the place 10, 20."""
    found, = tracked(f"{axis}\ninitial 7 10 20 30\n", ("10.005", "20.010", "30"))
    assert [Decimal(found[name]) * 1000 for name in PLACES[4:]] == wanted


def test_velocity_by_hand():
    """1 mm in each hour are 24 mm a day. Of 0, 1 and 5 mm at hours 0, 1 and 2 the line rises by (5 - 0)/2 mm an hour: 60 mm a day."""
    found = tracked("velocity 0.1\naxis 0 0 0 50\n", *((10, Decimal(20 * 1000 + each) / 1000, 30) for each in (0, 1, 5, 6, 10)))
    assert [each.get("velocity_northing_m_per_day") for each in found] == [None, None, "0.060000000", "0.060000000", "0.060000000"]
    assert [found[2][name] for name in SPEEDS] == ["0.000000000", "0.060000000", "0.000000000", "0.000000000", "0.060000000"]
    # They have to reach over half of the time: 5 of 10 hours.
    found = tracked(f"velocity {Decimal(10) / 24}\n", *((10, Decimal(each) / 1000, 30) for each in range(8)))
    assert [name for name, each in enumerate(found) if each] == [5, 6, 7]
    assert found[7]["velocity_northing_m_per_day"] == "0.024000000"


@pytest.mark.parametrize("jump, known", [(-50 * 365 * 24, [30]), (365 * 24, range(30, 43))])
def test_velocity_over_a_wrong_clock(jump, known):
    """1 mm in each of 60 hours, of which one has a row with a wrong time: in the past that row alone has no velocity, and in the future
    those after it until half of a day is there again."""
    track, begin = movements.Track(sites.site_of("velocity 1"), "7"), int(BEGIN.timestamp() * 1000)
    found = [
        track.columns(cycle, begin + (cycle + jump * (cycle == 30)) * HOUR, tuple(map(Decimal, (10, f"{cycle / 1000:.3f}", 30))), True).get(SPEEDS[1])
        for cycle in range(60)]
    assert [cycle for cycle in range(12, 60) if found[cycle] is None] == list(known)
    assert {found[cycle] for cycle in range(12, 60)} == {None, "0.024000000"}


def test_velocity_by_another_computation():
    """400 places at random moments, of which some are doubtful: the slope is that of Python's own regression over the same days."""
    chance, days = random.Random(5), 3
    track, begin = movements.Track(sites.site_of(f"velocity {days}"), "7"), int(BEGIN.timestamp() * 1000)
    moment, taken, compared = begin, [], 0
    for cycle in range(400):
        moment += chance.randrange(HOUR // 60, 2 * HOUR)
        place = tuple(round(chance.gauss(1000, 0.01), 6) for _ in range(3))
        found = track.columns(cycle, moment, tuple(Decimal(str(each)) for each in place), cycle % 7 != 3)
        taken += [(moment, place)] if cycle % 7 != 3 else []
        taken = [each for each in taken if each[0] > moment - days * 24 * HOUR]
        if cycle % 7 == 3:
            assert not found
        elif found:
            for axis, name in enumerate(SPEEDS[:3]):
                line = statistics.linear_regression([(each[0] - begin) / 24 / HOUR for each in taken], [each[1][axis] for each in taken])
                assert math.isclose(float(found[name]), line.slope, abs_tol=2e-9)
            compared += 1
    assert compared > 250


def test_moves_in_rows(folder):
    """Over rows of a station: a prism that creeps by 0.1 mm an hour to the east from cycle 30 on, and one that stands."""
    survey = Survey(PRISMS | {8: (1100.0, 2100.0, 101.0)})
    cycles = [{"moved": {7: (max(0, cycle - 29) * 1e-4, 0, 0)}} for cycle in range(80)]
    rows = reduced(folder, survey, cycles, survey.line("reference", 1, 2, 3), "references at least 2 within 0.00003 0.003", "flat",
                   "epoch 2026-11-01T00:00:00Z 2026-11-02T00:00:00Z", "velocity 1", "axis 1000 2000", "mean 6")
    for cycle in range(1, 81):
        moved = max(0, cycle - 30) * 1e-4
        for target, wanted in [(7, moved), (8, 0)]:
            row = rows[cycle, target]
            assert (row["moved_easting_m"] == "") == (cycle <= 24)
            if cycle > 24:
                assert abs(float(row["moved_easting_m"]) - wanted) < 2e-5 and abs(float(row["moved_northing_m"])) < 2e-5
            if cycle > 54:
                assert abs(float(row["velocity_easting_m_per_day"]) - wanted / (moved or 1) * 0.0024) < 2e-5
    # Target 7 is in a bearing of 135 degrees: eastwards is away from the instrument, and as much anticlockwise.
    row = rows[80, 7]
    assert abs(float(row["moved_radial_m"]) - 0.005 * math.sqrt(0.5)) < 2e-5
    assert abs(float(row["moved_tangential_m"]) + 0.005 * math.sqrt(0.5)) < 2e-5
    assert abs(float(row["mean_easting_m"]) - 1150.0047500) < 3e-5 and row["mean_of"] == "6"


@pytest.mark.parametrize("text, why", [
    ("epoch 2026-11-01 2026-11-02", "epoch wants two moments"), ("epoch 2026-11-01T00:00:00Z", "epoch wants two moments"),
    ("epoch 2026-11-02T00:00:00Z 2026-11-01T00:00:00Z", "ends after its beginning"), ("velocity 0", "velocity wants days"),
    ("initial 7 1 2", "initial wants 3 numbers"), ("initial 7 1 2 3\ninitial 7 1 2 3", "line 2: a second line initial"),
    ("axis 1 2 3", "axis wants 2 or 4 numbers"), ("axis 1 2 1 2", "are the same"), ("mean 0", "mean wants a number"),
    ("mean 3 4", "mean has more than its line wants: '4'"),
])
def test_refuses_lines_of_movements(text, why):
    with pytest.raises(Faulty, match=why):
        sites.site_of(text)
