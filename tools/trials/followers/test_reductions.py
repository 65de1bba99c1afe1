"""Reductions: worked examples, each with its source, and rows of a month."""

import csv
import io
import math
import random
from decimal import Decimal

import air
import angles
import orienting
import pytest
import reductions
import sites
from growing import Growing
from killing import kill_again_and_again
from programs import ended
from records import HEAD
from sinks import messages_of, tool
from two_faces import SITE, Month

MICRO = Decimal("1e-6")


def reading(hz, v, distance=None):
    return reductions.Reading({}, Decimal(hz), Decimal(v), Decimal(distance) if distance else None)


def expect_near(found, wanted, within="1e-9"):
    assert abs(Decimal(found) - Decimal(wanted)) <= Decimal(within), f"{found} and {wanted}"


def rows_of(table):
    return list(csv.DictReader(io.StringIO(table.decode())))


def test_circle_and_series():
    """By hand: sines and bearings of angles that are known. Beside them 2000 angles of the C library, to its last places."""
    expect_near(angles.sine(angles.PI / 6), "0.5", "1e-45")
    expect_near(angles.cosine(angles.PI / 3), "0.5", "1e-45")
    expect_near(angles.bearing(Decimal(3), Decimal(4)), "0.6435011087932843868028092287173226", "1e-30")
    expect_near(angles.bearing(Decimal(-1), Decimal(0)), angles.PI * 3 / 2, "1e-45")
    expect_near(angles.bearing(Decimal(0), Decimal(-1)), angles.PI, "1e-45")
    assert angles.bearing(Decimal(0), Decimal(0)) is None
    expect_near(angles.difference(Decimal("0.00001"), Decimal("6.28318")), "0.0000153071795865", "1e-15")
    expect_near(angles.difference(Decimal("6.28318"), Decimal("0.00001")), "-0.0000153071795865", "1e-15")
    assert angles.difference(angles.PI, Decimal(0)) == +angles.PI
    chance = random.Random(1)
    for _ in range(2000):
        angle, other = chance.uniform(-20, 20), chance.uniform(-5, 5)
        expect_near(angles.sine(Decimal(angle)), math.sin(angle), "1e-15")
        expect_near(angles.cosine(Decimal(angle)), math.cos(angle), "1e-15")
        expect_near(angles.bearing(Decimal(angle), Decimal(other)), math.atan2(angle, other) % math.tau, "1e-14")


def test_pair_of_both_faces():
    """By hand, with π to ten places: 20 µrad of collimation and 15 µrad of index at the horizon; Hz lies over the circle's end in one."""
    pair = reductions.pair_of(reading("1.00002", "1.5708113268", "50.001"), reading("4.1415726536", "4.7124039804", "50.003"))
    expect_near(pair.collimation, 20 * MICRO, "2e-10")
    expect_near(pair.index, 15 * MICRO, "2e-10")
    expect_near(pair.hz, "1", "2e-10")
    expect_near(pair.v, "1.5707963268", "2e-10")
    assert pair.distance == Decimal("50.002")
    over = reductions.pair_of(reading("0.00002", "1.5707963268"), reading("3.1415726536", "4.7123889804"))
    assert over.distance is None
    expect_near(angles.difference(over.hz, Decimal(0)), 0, "2e-10")
    under = reductions.pair_of(reading("6.2831753072", "1.5707963268"), reading("3.1416126536", "4.7123889804"))
    expect_near(angles.difference(under.hz, Decimal(0)), "0.000005", "2e-10")
    expect_near(under.collimation, -15 * MICRO, "2e-10")
    # At a zenith angle of 30 degrees the sine is a half: 40 µrad in Hz are 20 µrad of collimation.
    steep = reductions.pair_of(reading("1.00004", "0.5235987756"), reading("4.1415526536", "5.7595865316"))
    expect_near(steep.collimation, 20 * MICRO, "2e-10")


def test_several_pairs():
    """By hand: 1, 2 and 6 µrad have the mean 3, residuals of 2, 1 and -3 µrad, two degrees of freedom, and a deviation of √7 µrad."""
    middle, residuals = angles.mean_direction([Decimal(6) + each * MICRO for each in (1, 2, 6)])
    expect_near(middle, Decimal("6.000003"), "1e-40")
    assert [round(each / MICRO) for each in residuals] == [2, 1, -3]
    expect_near(angles.deviation(residuals) / MICRO, "2.6457513110645905905", "1e-15")
    assert angles.deviation([Decimal(1)]) is None
    middle, _ = angles.mean_direction([Decimal("6.28318530"), Decimal("0.00000002")])
    expect_near(angles.difference(middle, Decimal(0)), "0.0000000064", "1e-10")


@pytest.mark.parametrize("nanometres, printed, places", [(658, "286.34", 2), (850, "281.8", 1)])
def test_refractivity_of_the_reference(nanometres, printed, places):
    """Manuals of Leica's instruments print these numbers for 12 °C, 1013.25 hPa and 60 %, as far as they are remembered: for visible red
    light 286.34, for infrared light 281.8. The formula is another one, that of the International Association of Geodesy (1999)."""
    found = air.refractivity(Decimal(nanometres), Decimal(12), Decimal("1013.25"), Decimal(60))
    assert str(round(found, places)) == printed


def reduced(site, hz, v, distance):
    """Where a target is that was read so in both faces."""
    two = (Decimal(hz) + angles.PI, angles.TURN - Decimal(v), distance)
    rows = [{"target": "7", "run": "", "cycle": "1", "step": str(place), "procedure": "2108", "outcome": "answered", "quality": "ok",
             "values": ",".join(map(str, values))} for place, values in enumerate([(hz, v, distance), two])]
    target, site = reductions.Target(rows), sites.site_of(site)
    return reductions.place_of(site, target, orienting.orientation_of(site, [target]))


def test_coordinates():
    """By hand. On a flat earth 2 m at a zenith angle of 30 degrees are 1 m along and √3 m up, and a bearing of 30 degrees parts 1 m into
    0.5 m and √3/2 m. Over 1000 m at 60 degrees, with k 0.13 and 6370 km, 866.025404 m along lose 0.063558 m, and 500 m up gain
    0.051217 m: (1 - k/2)/R is 1.467818e-7, (1 - k)/2R is 6.828885e-8. These two are in Leica's manuals, as far as they are remembered."""
    sixth = str(angles.PI / 6)
    east, north, height = reduced("station 10 20 30 1.5\norientation 0.25\nreflector 7 0.5\nflat", str(angles.PI / 6 - Decimal("0.25")), sixth, "2")
    expect_near(east, "10.5", "1e-40")
    expect_near(north, "20.8660254037844386467637", "1e-20")
    expect_near(height, "32.7320508075688772935274", "1e-20")
    east, north, height = reduced("station 0 0 0\norientation 0", "0", str(angles.PI / 3), "1000")
    expect_near(east, "0", "1e-40")
    expect_near(north, "865.961846", "1e-6")
    expect_near(height, "500.051217", "1e-6")
    # A reference in a bearing of atan(3/4) that reads 0.1 gives the orientation.
    east, north, _ = reduced("station 0 0 0\nreference 7 3 4\nflat", "0.1", str(angles.PI / 2), "5")
    expect_near(east, "3", "1e-40")
    expect_near(north, "4", "1e-40")
    # Air in which light is slower by 10 ppm than at the reference makes a distance 10 ppm shorter.
    site = sites.site_of("atmosphere -2 1000 50\ncarrier 658 100")
    slower = air.refractivity(Decimal(658), Decimal(-2), Decimal(1000), Decimal(50)) - 100
    expect_near(air.factor(site.carrier, site.atmosphere), 1 - slower / 1_000_000, "1e-7")


@pytest.mark.parametrize("text, why", [
    ("station 1 2 3", "a station wants one of both"), ("station 1 2\norientation 0", "line 1: station wants 3 or 4 numbers"),
    ("height 2", "line 1: no line begins with 'height'"), ("flat\nflat", "line 2: a second line flat"), ("reflector x 1", "wants a target"),
    ("atmosphere 12 760 60\natmosphere 12 29 60", "line 2: a second line"), ("atmosphere 12 29.9 60", "out of its range"),
    ("orientation nan", "wants 1 numbers"),
])
def test_refuses_a_site(folder, text, why):
    (folder / "site").write_text(text, encoding="utf-8")
    (folder / "values.csv").write_bytes(HEAD)
    messages = messages_of(tool("reduce", folder / "values.csv", folder / "site"), 1)
    assert why in messages and messages.count("\n") == 1, messages


def test_reduces_a_month(folder, note):
    """Rows of both faces, in the noise of their last places alone: the errors of the instrument and the coordinates come back."""
    month = Month(cycles=40, bad={9: (range(5, 8), "lost")})
    path, site = folder / "values.csv", folder / "site"
    path.write_bytes(month.table())
    site.write_text(SITE, encoding="utf-8")
    status, output, messages = ended(tool("reduce", path, site), patience=60)
    assert (status, messages) == (0, "")
    rows = rows_of(output)
    assert len(rows) == 120
    for row in rows:
        cycle, target = int(row["cycle"]), int(row["target"])
        if target == 9 and 5 <= cycle < 8:
            assert (row["outcome"], row["quality"], row["pairs"]) == ("lost", "", "")
            continue
        assert (row["outcome"], row["quality"], row["pairs"], row["freedom"], row["procedure"]) == ("answered", "ok", "1", "0", "2108")
        expect_near(row["index_rad"], month.index, "2e-9")
        expect_near(row["collimation_rad"], month.collimation, "2e-9")
        place = [row[f"target_{name}_m"] for name in ("easting", "northing", "height")]
        for found, wanted in zip(place, month.position(target, cycle)):
            expect_near(found, wanted, "6e-6")
        hz, v, _ = map(float, row["values"].split(","))
        assert 0 <= hz < math.tau and 0 < v < math.pi
    note(f"{len(rows)} rows")


def test_two_pairs_have_residuals(folder):
    """A target that is measured twice in each face in a cycle, in any order of the faces."""
    month = Month(cycles=1, targets={7: ("pier 4", (1090.0, 2040.0, 103.0))}, noise=3e-6)
    once, again = list(month.rows(3))[0], list(month.rows(4))[0]
    path, site = folder / "values.csv", folder / "site"
    path.write_bytes(HEAD + b"".join(once + again[3:] + again[:3]))
    site.write_text(SITE, encoding="utf-8")
    row, = rows_of(ended(tool("reduce", path, site), patience=60).output)
    assert (row["pairs"], row["freedom"]) == ("2", "1")
    for name, unit in ("hz", "rad"), ("v", "rad"), ("distance", "m"):
        one, two = map(Decimal, row[f"{name}_residuals_{unit}"].split())
        assert one == -two != 0
        # Of two observations the deviation is √2 times a residual.
        expect_near(row[f"{name}_deviation_{unit}"], abs(one) * Decimal(2).sqrt(), "2e-6" if unit == "m" else "2e-10")


def test_reduces_as_a_file_grows(folder, note):
    """Killed over a file that grows: what was appended is what is made of the whole file at once, but for its last cycle; also what
    follows from many cycles."""
    text = SITE + "mean 5\nvelocity 0.5\nepoch 2026-11-01T00:00:00Z 2026-11-01T05:00:00Z\n"
    whole = [line for rows in Month(cycles=400, noise=2e-6).rows() for line in rows]
    path, site, made = folder / "values.csv", folder / "site", folder / "reduced.csv"
    site.write_text(text, encoding="utf-8")
    grows = Growing(path, 5, line=lambda _, number: whole[number % len(whole)], rest=0.03)
    command = tool("reduce", path, site, "--append", made, "--rest", "0.02")
    try:
        kill_again_and_again(12, 7, command)
    finally:
        grows.end()
    messages_of([*command, "--once"])
    wanted = ended(tool("reduce", path, site), patience=60).output
    found = made.read_bytes()
    assert found.endswith(b"\n") and wanted.startswith(found)
    assert wanted[len(found):].count(b"\n") <= 3
    assert found.count(b"\n") > 20
    assert [row["mean_of"] for row in rows_of(found)][-1] == "5" and [row["velocity_easting_m_per_day"] for row in rows_of(found)][-1]
    site.write_text(text.replace("orientation 0.5", "orientation 0.6"), encoding="utf-8")
    assert "has other rows than these come to" in messages_of([*command, "--once"], 1)
    note(f"12 kills, {found.count(chr(10).encode()) - 1} rows")


def test_a_cycle_has_all_its_rows():
    """Where the text's last command has its turn in every third cycle, a cycle that has it is over with it, and any other with the first row of
    the next one. So is the first of each run."""
    def taken(rows):
        cycles = reductions.Cycles()
        for run, cycle, place in rows:
            fields = {"run": run, "cycle": str(cycle), "step": str(place), "target": str(place), "attempt": "1", "quality": "ok", "outcome": "answered",
                      "rc_com": "0", "rc": "0", "values": ""}
            yield (run, cycle, place), [[(row["run"], int(row["cycle"]), int(row["step"])) for row in over] for over in cycles.take(fields)]

    rows = [("a", cycle, place) for cycle in range(1, 6) for place in (0, 1, 2) if place < 2 or cycle in (1, 4)] + [("b", 1, 0), ("b", 1, 1)]
    over = [(row, cycle) for row, cycles in taken(rows) for cycle in cycles]
    assert [cycle for _, cycle in over] == [[row for row in rows if row[:2] == at] for at in (("a", 1), ("a", 2), ("a", 3), ("a", 4), ("a", 5))]
    assert [row for row, _ in over] == [("a", 2, 0), ("a", 3, 0), ("a", 4, 0), ("a", 4, 2), ("b", 1, 0)]


def test_the_last_attempt_is_reduced(folder):
    """Where chains are repeated, and the set-up between them, the rows are those of the last attempts; also as the file grows, where a
    cycle is over with the last attempt of its last chain."""
    site = folder / "site"
    site.write_text(SITE, encoding="utf-8")
    tables = Month(cycles=5, noise=2e-6).tables_of_attempts()
    for name, table in zip(("both", "last"), tables):
        (folder / name).write_bytes(table)
    both, last = (ended(tool("reduce", folder / name, site), patience=60).output for name in ("both", "last"))
    assert both == last
    assert [(row["quality"], row["attempt"]) for row in rows_of(both)] == [("ok", "2")] * 15
    messages_of(tool("reduce", folder / "both", site, "--append", folder / "made", "--once"))
    assert (folder / "made").read_bytes() == last
