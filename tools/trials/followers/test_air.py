"""The air, the scale and the refraction of each cycle: from columns of rows, from a file with times, and from references, by hand."""

import csv
import io
from decimal import Decimal

import air
import orienting
import pytest
import sites
from faulty import Faulty
from programs import ended
from records import HEAD
from sinks import messages_of, tool
from surveyed import Survey
from test_references import PRISMS, QUARTER, read, reduced

EAST, NORTH = QUARTER, Decimal(0)


def makers_ppm(celsius, hectopascals, percent):
    """By what makers of instruments print for red light, as far as it is remembered; another formula than that of `tools`."""
    warmth = 1 + celsius / 273.15
    vapour = 10 ** (7.5 * celsius / (237.3 + celsius) + 0.7857)
    return 286.34 - (0.29525 * hectopascals / warmth - 4.126e-4 * percent / warmth * vapour)


def tuned(text, *targets):
    return orienting.orientation_of(sites.site_of("station 0 0 0 0\nfaces at least 1\n" + text), list(targets))


def test_scale_by_hand():
    """100 and 300 m that read 0 and 6 mm too much: the sum of 300 m times 6 mm over 100² + 300² m² is 18 ppm."""
    text = "flat\nreference 1 0 100\nreference 2 300 0\nscale from references\n"
    found = tuned(text, read("1", 0, distance="100"), read("2", EAST, distance="300.006"))
    assert round((found.scale - 1) * 1_000_000, 3) == Decimal("-18.000") and round(found.factor - found.scale, 20) == 0
    # The residuals are those that remain: 1.8 mm, and 5.4 mm less than 6.
    assert [round(found.residuals[number][1], 4) for number in "12"] == [Decimal("0.0018"), Decimal("-0.0006")]
    found = tuned(text, read("1", 0, distance="100.001"), read("2", EAST, distance="300.003"))
    assert round(1 / found.scale, 12) == Decimal("1.00001")
    assert not any(round(each[1], 12) for each in found.residuals.values())
    # Of three the one that moved by 20 mm along the line of sight has no part.
    text = text.replace("scale", "reference 3 0 -200\nreferences at least 2 within 0.0001 0.005\nscale")
    found = tuned(text, read("1", 0, distance="100.001"), read("2", EAST, distance="300.003"), read("3", 2 * EAST, distance="200.022"))
    assert found.left_out == {"3": "distance"} and round(1 / found.scale, 12) == Decimal("1.00001")
    assert round(found.residuals["3"][1], 5) == Decimal("-0.02000")
    # Directions alone say no scale.
    found = tuned("flat\nreference 1 0 100\nscale from references\n", read("1", 0, distance=""))
    assert found.angle is None and found.doubts == ["no scale of references"]


def test_refraction_by_hand():
    """1000 m away at the horizon a point is (1 - k)/2R · Y² up: with k 0.2 and 6370 km that is 0.8e6/12.74e6 = 0.0627943 m."""
    text = "reference 1 0 1000 0.0627943\nreference 2 2000 0 0.2511774\nrefraction from references\n"
    found = tuned(text, read("1", 0, distance="1000"), read("2", EAST, distance="2000"))
    assert round(found.refraction, 4) == Decimal("0.2000")
    along, up = orienting.along_and_up(sites.site_of(text), read("7", 0, distance="500"), found.factor, found.refraction)
    assert (round(along, 6), round(up, 6)) == (500, Decimal("0.015699"))
    # 100 m where 1000 should be: no air has such a refraction.
    found = tuned(text, read("1", 0, distance="100"))
    assert found.angle is None and found.doubts == ["reference 2 not measured", "no refraction of references"]
    found = tuned(text.replace("0.0627943", ""), read("1", 0, distance="1000"))
    assert found.doubts == ["reference 2 not measured", "no refraction of references"]


def test_another_formula():
    """The refractivity is that which makers print, to a quarter of a ppm between -10 and 35 °C; and what the constant is wrong by there:
    500 m differ by 23 mm."""
    for celsius in range(-10, 36, 5):
        for hectopascals in 850, 950, 1013.25:
            factor = air.factor((Decimal(658), Decimal("286.34")), (Decimal(celsius), Decimal(hectopascals), Decimal(60)))
            assert abs(float(factor - 1) * 1e6 - makers_ppm(celsius, hectopascals, 60)) < 0.25, (celsius, hectopascals)
    assert round((makers_ppm(35, 1013.25, 60) - makers_ppm(-10, 1013.25, 60)) * 0.5) == 23


def survey_of_seasons():
    """Cycles in air of which distances read too short or too long, as an instrument measures that corrects nothing."""
    survey = Survey({7: (1500.0, 2000.0, 101.65)})
    airs = [(-10.0, 990.0, 60), (12.0, 1013.25, 60), (35.0, 980.0, 60)]
    return survey, airs, [{"factor": 1 / (1 + makers_ppm(*each) * 1e-6)} for each in airs]


def test_air_of_a_file(folder):
    """By cycle, the last line that isn't later than its beginning: coordinates stay within a quarter of a ppm of 500 m, where with a
    constant they move by 23 mm. A line that is too old is none, and then there are no coordinates, or those of the constant."""
    survey, airs, cycles = survey_of_seasons()
    lines = [f"2026-11-01T{hour:02}:00:00Z,{air[0]},{air[1]},{air[2]}" for hour, air in enumerate(airs)]
    (folder / "air.csv").write_text("time,temperature_c,pressure_hpa,humidity_percent\n" + "\n".join(lines) + "\n2026-11", encoding="ascii")
    rows = reduced(folder, survey, [*cycles, {}, {}], "orientation 0.5", "flat", "atmosphere file air.csv 3700")
    for cycle, each in enumerate(airs, 1):
        row = rows[cycle, 7]
        assert (row["atmosphere"], row["quality"]) == ("file", "ok")
        assert abs(float(row["atmosphere_ppm"]) - makers_ppm(*each)) < 0.25
        assert abs(float(row["target_easting_m"]) - 1500) < 2e-4, row
    assert [rows[cycle, 7]["atmosphere"] for cycle in (4, 5)] == ["file", ""]
    assert (rows[5, 7]["target_easting_m"], rows[5, 7]["quality"], rows[5, 7]["reason"]) == ("", "warning", "the air wasn't measured")
    rows = reduced(folder, survey, cycles, "orientation 0.5", "flat", "atmosphere file air.csv 60", "atmosphere 12 1013.25 60")
    assert [rows[cycle, 7]["atmosphere"] for cycle in (1, 2, 3)] == ["file"] * 3
    rows = reduced(folder, survey, [*cycles, {}], "orientation 0.5", "flat", "atmosphere file air.csv 60", "atmosphere 12 1013.25 60")
    assert [rows[4, 7][name] for name in ("atmosphere", "quality", "reason")] == ["constant", "warning", "the air wasn't measured"]
    rows = reduced(folder, survey, cycles, "orientation 0.5", "flat", "atmosphere 12 1013.25 60")
    assert [rows[cycle, 7]["atmosphere"] for cycle in (1, 2, 3)] == ["constant"] * 3
    eastings = [float(rows[cycle, 7]["target_easting_m"]) for cycle in (1, 2, 3)]
    assert max(eastings) - min(eastings) > 0.02


def test_air_of_columns(folder):
    """The last numbers of the cycle's rows: of whichever rows have them."""
    survey, airs, cycles = survey_of_seasons()
    head = HEAD[:-1] + b",air_c,air_hpa\n"
    rows = [row for number, (each, what) in enumerate(zip(airs, cycles), 1) for row in survey.cycle(number, more=f",{each[0]},{each[1]}", **what)]
    rows += survey.cycle(4, more=",,1000") + survey.cycle(5, more=",200,1000")
    survey.table = lambda _: head + b"".join(rows)
    found = reduced(folder, survey, [], "orientation 0.5", "flat", "atmosphere columns air_c air_hpa")
    for cycle, each in enumerate(airs, 1):
        assert found[cycle, 7]["atmosphere"] == "columns"
        assert abs(float(found[cycle, 7]["target_easting_m"]) - 1500) < 2e-4
    assert [found[cycle, 7]["reason"] for cycle in (4, 5)] == ["the air wasn't measured"] * 2


def test_a_file_of_air_grows(folder):
    """It is read again where it was changed."""
    path = folder / "air.csv"
    path.write_text("time,temperature_c,pressure_hpa\n2026-11-01T00:00:00+01:00,12,1013\n", encoding="ascii")
    file, row = air.File(folder, "air.csv", 3600), {"time": "2026-11-01T00:30:00.000Z"}
    assert file.of([row]) is None and file.of([{**row, "sent": "2026-10-31T23:59:59.000Z"}]) == (12, 1013, 60)
    with open(path, "a", encoding="ascii") as more:
        more.write("2026-11-01T00:30:00Z,13,1012\n2026-11-01T00:30:01Z,14,1012\n")
    assert file.of([row]) == (13, 1012, 60)


@pytest.mark.parametrize("text, why", [
    ("scale from references", "a scale from references wants lines reference"),
    ("refraction from references\nreference 1 1 1", "wants lines reference with a height"), ("scale 1", "line 1: scale wants: from references"),
    ("atmosphere columns temperature_c", "wants the names of two or three columns"), ("atmosphere file", "line 1: atmosphere file wants a path"),
    ("atmosphere file air.csv x", "wants a number from 1"), ("atmosphere file a\natmosphere columns b c", "line 2: a second line atmosphere"),
    ("atmosphere 1 2 3 4", "line 1: atmosphere wants 3 numbers"),
])
def test_refuses_lines_of_air(text, why):
    with pytest.raises(Faulty, match=why.replace("(", r"\(")):
        sites.site_of(text)


@pytest.mark.parametrize("text, why", [
    ("", "its columns aren't time,temperature_c"), ("time,temperature_c\n", "its columns aren't"), (None, "No such file or directory"),
    ("\0time,temperature_c,pressure_hpa\n", "its columns aren't"),
])
def test_refuses_a_file_of_air(folder, text, why):
    survey = Survey({7: PRISMS[7]})
    (folder / "values.csv").write_bytes(survey.table([{}]))
    (folder / "site").write_text("atmosphere file air.csv\n", encoding="ascii")
    if text is not None:
        (folder / "air.csv").write_text(text, encoding="ascii")
    messages = messages_of(tool("reduce", folder / "values.csv", folder / "site"), 1)
    assert why in messages and messages.count("\n") == 1 and f"{folder}/air.csv: " in messages, messages


@pytest.mark.parametrize("line, why", [
    (b"2026-11-01T00:10:00Z,12", "it has 2 fields for 3 columns"), (b"2026-11-01T00:10:00,12,1000", "2026-11-01T00:10:00 says no zone"),
    (b"2026-11-01T00:10:00Z,12,29.9", "atmosphere has a number out of its range"), (b"2026-11-01T00:00:00Z,12,1000", "its time isn't after the one before it"),
    (b"2026-11-01T00:10:00Z,nan,1000", "a field is no number"), (b"2026-11-01T00:10:00Z,\xff,1000", "a field is no number"), (b'2026-11-01T00:10:00Z,"12,1000', "unexpected end of data"),
    (b"", "it has 0 fields for 3 columns"), (b"2026-11-01T00:10:00Z,\0,1000", "a field is no number"), (b"time,temperature_c,pressure_hpa", "a field is no number"),
])
def test_a_bad_line_of_air_is_left_out(folder, line, why):
    """It is reported once, also where the file is read again, and costs the cycles after it no more than its own air: they have that of the
    line before it, as long as that isn't too old."""
    survey = Survey({7: PRISMS[7]}, every=1200)
    (folder / "values.csv").write_bytes(survey.table([{}] * 5))
    (folder / "site").write_text(survey.text("orientation 0.5", "flat", "atmosphere file air.csv 3000"), encoding="ascii")
    (folder / "air.csv").write_bytes(b"time,temperature_c,pressure_hpa\n2026-11-01T00:00:00Z,12,1000\n" + line + b"\n2026-11-01T00:30:00Z,20,1000\r\n")
    status, output, messages = ended(tool("reduce", folder / "values.csv", folder / "site"), patience=60)
    assert (status, messages.count("\n")) == (0, 1), messages
    assert messages == f"reduce: {folder}/air.csv: line 3 is none, and left out: {why}\n"
    rows = list(csv.DictReader(io.StringIO(output.decode())))
    ppm = [row["atmosphere_ppm"] for row in rows]
    assert [row["quality"] for row in rows] == ["ok"] * 5 and ppm[0] == ppm[1] != ppm[2] == ppm[3] == ppm[4], ppm
    file = air.File(folder, "air.csv", 3000)
    for _ in range(3):
        file.of([{"time": "2026-11-01T00:20:00.000Z"}])
        with open(folder / "air.csv", "ab") as more:
            more.write(b"2026-11-01T09:00:00Z,20,1000\n")
    assert len(file.told) == 2


def test_a_scale_that_wasnt_applied(folder):
    """With too few references nothing is applied: the columns of scale and refraction are empty there, and full in the other cycles."""
    survey = Survey(PRISMS)
    lines = [survey.line("reference", 1, 2, 3), "references at least 2 within 0.00003 0.003", "scale from references", "refraction from references"]
    rows = reduced(folder, survey, [{}, {"hidden": (1, 2)}, {}], *lines)
    for cycle, is_applied in (1, True), (2, False), (3, True):
        row = rows[cycle, 7]
        assert [bool(row[name]) for name in ("scale_ppm", "refraction", "target_easting_m")] == [is_applied] * 3, row
