"""Faces and sets: one face alone, faces that differ, and means of cycles, each by hand."""

import csv
import io
from decimal import Decimal

import angles
import movements
import pytest
import sites
from programs import ended
from records import HEAD, line_of
from sinks import tool
from surveyed import Survey
from test_references import PRISMS, expect_place, reduced

MICRO = Decimal("1e-6")


def table(folder, text, *cycles):
    """The rows of cycles, each of one target that was read so, by the text of a site."""
    lines = [HEAD]
    for cycle, readings in enumerate(cycles, 1):
        for place, (hz, v, distance, *how) in enumerate(readings):
            moment = f"2026-11-01T{cycle:02}:00:{place:02}.000Z"
            row = {"run": "2026-11-01T00:00:00.000Z", "sent": moment, "time": moment, "cycle": cycle, "outcome": "answered", "rc_com": 0}
            lines.append(line_of({**row, "step": place, "target": 7, "procedure": 2108, "rc": how[0] if how else 0, "values": f"{hz},{v},{distance}",
                                  "quality": "warning" if how else "ok"}))
        # (each cycle ends with the same command)
        lines.append(line_of({**row, "step": 9, "target": 9, "procedure": 0, "rc": 0, "quality": "ok"}))
    (folder / "values.csv").write_bytes(b"".join(lines))
    (folder / "site").write_text(text, encoding="ascii")
    status, output, messages = ended(tool("reduce", folder / "values.csv", folder / "site"), patience=60)
    assert (status, messages) == (0, "")
    return list(csv.DictReader(io.StringIO(output.decode())))


FLAT = "station 0 0 0\norientation 0\nflat\n"
# The horizon in both faces; Hz 0 in face I is π in face II.
HORIZON, OTHER, HALF = "1.5707963268", "4.7123889804", "3.1415926536"


def test_one_face_by_hand(folder):
    """100 m to the east in face I alone; then 50 m to the north in face II alone, and 60 m twice in face II; then in both."""
    rows = table(folder, FLAT, [(HORIZON, HORIZON, 100)], [(HALF, OTHER, 50)], [(HALF, OTHER, 60), (HALF, OTHER, "60.002")],
                 [(0, HORIZON, 70), (HALF, OTHER, "70.002")])
    places = [[row[f"target_{name}_m"] for name in ("easting", "northing", "height")] for row in rows]
    assert places == [["100.000000", "0.000000", "0.000000"], ["0.000000", "50.000000", "0.000000"], ["0.000000", "60.001000", "0.000000"],
                      ["0.000000", "70.001000", "0.000000"]]
    assert [[row[name] for name in ("faces", "pairs", "freedom", "index_rad", "collimation_rad", "quality", "reason")] for row in rows] == [
        ["1", "0", "0", "", "", "warning", "one face"], ["1", "0", "0", "", "", "warning", "one face"],
        ["1", "0", "1", "", "", "warning", "one face"], ["2", "1", "0", "0.0000000000", "0.0000000000", "ok", ""]]
    # Of two distances of 60 and 60.002 m one has a standard deviation of √2 mm.
    assert (rows[2]["distance_residuals_m"], rows[2]["distance_deviation_m"]) == ("0.001000 -0.001000", "0.001414")
    rows = table(folder, FLAT + "faces at least 1\n", [(HORIZON, HORIZON, 100)], [(HALF, OTHER, 50)])
    assert [(row["quality"], row["reason"], row["faces"]) for row in rows] == [("ok", "", "1")] * 2


@pytest.mark.parametrize("more, wanted", [
    ("faces at least 2 within 0.00003", "faces differ by index; faces differ by collimation"), ("faces at least 2 within 0.00006 0.004", ""),
    ("faces at least 2 within 0.000045", "faces differ by index"), ("faces at least 1 within 0.00006 0.002", "faces differ by distance"),
    ("", ""),
])
def test_faces_that_differ(folder, more, wanted):
    """By hand: 50 µrad of index, 40 of collimation, and 3 mm between the distances."""
    pair = [("0.00004", "1.5708463268", 100), ("3.1415526536", "4.7124389804", "100.003")]
    row, = table(folder, FLAT + more, pair)
    assert (row["reason"], row["quality"], row["index_rad"], row["collimation_rad"], row["target_northing_m"]) == (
        wanted, "warning" if wanted else "ok", "0.0000500000", "0.0000400000", "100.001500")


def test_a_reference_whose_faces_differ(folder):
    """A prism beside the reference was seen in face II: the reference is left out, and the target stays."""
    survey = Survey(PRISMS)
    rows = survey.cycle(1)
    place = next(number for number, row in enumerate(rows) if b",3,P3,2108," in row) + 1
    hz, v, distance = map(float, rows[place].split(b'"')[1].split(b","))
    rows[place] = rows[place].replace(f"{hz:.9f}".encode(), f"{hz + 0.01:.9f}".encode())
    survey.cycle = lambda _: rows
    found = reduced(folder, survey, [{}], survey.line("reference", 1, 2, 3), "references at least 2 within 0.00003 0.003",
                    "faces at least 2 within 0.0001", "flat")
    expect_place(found[1, 7], PRISMS[7])
    assert found[1, 7]["reason"] == "reference 3 left out by its faces"
    assert found[1, 3]["reason"] == "faces differ by collimation; reference 3 left out by its faces"


def test_what_a_warning_was(folder):
    """A reading that was accepted with a code says which one."""
    row, = table(folder, FLAT, [(0, HORIZON, 100, 1284), (HALF, OTHER, 100)])
    assert (row["quality"], row["rc"], row["reason"]) == ("warning", "0", "return code 1284")


def test_means_of_cycles(folder):
    """By hand: 100.000, 100.001 and 100.005 m have the mean 100.002 and deviate by 2, 1 and -3 mm: the mean by √(14/6) mm. The cycle in
    one face enters nothing, and the first one is left behind with the fourth."""
    both = [[(0, HORIZON, distance), (HALF, OTHER, distance)] for distance in ("100", "100.001", "100.005")]
    rows = table(folder, FLAT + "mean 3\n", *both[:2], [(0, HORIZON, 200)], both[2], both[2])
    assert [row["mean_of"] for row in rows] == ["1", "2", "", "2", "2"]
    assert [row["mean_northing_m"] for row in rows] == ["100.000000", "100.000500", "", "100.003000", "100.005000"]
    assert [row["mean_northing_deviation_m"] for row in rows] == ["", "0.000500", "", "0.002000", "0.000000"]
    mean = movements.Mean(3)
    for cycle, northing in enumerate([100_000_000, 100_001_000, 100_005_000]):
        mean.take(cycle, (0, northing, 0))
    assert mean.columns()["mean_northing_m"] == "100.002000"
    # √(14/6) mm
    assert mean.columns()["mean_northing_deviation_m"] == "0.001528" and mean.columns()["mean_easting_deviation_m"] == "0.000000"
    assert angles.written(None, "m") == "" and sites.site_of("mean 3").mean == 3
