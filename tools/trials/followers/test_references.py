"""References: orientations and residuals by hand, those that are hidden or moved, and what all coordinates of a cycle then say."""

import csv
import io
import math
import shutil
import subprocess
import xml.etree.ElementTree as Tree
from decimal import Decimal

import angles
import orienting
import pytest
import reductions
import sites
from adjusting import Network
from programs import ended
from records import HEAD
from sinks import messages_of, tool
from surveyed import Survey

MICRO = Decimal("1e-6")
QUARTER = angles.PI / 2


def read(number, hz, v=QUARTER, distance="100", **fields):
    """A target that was read so, in face I alone."""
    row = {"target": number, "run": "", "cycle": "1", "step": number, "procedure": "2108", "outcome": "answered", "quality": "ok",
           "rc": "0", "values": f"{hz},{v},{distance}"}
    return reductions.Target([row | fields])


# Four references 100 m away, in bearings of 0, 90, 180 and 270 degrees, as high as the instrument.
SITE = """station 0 0 0 0
reference 1 0 100 0
reference 2 100 0 0
reference 3 0 -100 0
reference 4 -100 0 0
flat
faces at least 1
"""


def oriented(more, *micro, site=SITE, **of):
    """What references say whose circle's zero is off by so many microradians from a bearing of 1; `None` is hidden."""
    targets = [read(str(number), QUARTER * (number - 1) - 1 - Decimal(off) * MICRO, **of.get(f"at_{number}", {}))
               for number, off in enumerate(micro, 1) if off is not None]
    return orienting.orientation_of(sites.site_of(site + more), targets)


def micro(number):
    return None if number is None else round(number / MICRO, 6)


def test_orientation_by_hand():
    """0, 12, 24 and 12 µrad have the mean 12 and residuals of -12, 0, 12 and 0: their squares are 288, by three degrees of freedom 96, so
    one has a deviation of √96 µrad, and the mean of four √24."""
    found = oriented("", 0, 12, 24, 12)
    assert micro(found.angle - 1) == 12 and found.number == 4 and not found.left_out and not found.doubts
    assert round(found.deviation / MICRO, 9) == round(Decimal(24).sqrt(), 9)
    assert [micro(found.residuals[number][0]) for number in "1234"] == [-12, 0, 12, 0]


def test_residuals_by_hand():
    """A reference that reads 3 mm too far and, at 100 m, 50 µrad too low: it lacks -3 mm in distance and 5 mm in height."""
    found = oriented("", 0, 0, 0, 0, at_2={"distance": "100.003", "v": QUARTER + 50 * MICRO})
    _, along, up = found.residuals["2"]
    assert (round(along, 5), round(up, 5)) == (Decimal("-0.00300"), Decimal("0.00500"))
    assert [round(each, 9) for number in "134" for each in found.residuals[number]] == [0] * 9


@pytest.mark.parametrize("micros, mean, left_out", [
    # By hand, within 50: the median of 0, 2, 4 and 900 is 3, and the mean of the three is 2.
    ((0, 2, 4, 900), 2, "4"),
    # The mean of all would be 226.5, 224.5 from the one that is next to it.
    ((900, 0, 2, 4), 2, "1"),
    # 0, 2 and 60: the median is 2, and the third is 58 away.
    ((0, 2, 60, None), 1, "3"),
    # 50 is within, 51 isn't.
    ((0, 0, 50, None), Decimal(50) / 3, ""),
    ((0, 0, 51, None), 0, "3"),
    # One that is turned by half a circle.
    ((Decimal(3141592), 0, 4, 8), 4, "1"),
])
def test_left_out_by_hand(micros, mean, left_out):
    found = oriented("references at least 2 within 0.00005\n", *micros)
    assert " ".join(found.left_out) == left_out
    assert micro(found.angle - 1) == round(Decimal(mean), 6)
    assert found.doubts == ["reference 4 not measured"] * (micros[3] is None) + [
        f"reference {number} left out by direction" for number in left_out.split()]


def test_too_few():
    """Two of at least three; two that contradict each other, of which nobody knows the right one; none. Residuals are from the median."""
    for micros, doubt in [((0, 0, None, None), "2 of at least 3 references"), ((0, 200, None, None), "0 of at least 3 references"),
                          ((None,) * 4, "0 of at least 3 references")]:
        found = oriented("references at least 3 within 0.00005\n", *micros)
        assert found.angle is None and found.deviation is None and found.doubts[-1] == doubt
    found = oriented("references at least 1 within 0.00005\n", 0, 200, None, None)
    assert found.angle is None and list(found.left_out) == ["1", "2"]
    assert [micro(found.residuals[number][0]) for number in "12"] == [-100, 100]
    # With a limit alone for one that is known to stand.
    assert micro(oriented("references at least 1 within 0.0002\n", 0, 200, None, None).angle - 1) == 100


def test_left_out_by_distance_and_height():
    """Within 5 mm: 6 mm too far, 6 mm too high; and 4 mm of both."""
    line = "references at least 2 within 0.0001 0.005\n"
    found = oriented(line, 0, 0, 0, 0, at_1={"distance": "100.006"}, at_3={"v": QUARTER - 60 * MICRO})
    assert found.left_out == {"1": "distance", "3": "height"} and found.number == 2
    assert not oriented(line, 0, 0, 0, 0, at_1={"distance": "100.004"}, at_3={"v": QUARTER - 40 * MICRO}).left_out


@pytest.mark.parametrize("text, why", [
    ("references", "line 1: references wants: at least N"), ("references at least 0", "wants a number from 1"),
    ("references at least 2 within", "wants 1 or 2 numbers"), ("references at least 2 within -1", "a limit is not below 0"),
    ("references at least 2 without 1", "has more than its line wants: 'without'"),
    ("faces at least 3", "line 1: faces wants a number from 1 to 2"), ("faces at least 1\nfaces at least 2", "line 2: a second line"),
    ("station 0 0 0\nreference 1 1 1\nreferences at least 2", "at least 2 references are wanted, and 1 are there"),
    ("reference 1 1", "line 1: reference wants 2 or 3 numbers"),
])
def test_refuses_lines(folder, text, why):
    (folder / "site").write_text(text, encoding="utf-8")
    (folder / "values.csv").write_bytes(HEAD)
    messages = messages_of(tool("reduce", folder / "values.csv", folder / "site"), 1)
    assert why in messages and messages.count("\n") == 1, messages


PRISMS = {1: (1150.0, 2080.0, 103.0), 2: (880.0, 2110.0, 108.0), 3: (960.0, 1860.0, 96.0), 7: (1150.0, 1850.0, 104.0)}
LINES = ["references at least 2 within 0.00003 0.003", "flat"]


def reduced(folder, survey, cycles, *lines):
    """The rows that cycles come to, by cycle and target."""
    (folder / "values.csv").write_bytes(survey.table(cycles))
    (folder / "site").write_text(survey.text(*lines), encoding="utf-8")
    status, output, messages = ended(tool("reduce", folder / "values.csv", folder / "site"), patience=60)
    assert (status, messages) == (0, "")
    return {(int(row["cycle"]), int(row["target"])): row for row in csv.DictReader(io.StringIO(output.decode()))}


def expect_place(row, place, within=2e-5):
    found = [float(row[f"target_{name}_m"]) for name in ("easting", "northing", "height")]
    assert math.dist(found, place) < within, f"{found} and {place}"


def alarms(folder, rows, limits):
    """The lines of the alarm for such rows."""
    with open(folder / "reduced.csv", "w", encoding="ascii", newline="") as file:
        table = csv.DictWriter(file, next(iter(rows.values())).keys(), lineterminator="\n")
        table.writeheader()
        table.writerows(rows.values())
    (folder / "limits").write_text(f"target,column,reference,tolerance,outside,of\n{limits}", encoding="ascii")
    return ended(tool("alarm", folder / "reduced.csv", folder / "limits", folder / "state", "--once"), patience=60).output.decode().splitlines()


def test_hidden_references(folder):
    """All references are hidden from cycle 4 on, and the target moves by 50 mm from cycle 5 on: there are no coordinates, each row says
    so, and a limit on the number of references speaks in cycle 4."""
    survey = Survey(PRISMS)
    cycles = [{"hidden": (1, 2, 3) if cycle >= 4 else (), "moved": {7: (0.05, 0, 0)} if cycle >= 5 else {}} for cycle in range(1, 13)]
    rows = reduced(folder, survey, cycles, survey.line("reference", 1, 2, 3), *LINES)
    for cycle in range(1, 13):
        row = rows[cycle, 7]
        if cycle < 4:
            expect_place(row, PRISMS[7])
            assert (row["quality"], row["references"], row["reason"]) == ("ok", "3", "")
        else:
            assert (row["quality"], row["references"], row["target_easting_m"], row["orientation_rad"]) == ("warning", "0", "", "")
            assert row["reason"].endswith("; 0 of at least 2 references")
            assert rows[cycle, 1]["outcome"] == "answered" and rows[cycle, 1]["rc"] == "8710"
    lines = alarms(folder, rows, "7,references,3,1,1,1\n")
    assert [line.rsplit(" ", 1)[1] for line in lines] == ["4"], lines
    # With limits such as those of the package, which name no references, the target falls silent.
    (folder / "state").unlink()
    lines = alarms(folder, rows, "7,target_easting_m,1150,0.003,2,3\n7,target_height_m,104,0.003,2,3\n7,silence,,,,6\n")
    assert [line.split(" ", 1)[1] for line in lines] == ["target 7 (P7): no good row for 6 cycles; cycle 9"], lines


def test_a_moved_reference(folder):
    """One of three references moves by 10 mm across the line of sight: it is left out, the target stays, and its rows say why. Of two
    references nobody knows which one moved: there are no coordinates. Hidden, and not moved, one of three is missed, and the target stays."""
    survey = Survey(PRISMS)
    away = {3: (0.0096, -0.0027, 0)}
    rows = reduced(folder, survey, [{}, {"moved": away}, {"hidden": (2,)}, {"moved": away, "hidden": (2,)}],
                   survey.line("reference", 1, 2, 3), *LINES)
    for cycle in 1, 2, 3:
        expect_place(rows[cycle, 7], PRISMS[7])
    said = [[rows[cycle, 7][name] for name in ("quality", "references", "left_out", "reason")] for cycle in (1, 2, 3, 4)]
    assert said == [
        ["ok", "3", "", ""], ["warning", "2", "3", "reference 3 left out by direction"], ["warning", "2", "", "reference 2 not measured"],
        ["warning", "0", "1 3", "reference 2 not measured; reference 1 left out by direction; reference 3 left out by direction; "
         "0 of at least 2 references"]]
    assert rows[4, 7]["target_easting_m"] == "" and rows[4, 7]["values"]
    # By hand: 10 mm across at 145.6 m are 68.7 µrad; the residual is where it should be less where it is.
    assert abs(abs(float(rows[2, 3]["reference_hz_residual_rad"])) - 68.7e-6) < 0.3e-6
    assert abs(float(rows[2, 1]["reference_hz_residual_rad"])) < 1e-9 and rows[2, 7]["reference_hz_residual_rad"] == ""
    assert abs(float(rows[2, 3]["reference_distance_residual_m"])) < 1e-4


def test_all_ends_of_cycles_say_as_much(folder):
    """A cycle whose only references contradict each other, one whose references were measured in one face, and one with a reading that
    was answered with a warning."""
    survey = Survey(PRISMS)
    rows = reduced(folder, survey, [{"faces": {2: (1,)}}], survey.line("reference", 1, 2, 3), "references at least 2", "flat")
    assert rows[1, 7]["reason"] == "reference 2 in one face" and rows[1, 2]["reason"] == "one face; reference 2 in one face"
    rows = reduced(folder, survey, [{"faces": {2: (1,)}}], survey.line("reference", 1, 2, 3), "references at least 2", "flat", "faces at least 1")
    assert (rows[1, 7]["reason"], rows[1, 7]["quality"]) == ("", "ok")


def test_earlier_texts_and_tables(folder):
    """A text of earlier lines goes on in a table of earlier columns, and gives its rows; with a line of today the table is refused."""
    survey = Survey(PRISMS)
    cycles = [{}, {"hidden": (1, 2, 3)}, {"faces": {7: (2,), 3: (1,)}}, {}]
    rows = reduced(folder, survey, cycles, "\n".join(f"reference {number} {PRISMS[number][0]} {PRISMS[number][1]}" for number in (1, 2)), "flat")
    names = reductions.EARLIER_NAMES
    head = ",".join(names) + "\n"
    assert head.startswith("run,sent,time,cycle,step,target,name,procedure,outcome,fault,rc_com,rc,values,pairs,index_rad,") and head.endswith(
        ",freedom,quality,attempt\n")
    (folder / "table.csv").write_text(head, encoding="ascii")
    command = tool("reduce", folder / "values.csv", folder / "site", "--append", folder / "table.csv", "--once")
    messages_of(command)
    written = list(csv.DictReader(io.StringIO((folder / "table.csv").read_text(encoding="ascii"))))
    # Of the last cycle, which isn't settled without a further one, there is nothing in a file before it is over.
    assert all(list(row) == names for row in written)
    assert [(row["cycle"], row["target"]) for row in written][:8] == [(c, t) for c in "12" for t in "1237"]
    assert not any(row["pairs"] == "0" for row in written)
    for row in written:
        wanted = rows[int(row["cycle"]), int(row["target"])]
        assert {name: row[name] for name in names if name != "quality"} == {name: wanted[name] for name in names if name != "quality"}
        assert row["quality"] in ("ok", "") + ("refused",) * (row["rc"] == "8710")
    with open(folder / "site", "a", encoding="ascii") as file:
        file.write("references at least 1\n")
    assert "has other rows than these come to" in messages_of(command, 1)


def network(folder, survey, cycles, *words, more=()):
    (folder / "values.csv").write_bytes(survey.table(cycles))
    (folder / "site").write_text(survey.text(survey.line("reference", 1, 2, 3), *LINES, *more), encoding="utf-8")
    status, output, messages = ended(tool("reduce", folder / "values.csv", folder / "site", "--gama", *words), patience=60)
    assert (status, messages) == (0, "")
    return output.decode()


def test_a_network_is_adjusted(folder, note):
    """The export, adjusted by least squares of the trial's own: the place of the target is that of the rows; of a moved reference the
    residuals are the largest, also where the instrument's own place is adjusted; and without a movement none is large."""
    survey = Survey(PRISMS)
    for words in [[], ["--free"]]:
        places, residuals = Network(network(folder, survey, [{}, {}], *words)).adjust()
        assert math.dist(places["7"], (1850.0, 1150.0, 104.0)) < 5e-5, places["7"]
        assert max(map(abs, residuals.values())) < 0.1
        places, residuals = Network(network(folder, survey, [{}, {"moved": {3: (0.0096, -0.0027, 0)}}], *words)).adjust()
        worst = max(residuals, key=lambda of: abs(residuals[of]))
        assert worst == ("direction", "3") and abs(residuals[worst]) > 4, residuals
        note(f"{' '.join(['a reference that moved by 10 mm', *words])} has {abs(residuals[worst]):.0f}")
    # The first cycle isn't the last.
    places, residuals = Network(network(folder, survey, [{}, {"moved": {3: (0.0096, -0.0027, 0)}}], "1")).adjust()
    assert max(map(abs, residuals.values())) < 0.1


def test_gama_finds_a_moved_reference(folder, note):
    """GNU Gama's own program adjusts the export: without a movement no residual is large, and with one that of the moved reference is the
    largest. (The form of its answer is from memory.)"""
    if not shutil.which("gama-local"):
        pytest.skip("no gama-local: Debian's package gama")
    survey = Survey(PRISMS)
    for moved, is_found in ({}, False), ({3: (0.0096, -0.0027, 0)}, True):
        (folder / "network").write_text(network(folder, survey, [{}, {"moved": moved}]), encoding="utf-8")
        subprocess.run(["gama-local", folder / "network", "--xml", folder / "adjusted"], check=True, timeout=60, capture_output=True)
        found = {}
        for each in Tree.parse(folder / "adjusted").iter():
            parts = {part.tag.rpartition("}")[2]: part.text for part in each}
            if "std-residual" in parts and "to" in parts:
                found[each.tag.rpartition("}")[2], parts["to"].strip()] = abs(float(parts["std-residual"]))
        worst = max(found, key=found.get)
        assert (worst[1] == "3" and found[worst] > 2) if is_found else found[worst] < 2, found
        note(f"{'moved' if is_found else 'still'}: {worst} has {found[worst]:.1f}")


def test_refuses_a_network(folder):
    survey = Survey(PRISMS)
    network(folder, survey, [{}, {}])
    command = tool("reduce", folder / "values.csv", folder / "site", "--gama")
    assert "has no such cycle" in messages_of([*command, "3"], 1)
    assert "one of both" in messages_of([*command, "--append", folder / "table"], 2)
    assert messages_of([*command[:-1], "--free"], 2) == "reduce: --free is of a network: it wants --gama\n"
    (folder / "site").write_text("flat\n", encoding="ascii")
    assert "a network wants a line station" in messages_of(command, 1)
