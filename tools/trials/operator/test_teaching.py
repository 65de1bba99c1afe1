"""An operator teaches a station its prisms, by `teach`, at a terminal: over a device or a port, to a simulated instrument. What is written is
then measured by a station, and what isn't is named."""

import fcntl
import os
import random
import resource
import subprocess
import time
from decimal import Decimal

import pytest

import angles
import sighted
import taught as texts
from asked import Refused
from far_end import standing
from measuring import finished, measuring, outcomes_of
from programs import Run, ended, simulator, until
from reductions import Reading
from terminals import terminal
from teaching import NOISE, PRISMS, SCENE, TEACH, Desk, expect_text, line_of, taught


def in_gon(name):
    """Where to turn for a prism, roughly: on no side of the circle's zero."""
    hz, v, _ = PRISMS[name]
    return f"{hz * 200 / 3.14159265 + 0.4:.2f} {v * 200 / 3.14159265 - 0.3:.2f}"


@pytest.mark.title("teaching, five prisms at a device, then measured")
def test_five_prisms(program, folder):
    """By hand and by a typed direction, one after it wasn't found; a station then measures all of them, where they are."""
    path = folder / "site.commands"
    with line_of(program, folder, SCENE + NOISE) as line:
        with Desk(program, line.path, path) as desk:
            for count, (name, (hz, v, _)) in enumerate(PRISMS.items(), 1):
                if name == "rock":
                    desk.sees(f"Name of prism {count} (Enter: end): ")
                    desk.types("pier 4")
                    desk.sees("there is a prism called pier 4 already")
                desk.names(name)
                if name == "dam crest":
                    line.turn(hz + 0.5, v)
                    assert "9037 (search within 0.02 rad): return code 8710: no target was found." in desk.says()
                    desk.sees("> ")
                    desk.types("600 100")
                    desk.sees("HZ is from 0 to 400, V from 0 to 200, in gon")
                    desk.sees("> ")
                if name == "high":
                    assert f"{count} ({name}) is in the text" in desk.says(in_gon(name))
                else:
                    line.turn(hz + 0.01, v - 0.01)
                    assert f"{count} ({name}) is in the text" in desk.says()
                expect_text(program, path, list(PRISMS)[:count])
            desk.sees("Name of prism 6 (Enter: end): ")
            desk.types("")
            status, rest = desk.ends()
            assert status == 0 and "Prisms of " in rest and "5 (high)" in rest, rest
        expect_places(expect_text(program, path, PRISMS))
        assert os.listdir(folder) and not [name for name in os.listdir(folder) if name.startswith(".")]
        with measuring(program, line.path, "--settle 100 --cycles 2", path.read_bytes()) as run:
            rows, messages = finished(run, patience=30)
    assert messages == []
    chain = [9027, 17017, 9028, 17017]
    assert outcomes_of(rows) == [(target, rpc, "answered") for target in range(1, 6) for rpc in chain] * 2
    assert {row["quality"] for row in rows} == {"ok"}


def expect_places(lines):
    """The places of a text are those of the prisms, but for the noise, and so are the commands."""
    for target, (hz, v, distance) in enumerate(PRISMS.values(), 1):
        near = next(line.split() for line in lines if line.startswith(f"near {target} "))
        found = [Decimal(word) for word in near[2:]]
        assert abs(angles.difference(found[0], Decimal(hz))) < Decimal("2e-5") and abs(found[1] - Decimal(v)) < Decimal("2e-5"), near
        assert abs(found[3] - Decimal(distance)) < Decimal("1e-3") and found[2] == Decimal("0.01") and found[4] == Decimal("0.1"), near
        assert f"{target} 9027 {near[2]},{near[3]},0,1,0" in lines
        read = next(line for line in lines[: lines.index(" ".join(near))][::-1] if line.startswith("# "))
        assert abs(Decimal(read.split()[2]) - angles.in_unit(found[1], "gon")) < Decimal("1e-4"), read


@pytest.mark.title("teaching, a prism that scatters")
def test_scatter(program, folder):
    """It is refused, by what it scatters; those before it and after it are taught, and itself once it stands still."""
    path = folder / "site.commands"
    with line_of(program, folder, SCENE) as line, Desk(program, line.path, path) as desk:
        desk.names("pier 4")
        desk.says(in_gon("pier 4"))
        desk.names("rock")
        line.scatters = "0.001"
        why = desk.says(in_gon("rock"))
        assert "Refused: repeated measurements in face I differ: Hz 0.0635 gon (0.0127 allowed)." in why or "the faces differ: " in why, why
        desk.sees("> ")
        desk.types("s")
        expect_text(program, path, ["pier 4"])
        line.scatters = 0
        desk.names("dam crest")
        desk.says(in_gon("dam crest"))
        desk.sees("(Enter: end): ")
        desk.types("")
        status, rest = desk.ends()
        assert status == 1 and "Not taught: rock\n" in rest, rest
        expect_text(program, path, ["pier 4", "dam crest"])
        line.scatters = "0.001"
        # With tolerances above what it scatters it isn't refused.
        status, output, _ = taught(program, line.path, path, ["rock", in_gon("rock")], "--within", "0.002", "0.01")
        assert status == 0, output
    expect_text(program, path, ["pier 4", "dam crest", "rock"])


def scene_of(folder, scene, name="site.scene"):
    (folder / name).write_text(scene, encoding="ascii")
    return folder / name


@pytest.mark.title("teaching, the line is lost in the middle")
def test_lost_line(program, folder):
    """The device goes away at a face change: that is named, what was taught is kept, and the same prism is taught once it is back."""
    path = folder / "site.commands"
    with line_of(program, folder, SCENE) as line, Desk(program, line.path, path) as desk:
        desk.names("pier 4")
        desk.says(in_gon("pier 4"))
        desk.names("rock")
        line.pulls_at = 9028
        said = desk.says(in_gon("rock"))
        assert "9028 (change the face, and aim): fault 4" in said, said
        before = path.read_bytes()
        expect_text(program, path, ["pier 4"])
        desk.sees("> ")
        assert "fault 54" in desk.says() or "fault 58" in desk.came, desk.came
        line.plug()
        desk.sees("> ")
        assert "2 (rock) is in the text" in desk.says(in_gon("rock"))
        desk.sees("(Enter: end): ")
        desk.types("")
        assert desk.ends()[0] == 0
    expect_text(program, path, ["pier 4", "rock"])
    assert path.read_bytes().startswith(before)


@pytest.mark.title("teaching, {how}")
@pytest.mark.parametrize("how", ["Ctrl-C", "SIGTERM", "Ctrl-D"])
def test_interrupted(program, folder, how):
    """In the middle of a measurement: what was taught is kept, nothing else stays, and a second run adds."""
    path = folder / "site.commands"
    with line_of(program, folder, SCENE + "delay 9028 400\n") as line:
        with Desk(program, line.path, path) as desk:
            desk.names("pier 4")
            desk.says(in_gon("pier 4"))
            desk.names("rock")
            desk.types(in_gon("rock"))
            desk.sees("measured in both faces ..")
            if how == "Ctrl-C":
                os.write(desk.end, b"\x03")
            elif how == "SIGTERM":
                desk.process.terminate()
            else:
                desk.sees("is in the text")
                desk.sees("(Enter: end): ")
                os.write(desk.end, b"\x04")
            status, rest = desk.ends()
            assert status == (0 if how == "Ctrl-D" else 130), rest
            assert "Prisms of " in rest and "1 (pier 4)" in rest, rest
        before = path.read_bytes()
        expect_text(program, path, ["pier 4", "rock"][: 2 if how == "Ctrl-D" else 1])
        assert sorted(os.listdir(folder)) == ["site.commands", "site.scene", "totalstation"]
        with Desk(program, line.path, path) as desk:
            desk.names("high")
            desk.says(in_gon("high"))
            desk.sees("(Enter: end): ")
            desk.types("")
            assert desk.ends()[0] == 0
    assert path.read_bytes().startswith(before)
    expect_text(program, path, ["pier 4", *["rock"] * (how == "Ctrl-D"), "high"])


@pytest.mark.title("teaching, killed at any moment")
def test_killed(program, folder):
    """Whenever it is killed, also while it writes, the text is whole, and has what it had; a run that goes on teaches the rest."""
    path, chance, before = folder / "site.commands", random.Random(11), b""
    with simulator(program, "--keep", "--scene", scene_of(folder, SCENE)) as port:
        for kill in range(7):
            left = [line for name in PRISMS if name.encode() not in before for line in (name, in_gon(name))]
            with Run([TEACH, port, path, "--geocom", program], "".join(f"{line}\n" for line in left).encode()) as run:
                if kill == 6:
                    assert run.status(60) == 0, run.messages()
                elif kill % 2:
                    # Once its file beside the text is there.
                    until(lambda: not run.is_running() or [name for name in os.listdir(folder) if name.startswith(".")], "it writes nothing", 30)
                else:
                    run.ends_within(chance.uniform(0.1, 1.5))
            data = path.read_bytes() if path.exists() else b""
            assert data.startswith(before)
            for left in folder.glob(".site.commands.*"):
                left.unlink()
            before = data
            if data:
                expect_text(program, path, [name for name in PRISMS if f" {name}\n".encode() in data])
    assert all(f" {name}\n".encode() in before for name in PRISMS)


REFUSED = {
    "fault 9037 8714": "9037 (search within 0.02 rad): return code 8714: the target recognition isn't switched on.",
    "fault 9037 27": "return code 27: not available: a licence is missing, such as that of a robotic instrument.",
    "fault 17017 1292": "17017 (measure): return code 1292: no distance was measured, for lack of a target for example.",
    "fault 9028 8705": "9028 (change the face, and aim): return code 8705: the position can't be reached: something is in the way.",
    "fault 17017 9999 after 2": "17017 (measure): return code 9999: see the manual of the instrument.",
    "blocked 1 3 9": "9027 (turn, and aim at the prism): return code 8710: no target was found.",
    "noise 0.002 0 0 5": "repeated measurements in face I differ: Hz 0.2178 gon (0.0127 allowed).",
    "noise 0 0.002 0 5": "repeated measurements in face I differ: V 0.1804 gon (0.0127 allowed).",
    "noise 0 0 0.05 5": " distance ",
}


@pytest.mark.title("teaching, refused: {rule}")
@pytest.mark.parametrize("rule", REFUSED)
def test_refused(program, folder, rule):
    """What the instrument refuses, or measures badly, is named, and nothing is written."""
    with simulator(program, "--keep", "--scene", scene_of(folder, f"{SCENE}{rule}\n")) as port:
        status, output, messages = taught(program, port, folder / "site.commands", ["pier 4", in_gon("pier 4"), "s"])
    assert (status, messages) == (1, "")
    assert "Refused: " in output.decode() and REFUSED[rule] in output.decode(), output.decode()
    assert os.listdir(folder) == ["site.scene"]


@pytest.mark.title("teaching, an instrument whose face stays, and a prism that is taught already")
def test_faces_and_prisms(program, folder):
    """By default the simulator's angles don't change with the face; and no prism is taught twice."""
    path = folder / "site.commands"
    with simulator(program, "--keep") as port:
        _, output, _ = taught(program, port, path, ["pier 4", in_gon("pier 4"), "s"])
        assert b"Refused: the telescope is in face I, and not in face II, at V 1.625 rad." in output, output
        assert not path.exists()
    with simulator(program, "--keep", "--scene", scene_of(folder, SCENE + "target 2.265 1.625 110.0\ntarget 2.265 1.625 90.0\n")) as port:
        status, output, _ = taught(program, port, path, ["pier 4", in_gon("pier 4"), "rock", in_gon("pier 4"), "s"])
        assert status == 1 and b"it is within the tolerances of prism 1 (pier 4): aim at another one, or take smaller tolerances, by --near" in output, output
        expect_text(program, path, ["pier 4"])


@pytest.mark.title("teaching, a line that is silent, garbled or away")
def test_bad_lines(program, folder):
    """Each is named, within the seconds of --deadline."""
    path = folder / "site.commands"
    with standing(lambda request: b"") as far:
        began = time.monotonic()
        status, output, _ = taught(program, far.port, path, ["pier 4", "", "s"], "--deadline", "1")
        assert b"Refused: the first request: no answer within 1 s. It may still act: wait until it is at rest." in output, output
        assert status == 1 and time.monotonic() < began + 10
    with standing(lambda request: request.reply(b"0" if request.rpc != 17017 else b"0,x,1.6,1,2")) as far:
        _, output, _ = taught(program, far.port, path, ["pier 4", "", "s"])
        assert b"Refused: 17017 (measure): the values don't read: 'x,1.6,1,2'." in output, output
    with standing(lambda request: request.reply(b"0" if request.rpc != 17017 else b"0,143.2,103.4,1,2")) as far:
        _, output, _ = taught(program, far.port, path, ["pier 4", "", "s"])
        assert b"Refused: 143.2 103.4 1 is no direction in radians with a slope distance in metres." in output, output
    with standing(lambda request: b"%%R1P,3081,%d:0\r\n" % request.id) as far:
        _, output, _ = taught(program, far.port, path, ["pier 4", "", "s"])
        assert b"9037 (search within 0.02 rad): communication code 3081: the instrument has no such procedure." in output, output
    _, output, _ = taught(program, far.port, path, ["pier 4", "", "s"])
    assert b"Refused: the first request: fault 54: a port could not be bound" in output, output
    with terminal(None) as line:
        fcntl.flock(line.near, fcntl.LOCK_EX)
        _, output, _ = taught(program, line.path, path, ["pier 4", "", "s"])
    assert b"Refused: the first request: fault 59: another program has locked the device; /dev/pts/" in output, output
    assert not path.exists()


PLAIN = {
    "a setup before the cycles": b"at start\n9 5004\neach cycle\nname 7 old pier\n7 9027 1,1.5,0,1,0\n7 17017 2",
    "lines that end in CR": b"deadline 20000\r\naccept 1284\r\n# mine\r\n\r\nretry 2 late lost\r\n7 5003\r\n",
    "an empty file": b"",
}


@pytest.mark.title("teaching, {text} is added to")
@pytest.mark.parametrize("text", PLAIN)
def test_added(program, folder, text):
    """What is there stays, with the file's mode, also over a link; the deadline that it has holds."""
    path, link = folder / "site.commands", folder / "link.commands"
    path.write_bytes(PLAIN[text])
    path.chmod(0o640)
    link.symlink_to("site.commands")
    with simulator(program, "--keep", "--scene", scene_of(folder, SCENE)) as port:
        status, output, messages = taught(program, port, link, ["rock", "29 86"], "--one-face", "--unit", "degree")
        assert (status, messages) == (0, ""), output
        data = path.read_bytes()
        assert data.startswith(PLAIN[text]) and link.is_symlink() and path.stat().st_mode & 0o777 == 0o640
        target = {"a setup": 10, "lines": 8, "an empty": 1}[next(word for word in ("a setup", "lines", "an empty") if text.startswith(word))]
        assert f"name {target} rock\n".encode() in data and data.count(b"deadline ") == 1
        assert b"\n# 28.64789 85.94367 degree, 25.1250 m, taught " in data and b" 9028 " not in data and data.endswith(f"{target} 17017 2\n".encode())
        assert ended([program, "station", port, "--cycles", "1", "--settle", "100", "--silent"], data, patience=20).status == 0


KEPT = {
    "a setup at the end": (b"7 5003\nat start\n9 5004\n", "since its end is setup: write a line `each cycle` there"),
    "unchained": (b"unchained\n7 5003\n", "since its end is unchained: write a line `chained` there"),
    "a group at the end": (b"7 5003\nevery 2 cycles\n0 5011\n", "since its end is not for each cycle: write a line `each cycle` there"),
    "a fault": (b"7 5003\nrows\n", "since station --check has: geocom: fault 51 line 2"),
    "what looks wrong": (b"7 9027 300,1.5,0,1,0\n", "lies outside one turn in radians"),
    "no command": (b"# nothing\n", "since station --check has: geocom: fault 50"),
}


@pytest.mark.title("teaching, a text with {text} is left")
@pytest.mark.parametrize("text", KEPT)
def test_kept(program, folder, text):
    """A text that can't be added to plainly is refused before anybody aims, and stays."""
    path = folder / "site.commands"
    path.write_bytes(KEPT[text][0])
    status, output, messages = taught(program, 4001, path, ["rock", ""])
    assert (status, output) == (1, b"") and messages.startswith("teach: ") and KEPT[text][1] in messages, messages
    assert path.read_bytes() == KEPT[text][0]


@pytest.mark.title("teaching, words, places, programs and files that are refused")
def test_refused_words(program, folder):
    for words, status, why in [
        ((4001, folder), 1, "is no regular file"),
        ((4001, folder / "none" / "text"), 1, "No such file or directory: the text can't be written there"),
        ((4001, "/proc/text"), 1, "the text can't be written there"),
        (("nowhere", folder / "text"), 1, "error: a place is a port"),
        ((4001, folder / "text", "--sets", 0), 2, "invalid choice: 0"),
        ((4001, folder / "text", "--near", "0.01", "x"), 2, "x is no number above 0, at most 1.000e+5"),
        ((4001, folder / "text", "--near", "0.0001", "1"), 2, "--near has to be wider than --within"),
        ((4001, folder / "text", "--search", "4"), 2, "4 is no number above 0, at most 3.142"),
        ((4001, folder / "text", "--geocom", folder / "none"), 1, "none: No such file or directory: the program of the package geocom is wanted"),
    ]:
        found = ended([TEACH, "--geocom", program, *words], b"rock\n", patience=20)
        assert (found.status, found.output) == (status, b"") and why in found.messages, found
    found = ended([TEACH, "--geocom", program, 4001, folder / "text"], b"", closed=[0], patience=20)
    assert found == (1, b"", "teach: standard input and output have to be open\n"), found
    assert os.listdir(folder) == []


@pytest.mark.title("teaching, a disk that is full, and a text that changes meanwhile")
def test_unwritten(program, folder):
    """The file stays as it was, and the prism isn't taught."""
    path = folder / "site.commands"
    with simulator(program, "--keep", "--scene", scene_of(folder, SCENE)) as port:
        assert "File too large: nothing was written." in with_small_files([TEACH, port, path, "--geocom", program], "rock")
        assert not path.exists()
        assert taught(program, port, path, ["rock", in_gon("rock")]).status == 0
        before = path.read_bytes()
        assert "File too large: nothing was written." in with_small_files([TEACH, port, path, "--geocom", program], "high")
    file = texts.TextFile(path, None)
    with pytest.raises(Refused, match="was changed meanwhile: nothing was written"):
        file.replace(b"other", b"more")
    assert path.read_bytes() == before and sorted(os.listdir(folder)) == ["site.commands", "site.scene"]


def with_small_files(words, name):
    """What is written if a prism is taught while no file can have more than 300 bytes: the messages of `ask` can, and a text with a prism can't."""
    given = f"{name}\n{in_gon(name)}\ns\n"
    ran = subprocess.run(list(map(str, words)), input=given, capture_output=True, text=True, timeout=60, check=False,
                         preexec_fn=lambda: resource.setrlimit(resource.RLIMIT_FSIZE, (300, 300)))
    assert (ran.returncode, ran.stderr) == (1, "")
    return ran.stdout


TURN, PI, WITHIN = angles.TURN, angles.PI, sighted.Tolerance(Decimal("0.0002"), Decimal("0.005"))


def reading(hz, v, distance="50", face=1, over=(0, 0, 0)):
    """A reading in a face, and by how much it is wrong, in ten-thousandths and in metres."""
    hz, v = Decimal(hz) + Decimal(over[0]) / 10000, Decimal(v) + Decimal(over[1]) / 10000
    if face == 2:
        hz, v = hz + PI, TURN - v + 2 * Decimal(over[1]) / 10000
    return Reading(None, angles.on_circle(hz), v, Decimal(distance) + Decimal(over[2]))


def sight(found=(0, 0, 0), one=(0, 0, 0), two=(0, 0, 0), hz="1", v="1.5", sets=2):
    """The sight of readings with these errors; the last set's readings have them."""
    good = (reading(hz, v), reading(hz, v, face=2))
    bad = (reading(hz, v, over=one), reading(hz, v, face=2, over=two))
    return sighted.sight_of(reading(hz, v, over=found), [*[good] * (sets - 1), bad], WITHIN, "gon")


@pytest.mark.title("teaching, which readings scatter")
def test_sights():
    """Index and collimation errors, the distances of both faces, and what is measured again, each at its tolerance and above it."""
    found = sight()
    assert abs(found.hz - 1) < Decimal("1e-40") and abs(found.v - Decimal("1.5")) < Decimal("1e-40") and found.distance == 50
    for errors, why in [
        # Twice the collimation error is between the faces, and twice the index error.
        ({"one": ("1.9", 0, 0), "two": ("-1.9", 0, 0), "found": ("1.9", 0, 0), "sets": 1}, ""),
        ({"one": ("2.1", 0, 0), "two": ("-2.1", 0, 0), "found": ("2.1", 0, 0), "sets": 1}, "the faces differ: collimation error 0.0133 gon (0.0127 allowed)"),
        ({"one": (0, "1.9", 0), "two": (0, "1.9", 0), "found": (0, "1.9", 0), "sets": 1}, ""),
        ({"one": (0, "2.1", 0), "two": (0, "2.1", 0), "found": (0, "2.1", 0), "sets": 1}, "the faces differ: index error 0.0134 gon (0.0127 allowed)"),
        ({"two": (0, 0, "0.0049")}, ""),
        ({"one": (0, 0, "0.0051"), "found": (0, 0, "0.0051"), "sets": 1}, "the faces differ: distance 0.0051 m (0.0050 allowed)"),
        ({"found": ("1.9", 0, 0)}, ""),
        ({"found": ("2.1", 0, 0)}, "repeated measurements in face I differ: Hz 0.0133 gon (0.0127 allowed)"),
        ({"found": (0, "-2.1", 0)}, "repeated measurements in face I differ: V 0.0134 gon (0.0127 allowed)"),
        ({"two": ("2.1", 0, 0)}, "repeated measurements in face II differ: Hz 0.0133 gon (0.0127 allowed)"),
        # On a steep sight a direction of the circle is less of an angle.
        ({"found": ("9", 0, 0), "v": "0.2"}, ""),
        ({"found": ("11", 0, 0), "v": "0.2"}, "repeated measurements in face I differ: Hz 0.0139 gon (0.0127 allowed)"),
    ]:
        try:
            sight(**errors)
            said = ""
        except Refused as refused:
            said = str(refused)
        assert said == why, errors
    # At the zero of the circle, from both sides.
    found = sighted.sight_of(reading("0", "1.5", over=("-1", 0, 0)), [(reading("0", "1.5", over=("-1", 0, 0)), reading("0", "1.5", face=2))], WITHIN, "gon")
    assert abs(angles.difference(found.hz, Decimal("-0.00005"))) < Decimal("1e-40")


@pytest.mark.title("teaching, numbers, names and places of a text")
def test_lines():
    """Numbers are short, directions on the circle once they are rounded; names are those that a row takes; and which places overlap."""
    assert [texts.direction(Decimal(each)) for each in ("2.25", "0", "-0.00000000001", "6.28318530718", "7", "-1")] == [
        "2.25", "0", "0", "0", "0.7168146928", "5.2831853072"]
    text = texts.Text(b"name 3 pier 4\nnear 3 0.005 1.5 0.01 50 0.1\r\nnear 9 4 1.5 0.01\n12 5003\n#13 5003\n\n14 raw 9999 1\n7 5007 now\n")
    assert text.next() == 15 and text.called(3) == "3 (pier 4)" and text.called(9) == "9"
    faults = {name: text.fault_of(name) for name in ("rock", "pier 4", "a,b", 'a"b', "p\u00e9ak", "-x", "x" * 64, "x" * 65, "12", "13")}
    assert [name for name, why in faults.items() if not why] == ["rock", "x" * 64, "13"], faults
    near = sighted.Tolerance(Decimal("0.001"), Decimal("0.1"))
    for hz, v, distance, other in [
        ("0.0159", "1.5", "50", "3 (pier 4)"), ("0.0161", "1.5", "50", None), ("6.2800", "1.5", "50", "3 (pier 4)"), ("6.2770", "1.5", "50", None),
        ("0.005", "1.5109", "50.19", "3 (pier 4)"), ("0.005", "1.5111", "50", None), ("0.005", "1.5", "50.21", None), ("4", "1.5", "99", "9"),
    ]:
        assert text.confused(sighted.Sight(Decimal(hz), Decimal(v), Decimal(distance), None, None), near) == other, hz
    for full in b"".join(b"name %d x%d\n" % (k, k) for k in range(1, 65)), b"4294967295 5003\n":
        with pytest.raises(Refused, match="64 are the most, and 4294967295 is the greatest number"):
            texts.Text(full).next()
