"""Two levels of an alarm, and limits that count no row of quality `warning`: each level is reported once, and its end once, over restarts."""

import json

import limits
import pytest
from programs import ended
from records import HEAD
from sinks import messages_of, tool
from test_alarms import row
from test_silence import BEGIN, Fake

TABLE = "target,column,reference,tolerance,outside,of,level,warnings\n"
LEVELS = "7,distance_m,50,0.002,1,1,attention,\n7,distance_m,50,0.005,1,1,alarm,\n"


def laid(folder, table, rows):
    (folder / "values.csv").write_bytes(HEAD + b"".join(rows))
    (folder / "limits").write_text(table, encoding="utf-8")
    return [folder / "values.csv", folder / "limits", folder / "state"]


def walk(*millimetres, quality="ok", first=1):
    """A row for each cycle, so many millimetres away."""
    return [row(cycle, 7, f"2,1.5,{50 + each / 1000:.4f}", quality) for cycle, each in enumerate(millimetres, first)]


def said(lines):
    """Of each line its level, what it says in the end, and its cycle."""
    return [(line.split(" ", 2)[1], line.split("; cycle ")[1]) for line in lines]


WALK = [0, 3, 4, 6, 7, 4, 1, 6, 0]
TOLD = [
    ("attention:", "2"), ("alarm:", "4"), ("alarm:", "6; 1 more at attention"), ("attention:", "7; all is well"), ("attention:", "8"), ("alarm:", "8"),
    ("attention:", "9; 1 more at alarm"), ("alarm:", "9; all is well")]


def test_each_level_once(folder):
    """A target that walks over both: a line where each begins and one where each ends, and a line says its level."""
    lines = ended(tool("alarm", *laid(folder, TABLE + LEVELS, walk(*WALK)), "--once"), patience=60).output.decode().splitlines()
    assert said(lines) == TOLD, lines
    assert lines[0] == ("2026-11-24T00:02:00.000Z attention: target 7: distance_m is 50.003, 0.003 above 50 (0.002 allowed): 1 of the last 1 outside; "
                        "cycle 2")


def write(folder, lines):
    (folder / "limits").write_text(TABLE + lines, encoding="utf-8")


def test_over_restarts(folder):
    """The same where the alarm ends and begins again behind each row."""
    words, lines = laid(folder, TABLE + LEVELS, []), []
    for data in walk(*WALK):
        with open(words[0], "ab") as file:
            file.write(data)
        lines += ended(tool("alarm", *words, "--once"), patience=60).output.decode().splitlines()
    assert said(lines) == TOLD, lines


def test_a_level_is_added(folder):
    """An alarm that stands goes on where its table gets levels: only what is new is reported, and a level that is gone is forgotten."""
    words = laid(folder, "target,column,reference,tolerance,outside,of\n7,distance_m,50,0.005,1,1\n", walk(6, 6))
    assert ended(tool("alarm", *words, "--once"), patience=60).output.count(b"\n") == 1
    write(folder, LEVELS)
    with open(words[0], "ab") as file:
        file.writelines(walk(6, first=3))
    assert said(ended(tool("alarm", *words, "--once"), patience=60).output.decode().splitlines()) == [("attention:", "3")]
    write(folder, LEVELS.splitlines()[1] + "\n")
    with open(words[0], "ab") as file:
        file.writelines(walk(3, first=4))
    assert said(ended(tool("alarm", *words, "--once"), patience=60).output.decode().splitlines()) == [("alarm:", "4; all is well")]


def test_a_command_gets_the_level(folder):
    """It is that of the highest line; of a table without levels an alarm's."""
    for number, (lines, wanted) in enumerate([(LEVELS, "alarm"), (LEVELS.splitlines()[0] + "\n", "attention")]):
        words = laid(folder, TABLE + lines, walk(7))
        words[2] = folder / f"state{number}"
        messages_of(tool("alarm", *words, "--once", "--apart", "0", "--run", f'echo "$GEOCOM_LEVEL $GEOCOM_ALARMS" > {folder}/told'))
        assert (folder / "told").read_text(encoding="ascii").split()[0] == wanted


def test_a_warning_counts_or_not(folder):
    """Where warnings are ignored a row of that quality is neither outside nor within, and ends no alarm."""
    rows = [*walk(7, 7, quality="warning"), *walk(7, first=3), *walk(0, quality="warning", first=4), *walk(0, first=5)]
    words = laid(folder, TABLE + "7,distance_m,50,0.005,1,2,,count\n", rows)
    assert said(ended(tool("alarm", *words, "--once"), patience=60).output.decode().splitlines()) == [("alarm:", "1"), ("alarm:", "5; all is well")]
    words = [*laid(folder, TABLE + "7,distance_m,50,0.005,1,1,,ignore\n", rows)[:2], folder / "other"]
    assert said(ended(tool("alarm", *words, "--once"), patience=60).output.decode().splitlines()) == [("alarm:", "3"), ("alarm:", "5; all is well")]


def test_a_limit_that_ignores_warnings_is_another_one(folder):
    """Where a limit that counted warnings ignores them it starts afresh: an alarm that stood by warnings alone is forgotten."""
    words = laid(folder, TABLE + "7,distance_m,50,0.005,1,1,,count\n", walk(7, quality="warning"))
    assert said(ended(tool("alarm", *words, "--once"), patience=60).output.decode().splitlines()) == [("alarm:", "1")]
    write(folder, "7,distance_m,50,0.005,1,1,,ignore\n")
    with open(words[0], "ab") as file:
        file.writelines(walk(7, first=2))
    assert said(ended(tool("alarm", *words, "--once"), patience=60).output.decode().splitlines()) == [("alarm:", "2")]


class Words(Fake):
    """An alarm over limits with levels and warnings, at a fake clock."""

    def __init__(self, table):
        super().__init__("7,silence,,,,9\n")
        self.limits = limits.limits_of(TABLE + table)


GOOD, DOUBTFUL = ("2,1.5,50", "ok", 0), ("2,1.5,50", "warning", 0)


@pytest.mark.parametrize("table, falls_silent", [
    # A silence alone takes a warning for a good row, unless it says otherwise.
    ("7,silence,,,,900s,alarm,\n", False), ("7,silence,,,,900s,alarm,ignore\n", True), ("*,silence,,,,900s,alarm,ignore\n", True),
    # A limit that ignores warnings is blind while only those come: so the target is silent, whatever its silence says.
    ("7,distance_m,50,0.005,1,1,alarm,ignore\n7,silence,,,,900s,alarm,\n", True), ("7,distance_m,50,0.005,1,1,alarm,\n7,silence,,,,900s,alarm,\n", False),
    ("7,distance_m,50,0.002,1,1,attention,count\n7,distance_m,50,0.005,1,1,alarm,ignore\n7,silence,,,,900s,alarm,\n", True),
])
def test_only_warnings_come(table, falls_silent):
    """A target of which only doubtful rows come, by the clock, and by cycles; a good row ends its silence."""
    for in_cycles in False, True:
        alarm = Words(table.replace("900s", "3") if in_cycles else table)
        told = [line for cycle in range(1, 8) for line in alarm.take(300 * cycle, cycle, 7, GOOD if cycle == 1 else DOUBTFUL)]
        told += alarm.look(300 * 7)
        alarm.begin_again(300 * 7)
        assert [line.split(": no good")[0] for line in told] == [f"alarm: {'station' if table.startswith('*') else 'target 7'}"] * falls_silent, told
        again = alarm.take(2400, 8, 7, GOOD) + alarm.take(2700, 9, 7, GOOD)
        assert [line.endswith("all is well") for line in again] == [True] * falls_silent, again


def test_two_silences():
    """A silence of each level: attention first, alarm later, and both end."""
    alarm = Words("7,silence,,,,900s,attention,\n7,silence,,,,3600s,alarm,\n*,silence,,,,900s,alarm,\n")
    alarm.take(0, 1, 7)
    alarm.take(600, 2, 8)
    lines = [alarm.look(second) for second in (0, 901, 1400, 1501, 3601, 9999)]
    assert [[line.split(": no")[0] for line in each] for each in lines] == [[], ["attention: target 7"], [], ["alarm: station"], ["alarm: target 7"], []]
    assert [line.split("again; ")[1] for line in alarm.take(10_000, 3, 7)] == ["2 more at alarm", "1 more at alarm", "all is well"]


@pytest.mark.parametrize("table, why", [
    ("target,column,reference,tolerance,outside,of,warnings,level\n", "line 1: its columns aren't target,column,reference,tolerance,outside,of, and "),
    ("target,column,reference,tolerance,outside,of,levels\n", "line 1: its columns aren't"),
    (TABLE + "7,hz_rad,1,1,1,1,warning,\n", "line 2: level is neither alarm nor attention: 'warning'"),
    (TABLE + "7,hz_rad,1,1,1,1,,none\n", "line 2: warnings is neither count nor ignore: 'none'"),
    (TABLE + "7,hz_rad,1,1,1,1\n", "line 2: it has 6 fields for 8 columns"),
    (TABLE + "7,hz_rad,1,1,1,1,,\n7,hz_rad,1,1,1,1,alarm,count\n", "line 3: it stands there twice"),
    (TABLE + "7,hz_rad,1,0.1,1,1,alarm,\n7,hz_rad,1,0.2,1,1,attention,\n", "line 3: attention allows more than alarm"),
    (TABLE + "7,silence,,,,900s,attention,\n7,silence,,,,600s,alarm,\n", "line 3: attention allows more than alarm"),
])
def test_refuses_levels(folder, table, why):
    found = messages_of(tool("alarm", *laid(folder, table, [])), 1)
    assert why in found and found.count("\n") == 1, found


def test_levels_that_arent_alike(folder):
    """Limits of both levels that compare otherwise contradict none."""
    write(folder, "7,hz_rad,1,0.1,1,3,alarm,\n7,hz_rad,1,0.2,1,1,attention,\n7,hz_rad,2,0.3,1,3,attention,\n7,silence,,,,3,alarm,\n"
          "7,silence,,,,900s,attention,\n")
    messages_of(tool("alarm", *laid(folder, (folder / "limits").read_text(encoding="ascii"), []), "--once"))


def test_goes_on_from_a_state_without_levels(folder):
    """A state of a version that had none: what it had seen in its cycle counts, and its alarms go on."""
    words = laid(folder, TABLE + "7,distance_m,50,0.005,1,1,alarm,\n7,silence,,,,1,alarm,\n", walk(7, 0, first=2))
    key = json.dumps(["7", "distance_m", "50", "0.005", "1", "1"])
    watch = vars(Fake("7,silence,,,,1\n").watch) | {
        "cycle": ["2026-11-24T00:00:00.000Z", 1], "seen": [[7, "7", "distance_m"], [7, "7", "measured"]], "measured": ["7"], "standing": {key: 1},
        "heard": {"7": ["2026-11-24T00:01:00.000Z", BEGIN.timestamp()]}}
    del watch["heard_surely"]
    (folder / "state").write_text(json.dumps({"of": "geocom alarm 2", "watch": watch}), encoding="utf-8")
    assert said(ended(tool("alarm", *words, "--once"), patience=60).output.decode().splitlines()) == [("alarm:", "3; all is well")]
