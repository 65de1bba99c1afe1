"""Silence by the clock: who is reported, when, and once. A fake clock gives the seconds where waiting would be long."""

import datetime
import json
import subprocess
import time
from importlib.machinery import SourceFileLoader
from importlib.util import module_from_spec, spec_from_loader

import limits
import pytest
from programs import Run, ended, processor_seconds, until
from records import COLUMNS, HEAD, line_of, moment_text
from sinks import TOOLS, tool

TABLE = "target,column,reference,tolerance,outside,of\n"
GOOD, REFUSED = ("2,1.5,50", "ok", 0), ("", "refused", 1285)
BEGIN = datetime.datetime(2026, 11, 24, tzinfo=datetime.timezone.utc)


def fields(cycle, target, moment, answer=GOOD, procedure=2108, name="", **more):
    """The fields of a row of this moment, answered so."""
    values, quality, rc = answer
    found = {"run": moment_text(BEGIN), "time": moment_text(moment), "cycle": cycle, "step": target, "target": target, "name": name,
             "procedure": procedure, "outcome": "answered", "rc_com": 0, "rc": rc, "values": values, "quality": quality, "attempt": 1, **more}
    return {column: str(found.get(column, "")) for column in COLUMNS}


class Fake:
    """An alarm over limits, whose clock stands still unless it is set: the second of the scale is that of the rows' clock, too."""

    def __init__(self, table, repeats=False):
        self.limits, self.watch, self.repeats = limits.limits_of(TABLE + table), limits.Watch(), repeats

    def look(self, second):
        lines = self.watch.judge(self.limits, moment_text(BEGIN + datetime.timedelta(seconds=second)), second, self.repeats)
        return [line.split(" ", 1)[1] for line in lines]

    def take(self, second, cycle, target, *answer, **more):
        row = fields(cycle, target, BEGIN + datetime.timedelta(seconds=second), *answer, **more)
        return [line.split(" ", 1)[1] for line in self.watch.take(self.limits, row, second, self.repeats)]

    def begin_again(self, second):
        """The state is all that a restart leaves."""
        self.watch = limits.Watch(**json.loads(json.dumps(vars(self.watch))))
        self.watch.begin_again(self.limits, second)


def test_no_row_at_all():
    """No row ever: reported once its time has come since the first look, once, and over a restart."""
    alarm = Fake("7,silence,,,,900s\n*,silence,,,,1000s\n")
    assert [alarm.look(second) for second in (0, 899.9, 1800.5, 5000)] == [
        [], [], ["target 7: no good row for 1800 s; none since 2026-11-24T00:00:00.000Z", "station: no good row for 1000 s; none since 2026-11-24T00:00:00.000Z"], []]
    alarm.begin_again(6000)
    assert alarm.look(7000) == []
    assert alarm.take(7001, 1, 8) == ["station: a good row again; 1 more alarm"]
    assert alarm.take(7002, 1, 7, name="pier 4") == ["target 7 (pier 4): a good row again; all is well"]


def test_rows_stop():
    """The clock is judged where no row comes, and the line has the time at which the limit was reached."""
    alarm = Fake("7,silence,,,,900s\n")
    for second in range(0, 3000, 300):
        assert alarm.take(second, second // 300, 7) == [] == alarm.look(second + 1)
    assert alarm.look(3599.9) == []
    lines = alarm.watch.judge(alarm.limits, "", 3600, False)
    assert lines == ["2026-11-24T01:00:00.000Z target 7: no good row for 900 s; the last was at 2026-11-24T00:45:00.000Z"]
    assert alarm.look(3601) == alarm.look(100_000) == []


def test_a_target_is_gone_while_others_answer():
    """Its own silence is reported, and the station's isn't; rows that measure nothing keep neither of them fresh."""
    alarm = Fake("7,silence,,,,900s\n7,silence,,,,2\n*,silence,,,,900s\n*,silence,,,,2\n")
    told = []
    for cycle in range(1, 7):
        second = 300 * cycle
        told += alarm.take(second, cycle, 7, GOOD if cycle == 1 else REFUSED, name="pier 4")
        told += alarm.take(second + 1, cycle, 8)
        told += alarm.take(second + 2, cycle, 7, ("123456", "ok", 0), procedure=5003, place=20, name="pier 4")
        told += alarm.look(second + 3)
    assert told == ["target 7 (pier 4): no good row for 2 cycles; cycle 3",
                    "target 7 (pier 4): no good row for 900 s; the last was at 2026-11-24T00:05:00.000Z"]
    for cycle in range(7, 11):
        told = alarm.take(300 * cycle, cycle, 9, ("21.0", "ok", 0), procedure=5011) + alarm.look(300 * cycle + 3)
    assert alarm.watch.standing.keys() == {limit.key() for limit in alarm.limits}, "temperatures are no sign of prisms"


def test_a_reading_without_its_columns_is_none():
    """A row that lacks what a limit of its target names is no good one, as of a reduction without its references."""
    alarm = Fake("7,target_easting_m,1000,1,1,1\n7,silence,,,,600s\n7,silence,,,,2\n")
    whole, bare = {"target_easting_m": "1000.5"}, {"target_easting_m": ""}

    def take(second, cycle, more):
        row = {**fields(cycle, 7, BEGIN + datetime.timedelta(seconds=second)), **more}
        return [line.split(" ", 1)[1] for line in alarm.watch.take(alarm.limits, row, second, False)] + alarm.look(second + 1)

    assert [take(300 * cycle, cycle, whole if cycle in (1, 5) else bare) for cycle in range(1, 7)] == [
        [], [], ["target 7: no good row for 600 s; the last was at 2026-11-24T00:05:00.000Z"], ["target 7: no good row for 2 cycles; cycle 3"],
        ["target 7: a good row again; 1 more alarm"], ["target 7: a good row again; cycle 5; all is well"]]


def test_a_standing_alarm_is_reported_once():
    """And its end once; with --repeat each time."""
    data = ["50.1", "50.1", "50", "50.1", "50", "50", "50", "50.1", "50.1"]
    for repeats in False, True:
        alarm = Fake("7,distance_m,50,0.05,2,3\n", repeats)
        told = [alarm.take(cycle, cycle, 7, (f"2,1.5,{value}", "ok", 0)) for cycle, value in enumerate(data, 1)]
        assert [len(lines) for lines in told] == [0, 1, 0, repeats, 1, 0, 0, 0, 1]
        assert told[4] == ["target 7: distance_m is 50, within 0.05 of 50 again; cycle 5; all is well"]
    alarm = Fake("7,silence,,,,900s\n", True)
    assert [len(alarm.look(second)) for second in (0, 900, 1000, 1800, 1801, 4500)] == [0, 1, 0, 1, 0, 1]


def test_what_nobody_looked_at():
    """Over a restart: a silence that began and ended meanwhile is reported, with its end; and a target that two kinds of rows make good."""
    alarm = Fake("7,silence,,,,900s\n")
    alarm.take(0, 1, 7)
    alarm.begin_again(4000)
    assert alarm.take(3000, 2, 7) == ["target 7: no good row for 2700 s; the last was at 2026-11-24T00:00:00.000Z", "target 7: a good row again; all is well"]
    assert alarm.look(3800) == [] != alarm.look(3900)
    alarm = Fake("7,distance_m,50,1,1,1\n7,temperature_c,20,5,1,1\n7,silence,,,,60s\n")
    told = []
    for cycle in range(1, 5):
        told += alarm.take(50 * cycle, cycle, 7)
        told += alarm.take(50 * cycle + 1, cycle, 7, ("21.0", "ok", 0), procedure=5011, place=8) if cycle < 4 else []
    assert told == [] == alarm.look(210) and len(alarm.look(211)) == 1


def test_a_clock_that_is_set(monkeypatch):
    """A row came as long ago as the clock says; one ahead of the clock came now. While the alarm runs no step of the clock counts."""
    loader = SourceFileLoader("alarm", str(TOOLS / "alarm"))
    alarm = module_from_spec(spec_from_loader("alarm", loader))
    loader.exec_module(alarm)
    clock, ticks = [1_000_000.0], [50.0]
    monkeypatch.setattr(alarm.time, "time", lambda: clock[0])
    monkeypatch.setattr(alarm.time, "monotonic", lambda: ticks[0])

    def at(second):
        return moment_text(datetime.datetime.fromtimestamp(second, datetime.timezone.utc))

    scale = alarm.Scale()
    assert (scale.of(at(999_100)), scale.of(at(1_003_600))) == (999_100, 1_000_000)
    clock[0] -= 3600
    ticks[0] += 60
    assert (scale.now(), scale.of(at(996_400))) == (1_000_060, 1_000_060)
    clock[0] += 7200
    assert (scale.now(), scale.of(at(1_003_600))) == (1_000_060, 1_000_060)
    # A state whose rows came later than now, since the clock was set back before a start.
    watch = limits.Watch(heard={"7": ["2026-11-24T00:00:00.000Z", 5000]}, begun=["2026-11-24T00:00:00.000Z", 4000])
    table = limits.limits_of(TABLE + "7,silence,,,,900s\n")
    watch.begin_again(table, 1000)
    assert watch.judge(table, "", 1899, False) == [] != watch.judge(table, "", 1900, False)


def laid(folder, table, rows=None):
    if rows is not None:
        (folder / "values.csv").write_bytes(HEAD + b"".join(map(line_of, rows)))
    (folder / "limits").write_text(TABLE + table, encoding="utf-8")
    return [folder / "values.csv", folder / "limits", folder / "state"]


def now(ago=0.0):
    return datetime.datetime.now(datetime.timezone.utc) - datetime.timedelta(seconds=ago)


@pytest.mark.parametrize("ahead", [0, -7200], ids=["in time", "after the clock was set back"])
def test_speaks_while_nothing_comes(folder, note, ahead):
    """A running alarm: the line comes when its time has come, its end with a good row, and the processor idles meanwhile."""
    words = laid(folder, "7,silence,,,,2s\n*,silence,,,,3s\n", [fields(1, 7, now(ahead), name="$x_1^{a$")])
    begun = time.monotonic()
    with Run(tool("alarm", *words, "--rest", "0.05")) as run:
        until(lambda: run.output().count(b"\n") == 2, "it is silent, too", 30)
        took = time.monotonic() - begun
        assert b"target 7 ($x_1^{a$): no good row for 2 s" in run.output().splitlines()[0], run.output()
        time.sleep(1.5)
        with open(words[0], "ab") as file:
            file.write(line_of(fields(2, 7, now())))
        until(lambda: run.output().count(b"\n") >= 4, "no end of it", 30)
        busy = processor_seconds(run.pid)
        run.terminate()
        assert [line.rsplit(b"; ", 1)[1] for line in run.output().splitlines()[2:]] == [b"1 more alarm", b"all is well"]
    assert took > 2.5 and busy < 3, (took, busy)
    note(f"two silences after {took:.1f} s")


def test_speaks_of_a_file_that_isnt_there(folder):
    """And after a restart the silence goes on where it was; rows of standard input that stop are the same."""
    words = laid(folder, "*,silence,,,,2s\n")
    with Run(tool("alarm", *words, "--rest", "0.05")) as run:
        until(lambda: (folder / "state").exists(), "no state", 30)
        run.kill()
    since = json.loads((folder / "state").read_text(encoding="utf-8"))["watch"]["begun"][0]
    time.sleep(2)
    with Run(tool("alarm", *words, "--rest", "0.05")) as run:
        until(lambda: run.output(), "no line", 30)
        assert f"s; none since {since}" in run.output().decode()
    words = ["-", words[1], folder / "other"]
    command = list(map(str, tool("alarm", *words, "--rest", "0.05")))
    with subprocess.Popen(command, stdin=subprocess.PIPE, stdout=subprocess.PIPE, bufsize=0) as run:
        run.stdin.write(HEAD + line_of(fields(1, 7, now())))
        assert b"station: no good row for 2 s; the last was at" in run.stdout.readline()
        run.kill()


def test_once_looks_at_the_clock(folder):
    """As of a timer: with the state of the last call, each call reports what is new."""
    words = laid(folder, "7,silence,,,,900s\n8,silence,,,,900s\n", [fields(1, 7, now(901)), fields(1, 8, now(600))])
    first = ended(tool("alarm", *words, "--once"), patience=20)
    again = ended(tool("alarm", *words, "--once"), patience=20)
    assert (first.status, first.output.count(b"\n"), again.output) == (0, 1, b"") and b"target 7: no good row for 900 s" in first.output


@pytest.mark.parametrize("line, why", [
    ("7,silence,,,,0s\n", "of is no number of seconds"), ("7,silence,,,,99999999s\n", "of is no number of seconds"), ("7,silence,,,,1.5s\n", "of is no number"),
    ("*,hz_rad,1,1,1,1\n", "target * has a silence alone"), ("7,silence,,,,5 s\n", "of is no number"), ("7,silence,,,,٣s\n", "of is no number"),
])
def test_refuses_silences(folder, line, why):
    found = ended(tool("alarm", *laid(folder, line, [])), patience=20)
    assert found.status == 1 and why in found.messages and found.messages.count("\n") == 1, found.messages


def test_goes_on_from_an_earlier_state(folder):
    """A state of a version that had no clock: its windows go on."""
    words = laid(folder, "7,distance_m,50,0.05,1,1\n", [fields(1, 7, now(), ("2,1.5,51", "ok", 0))])
    (folder / "state").write_text(json.dumps({
        "of": "geocom alarm 2", "places": {}, "lines": [], "waiting": [], "began": 0,
        "watch": {"windows": {}, "now": {}, "silent": {}, "names": {}, "cycle": None, "good": [[2, "7"]], "taken": []}}), encoding="utf-8")
    found = ended(tool("alarm", *words, "--once"), patience=20)
    assert (found.status, found.output.count(b"\n")) == (0, 1), found
