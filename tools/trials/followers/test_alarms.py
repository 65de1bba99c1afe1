"""Alarms: which rows are outside, over kills, from a file and from standard input, and what the command gets."""

import csv
import io
import json
import time
from collections import Counter

import pytest
from growing import Growing
from killing import kill_again_and_again
from programs import Run, ended, until
from records import COLUMNS, HEAD, line_of
from sinks import messages_of, tool
from two_faces import SITE, Month

LIMITS = "target,column,reference,tolerance,outside,of\n"


def laid(folder, limits, rows=b""):
    """A file of rows and a table of limits, and the words after the command."""
    (folder / "values.csv").write_bytes(HEAD + rows)
    (folder / "limits").write_text(LIMITS + limits, encoding="utf-8")
    return [folder / "values.csv", folder / "limits", folder / "state"]


def row(cycle, target, values, quality="ok", procedure=2108, rc=0, attempt=1, outcome="answered"):
    """A row of this cycle, answered so."""
    return line_of({"run": "2026-11-24T00:00:00.000Z", "time": f"2026-11-24T{cycle // 60:02}:{cycle % 60:02}:00.000Z", "cycle": cycle, "step": target,
                    "target": target, "procedure": procedure, "outcome": outcome, "rc_com": 0, "rc": rc, "values": values, "quality": quality,
                    "attempt": attempt})


def lines_of(words, given=b"", patience=60, ends=False):
    """The lines of an alarm that ends by itself with status 0, and reports an alarm again; those of its end where they are asked for."""
    found = ended(tool("alarm", *words, "--repeat", *([] if words[0] == "-" else ["--once"])), given, patience=patience)
    assert found.status == 0, found.messages
    return [line for line in found.output.decode().splitlines() if ends or " again" not in line]


def test_compares_on_the_circle(folder):
    """A direction near 0 is close to one near a whole turn, and what was measured in face II is turned over."""
    words = laid(folder, "7,hz_rad,0.00001,0.00002,1,1\n7,v_rad,1.5,0.001,1,1\n7,distance_m,50,0.002,1,1\n", b"".join([
        row(1, 7, "6.28318,1.5,50"), row(2, 7, "6.28317,1.5,50"), row(3, 7, "3.1416,4.7831853,50"), row(4, 7, "3.1417,4.7851853,50.003"),
        row(5, 7, "1,1", "refused", rc=1285), row(6, 8, "1,1,1")]))
    assert lines_of(words) == [
        "2026-11-24T00:02:00.000Z target 7: hz_rad is 6.28317, 0.0000253072 below 0.00001 (0.00002 allowed): 1 of the last 1 outside; cycle 2",
        "2026-11-24T00:04:00.000Z target 7: hz_rad is 0.0001073464, 0.0000973464 above 0.00001 (0.00002 allowed): 1 of the last 1 outside; cycle 4",
        "2026-11-24T00:04:00.000Z target 7: v_rad is 1.4980000072, 0.0019999928 below 1.5 (0.001 allowed): 1 of the last 1 outside; cycle 4",
        "2026-11-24T00:04:00.000Z target 7: distance_m is 50.003, 0.003 above 50 (0.002 allowed): 1 of the last 1 outside; cycle 4",
    ]


def test_some_of_the_last_rows(folder):
    """2 of the last 3 good rows: a row that isn't good is none of them, and one within the tolerance gets no line."""
    outside, within, refused = "2,1.5,50.1", "2,1.5,50", ("2,1.5", "refused", 2108, 1285)
    rows = [outside, within, outside, within, within, outside, refused, outside, outside]
    data = b"".join(row(cycle, 7, *(each if isinstance(each, tuple) else [each])) for cycle, each in enumerate(rows, 1))
    lines = lines_of(laid(folder, "7,distance_m,50,0.05,2,3\n", data))
    assert [line.rsplit(" ", 1)[1] for line in lines] == ["3", "8", "9"]
    assert "3 of the last 3 outside" not in "".join(lines[:2])


def test_a_tolerance_is_within(folder):
    """A row at the tolerance itself is within; decimals are exact."""
    data = row(1, 7, "2,1.5,50.3") + row(2, 7, "2,1.5,50.30000001")
    assert len(lines_of(laid(folder, "7,distance_m,50.2,0.1,1,1\n", data))) == 1


def test_silence(folder):
    """No good row for 3 cycles: reported when the third is over, and again after a good one."""
    good, refused = ["2,1.5,50"], ["", "refused", 2108, 1285]
    data = b""
    for cycle, each in enumerate([good, refused, refused, refused, refused, good, refused, refused, refused, good], 1):
        data += row(cycle, 8, "2,1.5,50") + row(cycle, 7, *each)
    lines = lines_of(laid(folder, "7,silence,,,,3\n8,silence,,,,1\n", data))
    assert lines == ["2026-11-24T00:05:00.000Z target 7: no good row for 3 cycles; cycle 4",
                     "2026-11-24T00:10:00.000Z target 7: no good row for 3 cycles; cycle 9"]


def test_the_last_attempt_counts(folder):
    """Of several attempts of a command in a cycle the last one counts: what an earlier one measured is none of the last good rows, and
    neither is it a good row where the last one was refused. Rows of the set-up are compared with nothing, and end no cycle."""
    outside, refused = "2,1.5,50.1", ["", "refused", 2108, 1285]
    data = b"".join([
        row(1, 7, outside), row(1, 7, outside, attempt=2), row(0, 7, outside), row(1, 8, "2,1.5,50"), row(2, 7, "2,1.5,50"), row(3, 7, outside),
        row(4, 7, outside), row(4, 7, *refused, attempt=2), row(0, 8, *refused, attempt=5), row(5, 7, *refused), row(6, 7, "2,1.5,50")])
    lines = lines_of(laid(folder, "7,distance_m,50,0.05,2,3\n7,silence,,,,2\n", data))
    assert [line.split(": ", 1)[1].split("is ")[-1] for line in lines] == [
        "50.1, 0.1 above 50 (0.05 allowed): 2 of the last 3 outside; cycle 3", "50.1, 0.1 above 50 (0.05 allowed): 2 of the last 3 outside; cycle 4",
        "no good row for 2 cycles; cycle 5"]


def test_attempts_of_standard_input(folder):
    """The attempts of a chain come one after the other: each row is taken once, also after a restart within a cycle."""
    words = ["-", *laid(folder, "7,distance_m,50,0.05,1,1\n8,distance_m,50,0.05,1,1\n")[1:]]
    rows = [row(1, target, "2,1.5,51", attempt=attempt) for attempt in (1, 2) for target in (7, 8)] + [row(2, 7, "2,1.5,51")]
    first = lines_of(words, HEAD + b"".join(rows[:3]))
    again = lines_of(words, HEAD + b"".join(rows))
    assert (len(first), len(again)) == (3, 2)


@pytest.mark.parametrize("limits, why", [
    ("", "it has no limit"), ("7,hz_rad,1,1,2,1\n", "line 2: 2 outside of 1 can't be"), ("x,hz_rad,1,1,1,1\n", "target is no number"),
    ("7,hz_rad,nan,1,1,1\n", "reference is no number"), ("7,hz_rad,1,-1,1,1\n", "a tolerance is not below 0"), ("7,hz_rad,1,1,0,1\n", "outside is no number"),
    ("7,,1,1,1,1\n", "no column"), ("7,hz_rad,1\n", "it has 3 fields"), ("7,silence,1,,,3\n", "a silence has no reference"),
    ("7,hz_rad,1,1,1,1\n7,hz_rad,1,1,1,1\n", "line 3: it stands there twice"),
])
def test_refuses_limits(folder, limits, why):
    messages = messages_of(tool("alarm", *laid(folder, limits)), 1)
    assert why in messages and messages.count("\n") == 1, messages


def test_alarms_of_a_month(folder, note):
    """A month of hourly rows of both faces, reduced; a target moves 3 mm in a week from the tenth day on. It is outside 2 mm in the cycle
    that arithmetic says: 14 days and 16 hours after the first, and with 2 of the last 3 rows one cycle later. With the instrument's
    noise it is the cycle that is found from the coordinates without the alarm."""
    for noise, seed in (0.0, 3), (2e-6, 3):
        month = Month(noise=noise, bad={9: (range(100, 104), "refused")})
        path, place = folder / f"{noise}.csv", folder / f"{noise}"
        place.mkdir()
        path.write_bytes(month.table(seed))
        (folder / "site").write_text(SITE, encoding="utf-8")
        words = laid(place, "8,target_easting_m,1005,0.002,2,3\n7,target_easting_m,1090,0.002,2,3\n9,silence,,,,4\n")
        made = ended(tool("reduce", path, folder / "site"), patience=300).output
        words[0].write_bytes(made)
        lines = lines_of(words)
        rows = [each for each in csv.DictReader(io.StringIO(made.decode())) if each["target"] == "8"]
        outside = [abs(float(each["target_easting_m"]) - 1005) > 0.002 for each in rows]
        first = next(index for index in range(len(rows)) if outside[index] and sum(outside[max(0, index - 2) : index + 1]) >= 2) + 1
        if not noise:
            assert first == month.first_outside(0.002, 2) == 10 * 24 + 112 + 1 + 1 + 1
        moved = [line for line in lines if "target 8" in line]
        assert moved[0].endswith(f"cycle {first}"), moved[0]
        assert not any("target 7" in line for line in lines)
        assert [line for line in lines if "target 9" in line] == [
            "2026-11-05T07:00:11.000Z target 9 (rock): no good row for 4 cycles; cycle 103"]
        note(f"{'with' if noise else 'without'} noise: {len(moved)} lines, the first in cycle {first}")


def test_alarms_go_on_behind_kills(folder, kills, note):
    """Killed over a file that grows: no line is missing, none is of no row, and the state isn't torn."""
    month = Month(cycles=4000, every=600, from_day=0.01, a_week=1.0)
    whole = [line for rows in month.rows() for line in rows]
    words = laid(folder, "8,distance_m,100.19,0.0005,1,2\n7,hz_rad,0.6525,0.00005,3,5\n")
    words[0].unlink()
    grows = Growing(words[0], 5, line=lambda _, number: whole[number % len(whole)], rest=0.03)
    out = folder / "out"
    command = ["sh", "-c", f'exec "$@" >> {out}', "sh", *tool("alarm", *words, "--repeat", "--rest", "0.02")]
    try:
        kill_again_and_again(kills, 9, command)
    finally:
        grows.end()
    with open(out, "ab") as file:
        file.write(ended(tool("alarm", *words, "--repeat", "--once"), patience=60).output)
    wanted = lines_of([words[0], words[1], folder / "other"])
    # A kill may cut a line, which comes again.
    found = Counter(line for line in out.read_text(encoding="utf-8").splitlines() if line in wanted)
    assert wanted and set(found) == set(wanted), f"{len(set(wanted) - set(found))} lines are missing"
    note(f"{kills} kills, {len(wanted)} lines, none missing, {sum(found.values()) - len(wanted)} again")


def test_standard_input(folder):
    """Rows of standard input, as objects and as a table; those that come again after a restart are ignored."""
    words = ["-", *laid(folder, "7,distance_m,50,0.05,1,1\n")[1:]]
    rows = [row(cycle, 7, "2,1.5,51") for cycle in range(1, 6)]
    first = lines_of(words, HEAD + b"".join(rows[:3]))
    again = lines_of(words, HEAD + b"".join(rows))
    assert [line[-1] for line in first + again] == list("12345")
    fields = dict(zip(COLUMNS, next(csv.reader([rows[0].decode()]))))
    fields["cycle"] = 9
    assert len(lines_of(words, json.dumps({name: field for name, field in fields.items() if field != ""}).encode() + b"\n")) == 1
    assert ended(tool("alarm", *words), HEAD + rows[0] + b"no row\n", patience=20).messages.endswith(f"line 3 is no row: it has 1 fields for {len(COLUMNS)} columns\n")


def test_a_command_is_bounded_in_rate(folder):
    """The first line's command begins at once; lines that come meanwhile go to the next one together, and none is missing."""
    words, told, noted = laid(folder, "7,distance_m,50,0.05,1,1\n"), folder / "told", folder / "runs"
    command = f'cat >> {told}; echo "$GEOCOM_ALARMS $(date +%s.%N)" >> {noted}'

    def runs():
        return [line.split() for line in noted.read_text(encoding="utf-8").splitlines()] if noted.exists() else []

    def lines():
        return sum(int(count) for count, _ in runs())

    with Run(tool("alarm", *words, "--repeat", "--rest", "0.02", "--run", command, "--apart", "2")) as run:
        for cycle in range(1, 41):
            with open(words[0], "ab") as file:
                file.write(row(cycle, 7, "2,1.5,51"))
            time.sleep(0.05)
        until(lambda: lines() == 40, "lines are missing", 20)
        run.terminate()
        assert run.output() == told.read_bytes()
    moments = [float(moment) for _, moment in runs()]
    assert len(moments) <= 4 and all(after - before > 1.8 for before, after in zip(moments, moments[1:])), moments


def test_a_command_that_fails_is_tried_again(folder):
    """Also one that takes too long; with what came meanwhile."""
    words = laid(folder, "7,distance_m,50,0.05,1,1\n", row(1, 7, "2,1.5,51"))
    flag, told = folder / "flag", folder / "told"
    command = f'[ -e {flag} ] || {{ touch {flag}; sleep 60; }}; cat >> {told}'
    messages = messages_of(tool("alarm", *words, "--repeat", "--once", "--run", command, "--apart", "0.5", "--patience", "0.5"))
    assert messages == "alarm: the command took longer than 0.5 s; it is tried again with 1 lines\n"
    assert told.read_text(encoding="utf-8").count("\n") == 1
    # One that always fails doesn't hold up the end, and the lines wait in the state.
    with open(words[0], "ab") as file:
        file.write(row(2, 7, "2,1.5,51"))
    messages = messages_of(tool("alarm", *words, "--repeat", "--once", "--run", "exit 3", "--apart", "0.1"))
    assert "the command ended with status 3" in messages
    messages_of(tool("alarm", *words, "--repeat", "--once", "--run", f"cat >> {told}", "--apart", "0"))
    assert told.read_text(encoding="utf-8").count("\n") == 2


def test_one_alarm_a_state(folder):
    """A second one beside it is refused, and so is a file that is no state."""
    words = laid(folder, "7,distance_m,50,0.05,1,1\n")
    with Run(tool("alarm", *words)) as run:
        until(lambda: (folder / "state.lock").exists(), "it doesn't begin")
        assert not run.ends_within(0.5)
        assert "another alarm keeps its state there" in messages_of(tool("alarm", *words, "--once"), 1)
    (folder / "state").write_text("{}", encoding="utf-8")
    assert "is no state of an alarm" in messages_of(tool("alarm", *words, "--once"), 1)
