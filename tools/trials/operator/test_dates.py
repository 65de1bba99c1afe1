"""Files by date, and cycles by the clock, of a station whose wall clock the trial sets: by days and months, back, and by parts of a second."""

import os

import pytest

import dated
from dates import DAY, change, every_row_once, measuring
from measuring import expect_each_once
from programs import until
from records import HEAD, moment

ASTRAY = "geocom: no file of records can be opened at the path of the date: rows are still written to the one before\n"


@pytest.mark.title("thirty-one changes of date, {form}, with --every {every} {more}")
@pytest.mark.parametrize("form, seconds, every, more", [
    ("%Y-%m-%d", DAY, 1, ""), ("%Y-%m", 31 * DAY, None, ""), ("%Y-%m-%dT%H", 3600, None, ""), ("%Y-%m-%d", DAY, None, "--log-bytes 2000")])
def test_changes_of_date(program, folder, note, form, seconds, every, more):
    """The clock is set on by a day, a month or an hour, now in a cycle and now behind it: rows and logs go on in files of the new date."""
    words = f"{f'--every {every} --cycles 33' if every else '--cycles unlimited'} --until {folder}/stop {more}"
    with measuring(program, folder, words, form) as station:
        found = change(station, 31, seconds)
        logs = station.check_logs(2000 if more else None)
    assert len(found) >= 31, list(found)
    every_row_once(found)
    note(f"{len(found)} files, {sum(map(len, found.values()))} rows, {logs} logs")


@pytest.mark.title("a year of dates, without --every")
def test_a_year(program, folder, note):
    with measuring(program, folder, f"--cycles unlimited --until {folder}/stop") as station:
        for _ in range(365):
            path = folder / f"rows-{station.date()}.csv"
            until(lambda: path.exists() and path.stat().st_size > len(HEAD) or not station.run.is_running() or os.path.exists(station.rows), "a row comes", 10)
            assert path.exists(), f"{sorted(os.listdir(folder))[:5]}: {station.run.messages()}"
            station.step(DAY)
        until(lambda: (folder / f"rows-{station.date()}.csv").exists(), "the last file", 10)
        (folder / "stop").touch()
        found = station.rest_of()
        logs = station.check_logs()
    assert len(found) == 366 and station.dates[-1] == "2027-12-01"
    every_row_once(found)
    note(f"{sum(map(len, found.values()))} rows, {logs} logs")


@pytest.mark.title("a clock that is set back by a day")
def test_set_back(program, folder):
    """Rows go on in the file of the day before, behind its own, and then in the later one; by their cycles they are in order."""
    with measuring(program, folder, f"--cycles unlimited --until {folder}/stop") as station:
        for seconds in (DAY, -DAY, DAY, 0):
            many = station.count() + 6
            until(lambda: station.count() >= many, f"rows come at {station.date()}", 10)
            station.step(seconds)
        (folder / "stop").touch()
        found = station.rest_of()
    assert [os.path.basename(path) for path in found] == ["rows-2026-12-01.csv", "rows-2026-12-02.csv"]
    for rows in found.values():
        cycles = [int(row["cycle"]) for row in rows]
        assert cycles == sorted(cycles), "what a file had stays before what is added"
        jumps = sum(there > here + 1 for here, there in zip(cycles, cycles[1:]))
        assert jumps == 1, cycles
    every_row_once({"all": dated.merged([*found.values()])})


@pytest.mark.title("no file can be had at the path of a date")
def test_no_file_of_the_date(program, folder):
    """Rows go on in the file of the date before, and that is reported; once a file can be had, they go on there. No row is lost or double."""
    with measuring(program, folder, f"--every 1 --cycles unlimited --until {folder}/stop") as station:
        before = folder / f"rows-{station.date()}.csv"
        until(lambda: before.exists() and before.read_bytes().count(b"\n") > 4, f"no row comes: {station.run.messages()}", 10)
        after = folder / "rows-2026-12-02.csv"
        after.mkdir()
        station.step(DAY)
        many = before.read_bytes().count(b"\n") + 4
        until(lambda: before.read_bytes().count(b"\n") >= many, f"no row goes on in the file before: {station.run.messages()}", 10)
        after.rmdir()
        until(lambda: after.is_file() and after.read_bytes().count(b"\n") > 4, f"no row comes in the file of the date: {station.run.messages()}", 10)
        (folder / "stop").touch()
        found = station.files() if station.run.status(20) == 0 else {}
        told = station.run.messages()
        marks = [name for name in os.listdir(folder) if name.endswith(".open")]
    assert told.count(ASTRAY) == 1 and "moved or deleted" not in told and not marks, (told, marks)
    assert [os.path.basename(path) for path in found] == [before.name, after.name]
    every_row_once(found)


@pytest.mark.title("--at 0 with a clock that is set by {seconds} s")
@pytest.mark.parametrize("seconds", [1.3, -1.3, 3600.7])
def test_cycles_by_the_clock(program, folder, note, seconds):
    """Cycles begin at whole multiples of the period by the clock, from the first one on; where it is set, again from the second one after."""
    with measuring(program, folder, "--every 2 --at 0 --cycles 9") as station:
        until(lambda: station.count() >= 6, f"no three cycles: {station.run.messages()}", 12)
        station.step(seconds)
        found = station.rest_of(patience=30)
    rows = dated.merged([*found.values()])
    expect_each_once(rows, 2, 9)
    begins = [moment(row["sent"]).timestamp() for row in rows if row["step"] == "0"]
    off = [min(begin % 2, 2 - begin % 2) if begin % 2 > 1.9 else begin % 2 for begin in begins]
    # The cycle that waited when the clock was set may begin by the clock before it.
    assert max(off[:3] + off[4:]) < 0.3, (off, begins)
    assert all(0 < there - here < 4.3 for here, there in zip(begins[4:], begins[5:])), begins
    note(f"at most {1000 * max(off[:3] + off[4:]):.0f} ms off")
