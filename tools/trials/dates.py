"""A station whose wall clock a trial sets, and what its files by date have to be.

    dates.py PROGRAM CHANGES    so many changes of date, from day to day, with logs that are kept short; nothing but python3 and a compiler of C
"""

import contextlib
import datetime
import os
import re
import sys
import tempfile
from pathlib import Path

import dated
from clock import Clock
from measuring import expect_each_once
from programs import Run, free_port, is_listening, until
from records import HEAD, MOMENT, fields_of, is_of_setup, moment

TWO = b"7 5003\n8 5004\n"
NOON = datetime.datetime(2026, 12, 1, 12, tzinfo=datetime.timezone.utc)
DAY = 86_400
# How long a row may take, in seconds; an emulated processor takes longer.
PATIENCE = 60
LOG_LINE = re.compile(rb"%s (?:>|<|>\||<\||-) .*" % MOMENT.pattern.encode())


class Measuring:
    """A station over a simulator, which writes files by date into a folder, and its clock."""

    def __init__(self, program, port, folder, words, form="%Y-%m-%d", commands=TWO):
        self.folder, self.form, self.clock = folder, form, Clock(folder)
        self.clock.set(NOON)
        self.rows, self.logs = f"{folder}/rows-{form}.csv", f"{folder}/log-{form}.log"
        # What the clock showed, as dates of files.
        self.dates = [self.date()]
        self.run = Run([program, "station", port, *words.split(), "--append", self.rows, "--log", self.logs, "--fsync"], commands,
                       env={**os.environ, **self.clock.environment})

    def date(self):
        return self.clock.now().strftime(self.form)

    def step(self, seconds):
        self.clock.step(seconds)
        self.dates.append(self.date())

    def count(self):
        """How many rows are there."""
        assert not os.path.exists(self.rows), f"it writes a file that is called {os.path.basename(self.rows)}, letter by letter"
        assert self.run.is_running() or self.run.process.returncode == 0, self.run.messages()
        return sum(len(rows) for rows in self.files().values())

    def has_come(self, many):
        """Whether so many rows are there, and one of them in the file of the present date."""
        return self.count() >= many and bool(self.files().get(f"{self.folder}/rows-{self.date()}.csv"))

    def files(self):
        """The rows of each file, in the order of dates. A row that isn't whole yet is none."""
        found = {}
        for path in dated.files_of(self.rows):
            with open(path, "rb") as file:
                data = file.read()
            found[path] = [dict(zip(HEAD.decode().strip().split(","), fields_of(line))) for line in data[: data.rfind(b"\n") + 1].splitlines()[1:]]
        return found

    def rest_of(self, patience=PATIENCE):
        """The rows of each file once it has ended; each file is one of a date that was, begins with its header, and is whole. No mark stays."""
        assert self.run.status(patience) == 0, self.run.messages()
        names = sorted(os.listdir(self.folder))
        assert not [name for name in names if name.endswith((".open", ".copy"))], names
        rows = [name for name in names if name.startswith("rows-")]
        assert {name[len("rows-") : -len(".csv")] for name in rows} <= {*self.dates} and len(rows) == len(dated.files_of(self.rows)), rows
        for name in rows:
            data = (self.folder / name).read_bytes()
            assert data.startswith(HEAD) and data.endswith(b"\n") and data.count(HEAD) == 1, name
        found = self.files()
        for path, each in found.items():
            late = [row for row in each if moment(row["time"]).strftime(self.form) not in path]
            # A row may be written before the clock is looked at, and what waits for it is of the same cycle.
            assert len(late) <= 2, (path, late)
        return found

    def check_logs(self, most=None):
        """Each log has the lines of its own date, whole, and is not longer than it may be; how many files."""
        names = [name for name in sorted(os.listdir(self.folder)) if name.startswith("log-")]
        for name in names:
            date = re.fullmatch(r"log-(.*)\.log(?:\.1)?", name)[1]
            data = (self.folder / name).read_bytes()
            lines = data.splitlines()
            assert date in self.dates and data.endswith(b"\n") and all(LOG_LINE.fullmatch(line) for line in lines), name
            assert {moment(line[:24].decode()).strftime(self.form) for line in lines} == {date}, name
            assert most is None or len(data) <= most, (name, len(data))
            times = [line[:24] for line in lines]
            assert times == sorted(times), name
        assert not [name for name in names if name.endswith(".1") and name[:-2] not in names], names
        return len(names)


@contextlib.contextmanager
def measuring(program, folder, *words, **options):
    port = free_port()
    with Run([program, "serve", port, "--keep"]):
        until(lambda: is_listening(port), "the simulator doesn't listen")
        station = Measuring(program, port, folder, *words, **options)
        try:
            yield station
        finally:
            station.run.end()


def every_row_once(found):
    """The rows of files in the order of their dates are those of the run, in their order. A run that is asked to end does so between two
    commands, too: the last cycle may have one row."""
    rows = [row for rows in found.values() for row in rows if not is_of_setup(row)]
    expect_each_once(rows[: len(rows) // 2 * 2], 2, len(rows) // 2)
    assert len(rows) % 2 == 0 or (rows[-1]["cycle"], rows[-1]["step"]) == (str(len(rows) // 2 + 1), "0"), rows[-1]


def change(station, changes, seconds):
    """Sets the clock on again and again, now in a cycle and now behind it, once rows have come by each date; ends the run."""
    for number in range(changes):
        many = station.count() + 1 + number % 2
        until(lambda: station.has_come(many), f"no row comes at {station.date()}", PATIENCE)
        station.step(seconds)
    many = station.count() + 3
    until(lambda: station.count() >= many or not station.run.is_running(), "no row comes at last", PATIENCE)
    (station.folder / "stop").touch()
    return station.rest_of()


def main():
    program, changes = os.path.abspath(sys.argv[1]), int(sys.argv[2])
    with tempfile.TemporaryDirectory() as folder:
        words = f"--every 1 --cycles unlimited --until {folder}/stop --log-bytes 2000"
        with measuring(program, Path(folder), words) as station:
            found = change(station, changes, DAY)
            logs = station.check_logs(2000)
    assert len(found) >= changes, [*found]
    many = sum(map(len, found.values()))
    every_row_once(found)
    print(f"{changes} changes of date: {len(found)} files of rows, {many} rows, each once and in order; {logs} logs, none above 2000 bytes")


if __name__ == "__main__":
    main()
