"""The air that distances are measured in: its refractivity, and where the air of a cycle is read."""

import csv
import os
from bisect import bisect_right
from decimal import Decimal, InvalidOperation
from pathlib import Path

import follow
import moments
import quantities
import records
from faulty import Faulty

# The humidity where none is measured, in percent: that at which the instruments' distances are right.
HUMIDITY = Decimal(60)
NAMES = ["temperature_c", "pressure_hpa", "humidity_percent"]
RANGES = {
    "atmosphere": lambda celsius, hectopascals, percent: -60 <= celsius <= 60 and 500 <= hectopascals <= 1100 and 0 <= percent <= 100,
    "carrier": lambda nanometres, ppm: 400 <= nanometres <= 1600 and 0 <= ppm <= 500,
}


def check(word, *numbers):
    """Refuses what is no air and no light: a pressure in other units would pass as one."""
    if not RANGES[word](*numbers):
        raise Faulty(f"{word} has a number out of its range")


def refractivity(nanometres, celsius, hectopascals, percent):
    """The group refractivity of air in ppm, by the closed formula of the International Association of Geodesy's resolution of 1999; the
    vapour's pressure by Magnus, with the numbers that makers of total stations print."""
    micrometres = nanometres / 1000
    standard = Decimal("287.6155") + Decimal("4.88660") / micrometres**2 + Decimal("0.06800") / micrometres**4
    kelvin = celsius + Decimal("273.15")
    vapour = percent / 100 * Decimal(10) ** (Decimal("7.5") * celsius / (Decimal("237.3") + celsius) + Decimal("0.7857"))
    return standard * Decimal("273.15") / Decimal("1013.25") * hectopascals / kelvin - Decimal("11.27") * vapour / kelvin


def factor(carrier, atmosphere):
    """What a measured distance is multiplied by, for the air that it was measured in; 1 where nothing is said of that."""
    if atmosphere is None:
        return Decimal(1)
    return (1 + carrier[1] / 1_000_000) / (1 + refractivity(carrier[0], *atmosphere) / 1_000_000)


def air_of(site, rows):
    """The air of a cycle, what it is from, and what is doubtful about it."""
    found = site.air.of(rows) if site.air else None
    if found:
        return found, site.air.SAID, []
    if site.atmosphere:
        return site.atmosphere, "constant", ["the air wasn't measured"] if site.air else []
    return None, "", ["the air wasn't measured"] if site.air else []


def decimal(text):
    """The decimal of a text; `None` where it is none."""
    try:
        number = Decimal(text)
    except InvalidOperation:
        return None
    return number if number.is_finite() else None


class Columns:
    """The air of a cycle by columns of its rows: of each the last one that was answered well and has a number. The humidity may have
    none."""

    SAID = "columns"

    def __init__(self, names):
        self.names = names

    def of(self, rows):
        last = dict.fromkeys(self.names)
        for fields in rows:
            found = {**fields, **quantities.quantities(fields)} if quantities.has_values(fields) else {}
            for name in self.names:
                number = decimal(found.get(name) or "")
                last[name] = last[name] if number is None else number
        numbers = [last[name] for name in self.names] + [HUMIDITY] * (3 - len(self.names))
        is_air = None not in numbers and RANGES["atmosphere"](*numbers)
        return tuple(numbers) if is_air else None


class File:
    """The air by a table with times: the last line at the beginning of a cycle or before it, if it isn't older than so many seconds. The
    file may grow; half a line at its end is left. A line that is none is left out, and reported once: the cycles after it have the air of
    the line before it, as long as that isn't too old."""

    SAID = "file"

    def __init__(self, folder, path, seconds):
        self.path, self.most = os.path.join(folder, path), seconds * 1000
        self.state, self.times, self.airs, self.told = None, [], [], set()

    def of(self, rows):
        self.read()
        begin = moments.milliseconds(rows[0].get("sent") or rows[0]["time"])
        place = bisect_right(self.times, begin)
        return self.airs[place - 1] if place and begin - self.times[place - 1] <= self.most else None

    def read(self):
        """Reads it where it was changed."""
        try:
            there = os.stat(self.path)
            state = (there.st_ino, there.st_size, there.st_mtime_ns)
            if state == self.state:
                return
            text = Path(self.path).read_text(encoding="utf-8-sig", errors="replace")
        except OSError as why:
            raise Faulty(f"{self.path}: {why.strerror}") from None
        self.state, self.times, self.airs = state, [], []
        head, *lines = text[: text.rfind("\n") + 1].split("\n")[:-1] or [""]
        names = head.strip("\r").split(",")
        if names not in (["time", *NAMES[:2]], ["time", *NAMES]):
            raise Faulty(f"{self.path}: its columns aren't time,{','.join(NAMES)}, of which the last may be missing")
        for number, line in enumerate(lines, 2):
            try:
                self.take(names, next(csv.reader([line.strip("\r")], strict=True), []))
            except (Faulty, ValueError, csv.Error) as why:
                self.leave_out(f"{self.path}: line {number} is none, and left out: {why}")

    def leave_out(self, why):
        """Reports a line that is left out, once: the file is read again where it grows."""
        if why not in self.told:
            follow.tell(why)
        self.told.add(why)

    def take(self, names, fields):
        """Takes a line; times go forward."""
        if len(fields) != len(names):
            raise Faulty(f"it has {len(fields)} fields for {len(names)} columns")
        numbers = list(map(decimal, fields[1:])) + [HUMIDITY] * (4 - len(names))
        if None in numbers:
            raise Faulty("a field is no number")
        check("atmosphere", *numbers)
        moment = moments.milliseconds(fields[0])
        if self.times and moment <= self.times[-1]:
            raise Faulty("its time isn't after the one before it")
        self.times.append(moment)
        self.airs.append(tuple(numbers))
