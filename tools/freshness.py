"""Whether a station measures, from the end of its file of rows, or of its files by date, alone: how old the last row of a cycle is, and each target's last
measurement.

A measurement is a row of a procedure that measures directions, of quality `ok` or `warning`, with a value for each of its quantities. The
targets are those that such a procedure was due for in the last two cycles. Whether one outside the table measures directions its last good row
says, if that is among the last 20,000. Rows of the setup are no sign of a cycle.
"""

import datetime
import os
import stat
from dataclasses import dataclass, field

import dated
import quantities
import records
from faulty import Faulty

# How much is read at once, how long a line may be, and how far back a target's last measurement is looked for.
PIECE = 1 << 16
LONGEST_LINE = 1 << 16
MOST_BYTES = 1 << 24
# Among how many rows a good one is looked for that says whether a procedure measures.
MOST_ROWS = 20_000
# By how many seconds a row may be ahead of the clock.
AHEAD = 5
OK, WARNING, CRITICAL, UNKNOWN = range(4)
WORDS = ["OK", "WARNING", "CRITICAL", "UNKNOWN"]


class Unknown(Exception):
    """Why nothing can be said."""


class Missing(Exception):
    """Why there is no row."""


@dataclass
class Target:
    """A target of the last cycles: its name, and when it was measured last, which may be further back than what was read."""

    number: str
    name: str
    measured: datetime.datetime = None

    def called(self):
        return f"{self.number} ({self.name.replace('|', ' ')})" if self.name else self.number


@dataclass
class End:
    """What the end of a file says: its last row of a cycle, when that was, the targets, how far back was read, and whether the file begins
    there."""

    last: dict
    moment: datetime.datetime
    targets: dict = field(default_factory=dict)
    read_to: datetime.datetime = None
    is_whole: bool = False

    def is_late(self, target, now, limit):
        """Whether a target wasn't measured within so many seconds. A file that is younger says nothing of it yet."""
        since = target.measured or (self.read_to if self.is_whole else None)
        return since is None or not -AHEAD <= (now - since).total_seconds() <= limit

    def oldest(self, now):
        """The target whose last measurement is the oldest, with words for when that was."""
        target = min(self.targets.values(), key=lambda each: (each.measured is not None, each.measured or now, int(each.number)))
        if target.measured:
            return target, f"{seconds(now, target.measured)} s ago"
        if self.is_whole or self.read_to > now:
            return target, "never in this file" if self.is_whole else "none by this clock"
        return target, f"{seconds(now, self.read_to)} s ago or more"


class File:
    """A file of rows, as it is at its path now."""

    def __init__(self, path):
        self.path = path
        try:
            # A pipe would be waited for.
            self.file = open(path, "rb", buffering=0, opener=lambda name, flags: os.open(name, flags | os.O_NONBLOCK))
        except FileNotFoundError:
            raise Missing(f"{path} isn't there") from None
        except OSError as why:
            raise Unknown(f"{path}: {why.strerror}") from None
        self.stat = os.fstat(self.file.fileno())

    def __enter__(self):
        return self

    def __exit__(self, *_):
        self.file.close()

    def read(self, begin, end):
        try:
            return os.pread(self.file.fileno(), end - begin, begin)
        except OSError as why:
            raise Unknown(f"{self.path}: {why.strerror}") from None

    def is_read_whole(self):
        """Once all rows were asked for: whether these are all that the file has."""
        return self.stat.st_size <= MOST_BYTES

    def form(self):
        """The form of the rows, from the first line; nothing where that isn't complete."""
        if not stat.S_ISREG(self.stat.st_mode):
            raise Unknown(f"{self.path} is no regular file")
        line, end, _ = self.read(0, LONGEST_LINE).partition(b"\n")
        if not end and len(line) < LONGEST_LINE:
            return None
        try:
            return records.form_of(line)
        except records.NoRow as why:
            raise Unknown(f"{self.path} {why}") from None

    def lines(self, most=MOST_BYTES):
        """The complete lines from the last one back, of so many bytes. What follows the last line feed is none."""
        begin, rest = self.stat.st_size, None
        least = max(0, begin - most)
        while begin > least:
            end, begin = begin, max(least, begin - PIECE)
            data = self.read(begin, end)
            if rest is None:
                data = data[: data.rfind(b"\n") + 1]
                if not data and end - begin == LONGEST_LINE:
                    raise Unknown(f"{self.path} has no line feed in its last {LONGEST_LINE} bytes")
                data, rest = data[:-1], b""
            first, *whole = (data + rest).split(b"\n")
            yield from reversed(whole)
            rest = first
            if len(rest) > 2 * LONGEST_LINE:
                raise Unknown(f"{self.path} has a line of more than {LONGEST_LINE} bytes")
        if begin == 0 and rest:
            yield rest

    def rows(self, most=MOST_BYTES):
        """The rows of cycles from the last one back, of so many bytes, each with its moment."""
        form = self.form()
        if form is None:
            return
        for line in self.lines(most):
            try:
                fields = form.row(line)
            except records.NoRow as why:
                raise Unknown(f"{self.path}: a line near its end is no row: {why}") from None
            if fields and not records.is_of_setup(fields):
                yield fields, records.moment(fields["time"])


class Files:
    """Files by date, from the newest one back, as if they were one."""

    def __init__(self, pattern, now, within):
        try:
            self.paths = dated.Dated(pattern).files()[::-1]
        except Faulty as why:
            raise Unknown(str(why)) from None
        if not self.paths:
            raise Missing(f"{pattern}: no such file is there")
        self.paths = self.paths[self.begin(now, within) :]
        with File(self.paths[0]) as newest:
            self.path, self.stat = newest.path, newest.stat
        self.is_whole = False

    def __enter__(self):
        return self

    def __exit__(self, *_):
        pass

    def begin(self, now, within):
        """The first of them to be read: the newest one with rows, unless its last row is ahead of the clock, and an earlier one has a row of
        just now that isn't of an earlier cycle. Rows go on there where the clock was set back."""
        newest = None
        for number, path in enumerate(self.paths):
            with File(path) as file:
                fields, moment = next(file.rows(), (None, None))
            if fields and newest is None:
                newest = number, fields
            if fields and -AHEAD <= (now - moment).total_seconds():
                is_young = (now - moment).total_seconds() <= within
                return number if is_young and not dated.is_before(fields, newest[1]) else newest[0]
        return newest[0] if newest else 0

    def rows(self):
        left = MOST_BYTES
        for path in self.paths:
            with File(path) as file:
                yield from file.rows(left)
            left -= file.stat.st_size
            if left <= 0:
                return
        self.is_whole = True

    def is_read_whole(self):
        return self.is_whole


class Due:
    """The targets of each procedure that was due in the last two cycles, read from the end back, until it is known whether it measures
    directions."""

    def __init__(self):
        self.measuring, self.open, self.others = quantities.Measuring(), {}, set()

    def take(self, fields, is_last):
        """Takes a row, which may be of the last two cycles; gives the targets that become known as measured ones, with their names."""
        procedure, target = int(fields["procedure"]), (str(int(fields["target"])), fields["name"])
        if self.measuring.take(fields):
            return [*self.open.pop(procedure, []), *([target] if is_last else [])]
        # What has values and no direction measures none; a warning may have none that read.
        if quantities.has_values(fields) and fields.get("quality") != "warning":
            self.others.add(procedure)
            self.open.pop(procedure, None)
        if is_last and procedure not in self.others:
            self.open.setdefault(procedure, []).append(target)
        return []


def end_of(file, now, limit):
    """Reads back until each target's last measurement was found, or rows are older than the limit in seconds."""
    end, cycles, due = None, [], Due()
    for number, (fields, moment) in enumerate(file.rows()):
        end = end or End(fields, moment)
        cycle = (fields.get("run"), fields["cycle"])
        if cycle not in cycles[-1:]:
            cycles.append(cycle)
        end.read_to = moment
        is_old = (now - moment).total_seconds() > limit or all(target.measured for target in end.targets.values())
        if len(cycles) > 2 and is_old and (not due.open or number > MOST_ROWS):
            return end
        for each, name in due.take(fields, len(cycles) <= 2):
            end.targets.setdefault(each, Target(each, name))
        target = end.targets.get(str(int(fields["target"])))
        # What is ahead of the clock was measured before the clock was set back, and nobody knows how long ago.
        if target and not target.measured and (moment - now).total_seconds() <= AHEAD and quantities.measures(fields) and quantities.is_whole(fields):
            target.measured = moment
    if end:
        end.is_whole = file.is_read_whole()
    return end


def seconds(now, moment):
    """How many whole seconds ago that was."""
    return max(0, int((now - moment).total_seconds()))


def judged_end(end, now, within, measured):
    """The status of a file with rows, what is to be said, and figures for a monitor."""
    age, figures = seconds(now, end.moment), f"row={seconds(now, end.moment)}s;;{within:g}"
    if (end.moment - now).total_seconds() > AHEAD:
        return UNKNOWN, f"the clock is {seconds(end.moment, now)} s before the last row: it was set back, or the row's is ahead", ""
    late, said = [], "no target with a measurement"
    if end.targets:
        target, ago = end.oldest(now)
        late = [each for each in end.targets.values() if end.is_late(each, now, measured)]
        said = f"targets: {len(end.targets)}, oldest measurement: {target.called()}, {ago}"
        figures += f" measured={seconds(now, target.measured)}s;{measured:g}" if target.measured else ""
    if age > within:
        return CRITICAL, f"no row for {age} s ({within:g} allowed); {said}", figures
    if late:
        status = CRITICAL if len(late) == len(end.targets) else WARNING
        return status, f"{len(late)} of {len(end.targets)} not measured within {measured:g} s; {said}; last row {age} s ago", figures
    return OK, f"last row {age} s ago; {said}", figures


def judged_start(file, now, within):
    """The status of a file without a row of a cycle: by its last change, since a station that begins makes it."""
    age = max(0, int(now.timestamp() - file.stat.st_mtime))
    return (CRITICAL if age > within else WARNING), f"{file.path} has no row of a cycle yet; it was changed {age} s ago", ""


def judged(path, now, within, measured, left_out=()):
    """The status of the file that is at a path now, what is to be said, figures for a monitor, and its last row."""
    try:
        with Files(path, now, within) if dated.has_date(path) else File(path) as file:
            end = end_of(file, now, max(within, measured))
            if end is None:
                return (*judged_start(file, now, within), None)
    except Unknown as why:
        return UNKNOWN, str(why), "", None
    except Missing as why:
        return CRITICAL, str(why), "", None
    end.targets = {number: target for number, target in end.targets.items() if number not in left_out}
    return (*judged_end(end, now, within, measured), end.last)
