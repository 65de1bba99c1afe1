"""What a page shows of a station: how old its last good row is, what its commands of the last day came to, and over some days the
movements of its targets beside their limits, and the residuals of its references.

It is read from the ends of files that grow: once from the end back, and then as they grow. What is computed here decides on no alarm.
Numbers are floats: a page has no more places. Times are seconds since 1970.
"""

import math
import os
from bisect import bisect_left, insort
from dataclasses import dataclass, field
from pathlib import Path

import dated
import drawn
import freshness
import limits
import movements
import quantities
import records
import reductions
import sites
from faulty import Faulty
from outcomes import SORTS

DAY = 86_400
# How far back a table of some days is read.
MOST_BYTES = 1 << 27
# What a command came to, by its outcome.
SORT_OF = {outcome: sort for sort, outcomes in SORTS.items() for outcome in outcomes}
# The columns of a table of reductions that are shown where no limit names one.
MOVED = movements.MOVED_COLUMNS[:3]
REFERENCES = ["references", "left_out", "orientation_deviation_rad", "reason"]


def printed(text):
    """A text whose every letter can be seen, as a name of a file may have none such."""
    text = os.fsencode(text).decode(errors="backslashreplace")
    return "".join(letter if letter.isprintable() else f"\\x{ord(letter):02x}" for letter in text)


def seconds(fields):
    return records.moment(fields["time"]).timestamp()


class Growing:
    """A file of rows that grows."""

    def __init__(self, path):
        self.path, self.key, self.end, self.form = path, None, 0, None

    def look(self, is_enough):
        """The rows that came since the last look, and whether these are all that are known: so it is at first, and where another file
        took its place. Those are read from the end back, until `is_enough` of one."""
        with freshness.File(self.path) as file:
            key = (file.stat.st_dev, file.stat.st_ino)
            if key == self.key and file.stat.st_size >= self.end and self.form:
                return self.more(file), False
            self.key, self.form = key, file.form()
            return self.first(file, is_enough) if self.form else [], True

    def first(self, file, is_enough):
        """The rows at the end. A line that isn't complete is left for later."""
        size = file.stat.st_size
        begin = max(0, size - freshness.LONGEST_LINE)
        rows, self.end = [], begin + file.read(begin, size).rfind(b"\n") + 1
        for line in file.lines(MOST_BYTES):
            fields = self.row(line)
            if fields:
                rows.append(fields)
                if is_enough(fields):
                    break
        return rows[::-1]

    def more(self, file):
        data = file.read(self.end, file.stat.st_size)
        data = data[: data.rfind(b"\n") + 1]
        rows = [self.row(line) for line in data.split(b"\n")[:-1]]
        self.end += len(data)
        return [fields for fields in rows if fields]

    def row(self, line):
        """The fields of a row; nothing of the columns' names and of rows of the setup."""
        try:
            fields = self.form.row(line)
        except records.NoRow as why:
            self.key = None
            raise freshness.Unknown(f"{self.path}: a line near its end is no row: {why}") from None
        return None if fields is None or records.is_of_setup(fields) else fields


class GrowingDates:
    """Files of rows by date, of which the newest grows, as if they were one."""

    def __init__(self, pattern):
        self.path, self.key, self.order = pattern, None, dated.Order()
        # The files that are read, in the order of their dates, and how long the earlier ones are.
        self.files, self.earlier = {}, {}

    def look(self, is_enough):
        """As that of one file. Where an earlier file goes on, as after a clock that was set back, all is read again."""
        paths = dated.files_of(self.path)
        if not paths:
            raise freshness.Missing(f"{self.path}: no such file is there")
        if self.key and self.earlier == {path: size_of(path) for path in paths if path in self.earlier}:
            found = [self.more(path) for path in paths if path not in self.earlier]
            if all(rows is not None for rows in found) and all(path in paths for path in self.files):
                return dated.merged(found, self.order), False
        self.key, self.order = self.path, dated.Order()
        return dated.merged(self.first(paths, is_enough), self.order), True

    def first(self, paths, is_enough):
        """The rows of the last files, from the newest one back."""
        self.files, self.earlier, found = {}, {}, []
        done = []
        for path in reversed(paths):
            if done:
                self.earlier[path] = size_of(path)
                continue
            file = self.files[path] = Growing(path)
            found.insert(0, file.look(lambda fields: is_enough(fields) and not done.append(path))[0])
        return found

    def more(self, path):
        """What came in a file; nothing where another one took its place."""
        is_new = path not in self.files
        file = self.files.setdefault(path, Growing(path))
        had_none = file.form is None
        rows, is_all = file.look(lambda fields: False)
        return None if is_all and not (is_new or had_none) else rows


def size_of(path):
    try:
        return os.stat(path).st_size
    except OSError:
        return None


@dataclass
class Series:
    """A quantity over time: of each value when it was, and whether its row isn't doubtful."""

    moments: list = field(default_factory=list)
    values: list = field(default_factory=list)
    sure: list = field(default_factory=list)

    def add(self, moment, value, is_sure):
        # (a clock that was set back doesn't disturb the order)
        place = bisect_left(self.moments, moment) if self.moments and moment < self.moments[-1] else len(self.moments)
        for each, new in zip((self.moments, self.values, self.sure), (moment, value, is_sure)):
            each.insert(place, new)

    def forget(self, before):
        place = bisect_left(self.moments, before)
        for each in (self.moments, self.values, self.sure):
            del each[:place]


@dataclass
class Target:
    """What is known of a target."""

    number: str
    name: str = ""
    # Whether it has a procedure that measures directions; when it was good last.
    is_measured: bool = False
    good: float = None
    # When each command of the last day was done, and what it came to.
    outcomes: list = field(default_factory=list)
    # By column.
    series: dict = field(default_factory=dict)
    # Of its last reduction when that was, and what it says beside the numbers.
    reduced: dict = field(default_factory=dict)

    def called(self):
        return f"{self.number} {self.name}".strip()

    def seen(self, column):
        """When it had its last value in a column."""
        return self.series[column].moments[-1] if self.series[column].moments else None

    def last(self, column, surely=False):
        """Its last value in a column, of those that aren't doubtful where that is wanted; nothing where it has none."""
        series = self.series.get(column)
        values = [value for value, is_sure in zip(series.values, series.sure) if is_sure or not surely] if series else []
        return values[-1] if values else None


def counts(outcomes, now):
    """How many commands until now came to what, from good to worst."""
    found = [sort for moment, sort in outcomes if moment <= now + freshness.AHEAD]
    return {sort: found.count(sort) for sort in SORTS if sort in found}


def number_of(fields, column):
    """The value of a column of a good row as a float, as a limit compares it; nothing where it has none."""
    if column in quantities.NAMES:
        return drawn.finite(limits.value_of(fields, column) or "nan")
    return drawn.finite(fields.get(column) or "")


def bounded(number):
    """A number of a limit as a float, which isn't further from zero than what can be measured."""
    return max(-drawn.FURTHEST, min(drawn.FURTHEST, float(number)))


def apart(column, value, reference):
    """How far a value is from a reference: of an angle on the circle."""
    return math.remainder(value - reference, math.tau) if column.endswith("_rad") else value - reference


class Enough:
    """How far back the rows of a station are read: over a day, and until each target of the last two cycles was good once, and it is known
    which of these are measured; but not over so many days."""

    def __init__(self, now, days):
        self.now, self.days = now, days
        self.rows, self.cycles, self.due = 0, [], freshness.Due()
        # Of each target of the last two cycles whether it is measured; the targets that were good.
        self.seen, self.good = {}, set()

    def take(self, fields):
        """Takes the row before those that it took; says whether these are enough."""
        self.rows += 1
        cycle = (fields.get("run"), fields["cycle"])
        if cycle not in self.cycles[-1:]:
            self.cycles.append(cycle)
        number, is_last = str(int(fields["target"])), len(self.cycles) <= 2
        if is_last:
            self.seen.setdefault(number, False)
        for each, _ in self.due.take(fields, is_last):
            if not self.seen[each]:
                # What else it was asked doesn't make it good.
                self.good.discard(each)
            self.seen[each] = True
        if is_good(fields, self.seen.get(number, False)):
            self.good.add(number)
        return len(self.cycles) > 2 and self.is_far(self.now - seconds(fields))

    def is_far(self, age):
        """Whether nothing more is wanted of rows that are older than so many seconds."""
        is_known = not self.due.open or self.rows > freshness.MOST_ROWS
        return age > DAY and (is_known and self.good >= self.seen.keys() or age > self.days * DAY)


class Station:
    """A station: its file of rows, its table of reductions, its limits and its site, of which all but the first may be missing."""

    def __init__(self, name, rows, reduced, table, site, days):
        self.name, self.days = name, days
        self.rows, self.reduced = GrowingDates(rows) if dated.has_date(rows) else Growing(rows), Growing(reduced)
        self.table_path, self.site_path = table, site
        self.begin_again()
        self.limits, self.within, self.within_metres = [], None, None
        # What can't be read, each in a line.
        self.faults = []

    def begin_again(self):
        self.targets, self.row, self.command = {}, None, None

    def look(self, now):
        """Takes what came until now."""
        self.faults = []
        self.read_limits()
        self.read_site()
        for growing, look in (self.rows, self.look_at_rows), (self.reduced, self.look_at_reductions):
            try:
                look(now)
            except freshness.Unknown as why:
                self.faults.append(str(why))
            except freshness.Missing as why:
                if growing is self.rows:
                    self.faults.append(str(why))
        self.faults = [printed(fault) for fault in self.faults]
        for target in self.targets.values():
            target.outcomes = target.outcomes[bisect_left(target.outcomes, (now - DAY,)) :]
            for series in target.series.values():
                series.forget(now - self.days * DAY)

    def read_limits(self):
        """Reads the limits. Where they name other columns than before, the rows are read again for these."""
        before = self.columns()
        self.take_limits()
        if self.columns() != before:
            self.rows.key = None

    def columns(self):
        return {(limit.target, limit.column) for limit in self.limits if not limit.is_silence()}

    def take_limits(self):
        try:
            self.limits = limits.limits_of(Path(self.table_path).read_text(encoding="utf-8-sig"))
        except FileNotFoundError:
            self.limits = []
        except (OSError, UnicodeDecodeError, Faulty) as why:
            self.limits = []
            self.faults.append(fault_of(self.table_path, why))

    def read_site(self):
        """How far off a reference may be."""
        self.within = self.within_metres = None
        try:
            site = sites.site_of(Path(self.site_path).read_text(encoding="utf-8-sig"), os.path.dirname(self.site_path))
            self.within, self.within_metres = (None if each is None else float(each) for each in (site.within, site.within_metres))
        except FileNotFoundError:
            pass
        except (OSError, UnicodeDecodeError, Faulty) as why:
            self.faults.append(fault_of(self.site_path, why))

    def look_at_rows(self, now):
        """Takes the rows that came; at first those of the last day, and further back (`Enough`)."""
        enough = Enough(now, self.days)
        rows, is_all = self.rows.look(enough.take)
        if is_all:
            self.begin_again()
            # What is known of reductions is read again, too.
            self.reduced.key = None
        for fields in rows:
            target = self.target(fields)
            target.is_measured |= enough.seen.get(target.number, False)
            self.take_row(target, fields)

    def target(self, fields):
        number = str(int(fields["target"]))
        found = self.targets.setdefault(number, Target(number))
        found.name = fields["name"] or found.name
        return found

    def take_row(self, target, fields):
        moment = seconds(fields)
        target.is_measured |= quantities.measures(fields)
        if is_good(fields, target.is_measured):
            target.good = moment
        command = [fields.get(column, "") for column in ("run", "cycle", "step")]
        entry = (moment, SORT_OF.get(drawn.outcome_of(fields) or "ok", "unanswered"))
        self.take_back(command, fields)
        insort(target.outcomes, entry)
        self.command = (command[:2], {**(self.command[1] if self.command and self.command[0] == command[:2] else {}), command[2]: (target, entry)})
        self.row = moment
        if quantities.has_values(fields) and not os.path.exists(self.reduced.path):
            self.take_columns(target, fields, moment)

    def take_back(self, command, fields):
        """Of several attempts of a command in a cycle the last one counts."""
        if records.attempt_of(fields) > 1 and self.command and self.command[0] == command[:2] and command[2] in self.command[1]:
            target, entry = self.command[1][command[2]]
            if entry in target.outcomes:
                target.outcomes.remove(entry)

    def look_at_reductions(self, now):
        rows, is_all = self.reduced.look(lambda fields: now - seconds(fields) > self.days * DAY)
        if is_all:
            for target in self.targets.values():
                target.series, target.reduced = {}, {}
        for fields in rows:
            target, moment = self.target(fields), seconds(fields)
            if quantities.has_values(fields):
                known = {name: fields.get(name, "") for name in (*REFERENCES, "quality", "run", "cycle")}
                target.reduced = {"moment": moment, **known}
                self.take_columns(target, fields, moment)

    def take_columns(self, target, fields, moment):
        """The values that are shown of a row."""
        wanted = {limit.column for limit in self.limits if limit.target == target.number and not limit.is_silence()}
        for column in sorted({*wanted, *MOVED, *reductions.PLACE, *reductions.RESIDUALS}):
            value = number_of(fields, column)
            if value is not None:
                is_left_out = column in reductions.RESIDUALS and target.number in fields.get("left_out", "").split()
                is_sure = not is_left_out if column in reductions.RESIDUALS else limits.is_sure(fields)
                target.series.setdefault(column, Series()).add(moment, value, is_sure)

    def measured(self):
        """The targets that have to be measured; all where none is."""
        found = [target for target in self.targets.values() if target.is_measured]
        return found or list(self.targets.values())

    def good(self):
        """When its last good row was; nothing where there is none."""
        return max((target.good for target in self.measured() if target.good is not None), default=None)

    def limits_of(self, number, column):
        return [limit for limit in self.limits if limit.target == number and limit.column == column]

    def shown(self, target):
        """The columns of a target that are shown as movements: those that limits name, else those since its place at first, else its place;
        of a reference only what limits name."""
        named = [limit.column for limit in self.limits if limit.target == target.number and not limit.is_silence()]
        for columns in [named] if self.is_reference(target) else [named, MOVED, reductions.PLACE]:
            found = [column for column in dict.fromkeys(columns) if column in target.series and target.series[column].moments]
            if found:
                return found
        return []

    @staticmethod
    def is_reference(target):
        return bool(target.series.get(reductions.RESIDUALS[0], Series()).moments)

    def references(self):
        return [target for target in self.targets.values() if self.is_reference(target)]

    def reduced_last(self):
        """What the last reduction says of its orientation."""
        return max((target.reduced for target in self.targets.values() if target.reduced), key=lambda reduced: reduced["moment"], default={})


def is_good(fields, is_measured):
    """Whether a row is good: of a target that is measured one that measured all."""
    if is_measured:
        return quantities.measures(fields) and quantities.is_whole(fields)
    return quantities.has_values(fields)


def fault_of(path, why):
    return f"{path}: {why if isinstance(why, Faulty) else getattr(why, 'strerror', None) or 'it is no text'}"


def level_outside(limit_list, target):
    """The highest level of limits of a column that the last value is outside of; nothing where it is within all, or isn't known."""
    found = set()
    for limit in limit_list:
        value = target.last(limit.column, not limit.counts_warnings)
        if value is not None and abs(apart(limit.column, value, bounded(limit.reference))) > bounded(limit.tolerance):
            found.add(limit.level or limits.ALARM)
    return limits.ALARM if limits.ALARM in found else limits.ATTENTION if found else None


def level_of_silence(limit_list, moment, now):
    """The highest level of silences in seconds that last; nothing where none does."""
    found = {limit.level or limits.ALARM for limit in limit_list if limit.seconds is not None and (moment is None or now - moment > limit.seconds)}
    return limits.ALARM if limits.ALARM in found else limits.ATTENTION if found else None
