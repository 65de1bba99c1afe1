"""Limits: what a row of a target is compared with, and which rows are outside. All that decides on an alarm lives here.

What is decided follows from the rows in their order, the table of limits, and when each row came, on a scale of seconds that nobody sets:
the caller reads the clocks.
"""

import csv
import datetime
import json
import re
from dataclasses import dataclass, field, replace
from decimal import Decimal, InvalidOperation

import quantities
import records
from angles import difference, in_face_one
from faulty import Faulty

COLUMNS = ["target", "column", "reference", "tolerance", "outside", "of"]
# The columns that a table may have besides, and their words, of which the first is meant where a field is empty or the column isn't there.
# (`warning` is a quality, and no level.)
LEVEL, WARNINGS = "level", "warnings"
WORDS = {LEVEL: ["alarm", "attention"], WARNINGS: ["count", "ignore"]}
ALARM, ATTENTION = WORDS[LEVEL]
# The word in place of a column that asks for a good row within so many cycles or seconds, and that in place of a target for all of a file.
SILENCE = "silence"
ALL = "*"
MOST_ROWS = 10_000
MOST_SECONDS = 10_000_000
# What stands for all quantities of a row, in place of the columns of a target whose limits name none: of a procedure that measures where a
# target is, and of another one.
MEASURED, WHOLE = "measured", "whole"


@dataclass(frozen=True)
class Limit:
    """A limit of a target: a line where at least `outside` of its last `of` good rows are further than the tolerance from the
    reference, and the row itself is. Of a silence: where it, or no target at all, had a good row for `of` cycles, or for so many seconds.
    Rows of quality `warning` count, or are as if they weren't there."""

    target: str
    column: str
    reference: Decimal
    tolerance: Decimal
    outside: int
    of: int
    seconds: int = None
    # Nothing where the table says no levels.
    level: str = None
    counts_warnings: bool = True

    def key(self):
        """What stands for it in the state: another limit starts afresh."""
        of = self.of if self.seconds is None else f"{self.seconds}s"
        # What is meant where nothing is said isn't there, as in the state of an earlier version.
        more = [self.level] * (self.level == ATTENTION) + [WORDS[WARNINGS][1]] * (not self.counts_warnings)
        return json.dumps([self.target, self.column, *map(str, (self.reference, self.tolerance, self.outside, of)), *more])

    def is_silence(self):
        return self.column == SILENCE

    def counts(self, fields):
        """Whether it counts a row, by its quality."""
        return self.counts_warnings or is_sure(fields)

    def measure(self):
        """What a limit of the same is before or after: how much it allows, of a reference or of a silence in one unit."""
        same = (self.target, self.column, self.reference, self.outside, self.seconds is None)
        if self.is_silence():
            return same, self.of if self.seconds is None else self.seconds
        return (*same, self.of, self.counts_warnings), self.tolerance


def decimal(text, what):
    try:
        number = Decimal(text)
    except InvalidOperation:
        number = Decimal("NaN")
    if not number.is_finite():
        raise Faulty(f"{what} is no number: {ascii(text)}")
    return number


def count(text, what):
    if not (text.isascii() and text.isdigit() and 1 <= int(text) <= MOST_ROWS):
        raise Faulty(f"{what} is no number from 1 to {MOST_ROWS}: {ascii(text)}")
    return int(text)


def silence_of(target, row):
    """The silence of a row of the table: of cycles, or with an `s` of seconds."""
    if row["reference"] or row["tolerance"] or row["outside"]:
        raise Faulty("a silence has no reference, tolerance and outside")
    in_seconds = re.fullmatch(r"([0-9]{1,8})s", row["of"], re.ASCII)
    if not in_seconds:
        return Limit(target, SILENCE, None, None, None, count(row["of"], "of"))
    if not 1 <= int(in_seconds[1]) <= MOST_SECONDS:
        raise Faulty(f"of is no number of seconds from 1 to {MOST_SECONDS}: {ascii(row['of'])}")
    return Limit(target, SILENCE, None, None, None, None, int(in_seconds[1]))


def is_sure(fields):
    """Whether a row isn't doubtful."""
    return fields.get("quality") != "warning"


def word_of(row, column):
    """The word of a row in one of the columns that a table may have besides; nothing where it hasn't the column."""
    found = row.get(column)
    if found and found not in WORDS[column]:
        raise Faulty(f"{column} is neither {' nor '.join(WORDS[column])}: {ascii(found)}")
    return found or WORDS[column][0] if column in row else None


def limit_of(row):
    """The limit of a row of the table, of its level."""
    return replace(bound_of(row), level=word_of(row, LEVEL), counts_warnings=word_of(row, WARNINGS) != WORDS[WARNINGS][1])


def bound_of(row):
    """What a row of the table allows."""
    if row["target"] == ALL and row["column"] != SILENCE:
        raise Faulty(f"target {ALL} has a silence alone")
    if row["target"] != ALL and not (row["target"].isascii() and row["target"].isdigit()):
        raise Faulty(f"target is no number: {ascii(row['target'])}")
    target = ALL if row["target"] == ALL else str(int(row["target"]))
    if row["column"] == SILENCE:
        return silence_of(target, row)
    of = count(row["of"], "of")
    if not row["column"]:
        raise Faulty("no column is named")
    outside, tolerance = count(row["outside"], "outside"), decimal(row["tolerance"], "tolerance")
    if outside > of:
        raise Faulty(f"{outside} outside of {of} can't be")
    if tolerance < 0:
        raise Faulty("a tolerance is not below 0")
    return Limit(target, row["column"], decimal(row["reference"], "reference"), tolerance, outside, of)


def add(found, limit):
    """Adds a limit that isn't there yet, and doesn't contradict the other level of the same: attention comes first."""
    if limit in found:
        raise Faulty("it stands there twice")
    same, allowed = limit.measure()
    for other in found:
        sign = (other.level == ATTENTION) - (limit.level == ATTENTION)
        if other.measure()[0] == same and sign * other.measure()[1] > sign * allowed:
            raise Faulty(f"{ATTENTION} allows more than {ALARM}")
    found.append(limit)


def limits_of(text):
    """The limits of a table; `Faulty` with the number of its first line that is none. Empty lines, and those that begin with #, are none."""
    found, head = [], None
    for number, line in enumerate(text.splitlines(), 1):
        if not line.strip() or line.startswith("#"):
            continue
        fields = [each.strip() for each in next(csv.reader([line]))]
        if head is None:
            head = fields
            if head != COLUMNS + [column for column in WORDS if column in head]:
                raise Faulty(f"line {number}: its columns aren't {','.join(COLUMNS)}, and after them {' or '.join(WORDS)} or both")
            continue
        if len(fields) != len(head):
            raise Faulty(f"line {number}: it has {len(fields)} fields for {len(head)} columns")
        try:
            add(found, limit_of(dict(zip(head, fields))))
        except Faulty as why:
            raise Faulty(f"line {number}: {why}") from None
    if not found:
        raise Faulty("it has no limit")
    return found


def value_of(fields, column):
    """The value of a column in a row that was answered well, as an exact decimal; `None` where it has none. What was measured in face II
    is turned over."""
    if not quantities.has_values(fields):
        return None
    found = quantities.quantities(fields)
    if column in ("hz_rad", "v_rad") and {"hz_rad", "v_rad"} <= found.keys():
        return in_face_one(Decimal(found["hz_rad"]), Decimal(found["v_rad"]))[column == "v_rad"]
    text = found.get(column) or fields.get(column, "")
    try:
        number = Decimal(text)
    except InvalidOperation:
        return None
    return number if number.is_finite() else None


def highest(lines):
    """The highest level of lines, which have it after their moment; a line without one is an alarm's."""
    return ATTENTION if all(line.split(" ", 2)[1:2] == [f"{ATTENTION}:"] for line in lines) else ALARM


def shown(number):
    """A number with at most ten places, without zeros at its end."""
    text = format(round(number, 10), "f")
    return (text.rstrip("0").rstrip(".") or "0") if "." in text else text


def later(text, seconds):
    """The moment so many seconds after that of a row."""
    return records.moment_text(records.moment(text) + datetime.timedelta(seconds=seconds))


@dataclass
class Watch:
    """What is known of the limits from the rows so far. `vars` of it is the state that is kept.

    A target is good in a cycle once each column that a limit of it names has a value that this limit counts, in one of its rows there or in
    several. Where no limit names one, it is good once a row has all that its procedure returns; of a target that is measured, only such a
    row counts. It is surely good where that is so by the rows alone that aren't of quality `warning`: silences that ignore those ask for it.
    """

    # Of each limit whether the last good rows of earlier cycles were outside, and those of the current cycle, each with its step.
    windows: dict = field(default_factory=dict)
    now: dict = field(default_factory=dict)
    # Of each silence how many cycles it lasts; the current cycle, and the columns of targets that had a value in it, each with its place
    # and whether the row is sure.
    silent: dict = field(default_factory=dict)
    names: dict = field(default_factory=dict)
    cycle: list = None
    seen: list = field(default_factory=list)
    # The places and attempts of the current cycle; the targets that are measured.
    taken: list = field(default_factory=list)
    measured: list = field(default_factory=list)
    # When each target was good last: the row's time, and the second of the scale; when it was surely good; the same of the first row, or of
    # the first look.
    heard: dict = field(default_factory=dict)
    heard_surely: dict = field(default_factory=dict)
    begun: list = None
    # The limits that an alarm stands for, each with how often it was reported.
    standing: dict = field(default_factory=dict)

    def take(self, limits, fields, at=0.0, repeats=True):
        """Takes a row that came at a second of the scale; gives the lines that are to be reported."""
        if records.is_of_setup(fields):
            return []
        self.begun = self.begun or [fields["time"], at]
        lines = self.begin(limits, fields, repeats)
        target, step = str(int(fields["target"])), int(fields["step"])
        if records.attempt_of(fields) > 1:
            self.forget(step)
        self.names[target] = fields["name"]
        if quantities.measures(fields) and target not in self.measured:
            self.measured.append(target)
        new = [[step, target, column, is_sure(fields)] for column in self.columns(limits, fields)]
        self.seen += new
        for surely in (False, True) if new else ():
            if self.is_good(limits, target, surely):
                lines += self.hear(limits, target, surely, fields["time"], at, repeats)
        for limit in limits:
            if limit.target == target and not limit.is_silence() and limit.counts(fields):
                lines += self.compare(limit, fields, repeats)
        self.taken.append([step, records.attempt_of(fields)])
        return lines

    def forget(self, step):
        """Forgets what an earlier attempt of this command came to in the cycle: the last one counts."""
        self.seen = [each for each in self.seen if each[0] != step]
        self.now = {key: [each for each in rows if each[0] != step] for key, rows in self.now.items()}

    @staticmethod
    def columns(limits, fields):
        """The columns in which a row has a value: of those that limits of its target name, and of those that stand for all quantities."""
        target = str(int(fields["target"]))
        found = {limit.column for limit in limits if limit.target == target and not limit.is_silence() and value_of(fields, limit.column) is not None}
        if quantities.is_whole(fields):
            found.add(MEASURED if quantities.measures(fields) else WHOLE)
        return sorted(found)

    def is_good(self, limits, target, surely=False):
        """Whether a target is good in the current cycle, or surely good."""
        wanted = {(limit.column, surely or not limit.counts_warnings) for limit in limits if limit.target == target and not limit.is_silence()}
        wanted = wanted or {(MEASURED if target in self.measured else WHOLE, surely)}
        seen = [(column, is_sure) for _, other, column, is_sure in self.seen if other == target]
        return wanted <= {(column, False) for column, _ in seen} | {(column, True) for column, is_sure in seen if is_sure}

    def counts(self, limit, target):
        """Whether a target's good rows end a silence. Where targets are measured, what is asked of the instrument besides ends none of all."""
        return limit.target == target or limit.target == ALL and (target in self.measured or not self.measured)

    def good(self, limits, surely):
        """The targets that are good in the current cycle, or surely good."""
        return {target for target in {each[1] for each in self.seen} if self.is_good(limits, target, surely)}

    def begin(self, limits, fields, repeats):
        """Where a row begins a cycle, the one before it is over: whose silence it made long enough, or ended."""
        at, lines = [fields.get("run", ""), int(fields["cycle"])], []
        if at == self.cycle:
            return []
        if self.cycle is not None:
            good = {surely: self.good(limits, surely) for surely in (False, True)}
            for limit in (each for each in limits if each.is_silence() and each.seconds is None):
                is_heard = any(self.counts(limit, target) for target in good[not limit.counts_warnings])
                cycles = 0 if is_heard else self.silent.get(limit.key(), 0) + 1
                self.silent[limit.key()] = cycles
                if cycles and cycles % limit.of == 0:
                    said = f"{fields['time']} {self.called(limit)}: no good row for {cycles} cycles; cycle {self.cycle[1]}"
                    lines += self.stands(limit, said, repeats)
                elif not cycles:
                    lines += self.ends(limit, f"{fields['time']} {self.called(limit)}: a good row again; cycle {self.cycle[1]}")
        for key, rows in self.now.items():
            self.windows[key] = (self.windows.get(key, []) + [is_outside for _, is_outside in rows])[-MOST_ROWS:]
        self.cycle, self.seen, self.now, self.taken = at, [], {}, []
        return lines

    def hear(self, limits, target, surely, time, at, repeats):
        """Takes that a target is good, or surely good. A silence that lasted long enough before it is reported, also where nobody looked at
        its time."""
        lines = []
        for limit in (each for each in limits if each.seconds is not None and each.counts_warnings != surely and self.counts(each, target)):
            lines += self.judge_one(limit, at, repeats)
            lines += self.ends(limit, f"{time} {self.called(limit)}: a good row again")
        (self.heard_surely if surely else self.heard)[target] = [time, at]
        return lines

    def judge(self, limits, time, at, repeats=True):
        """What is to be reported at a second of the scale, which is this time by the clock, though no row came."""
        self.begun = self.begun or [time, at]
        return [line for limit in limits if limit.seconds is not None for line in self.judge_one(limit, at, repeats)]

    def judge_one(self, limit, at, repeats):
        """The line of a silence of seconds whose time has come."""
        heard = [then for target, then in (self.heard if limit.counts_warnings else self.heard_surely).items() if self.counts(limit, target)]
        time, last = max(heard, key=lambda each: each[1], default=self.begun)
        times = int(max(0, at - last) // limit.seconds)
        if times <= self.standing.get(limit.key(), 0) or limit.key() in self.standing and not repeats:
            return []
        said = f"the last was at {time}" if heard else f"none since {time}"
        line = f"{later(time, times * limit.seconds)} {self.called(limit)}: no good row for {times * limit.seconds} s; {said}"
        self.standing[limit.key()] = times
        return [line]

    def compare(self, limit, fields, repeats):
        """Compares a row with a limit."""
        value = value_of(fields, limit.column)
        if value is None:
            return []
        is_angle = limit.column.endswith("_rad")
        apart = difference(value, limit.reference) if is_angle else value - limit.reference
        self.now.setdefault(limit.key(), []).append([int(fields["step"]), int(abs(apart) > limit.tolerance)])
        self.windows[limit.key()] = self.windows.get(limit.key(), [])[-limit.of:]
        window = (self.windows[limit.key()] + [is_outside for _, is_outside in self.now[limit.key()]])[-limit.of:]
        said = f"{fields['time']} {self.called(limit)}: {limit.column} is {shown(value)}, "
        if window[-1] and sum(window) >= limit.outside:
            return self.stands(limit, f"{said}{shown(abs(apart))} {'below' if apart < 0 else 'above'} {shown(limit.reference)} "
                               f"({shown(limit.tolerance)} allowed): {sum(window)} of the last {limit.of} outside; cycle {fields['cycle']}", repeats)
        if not window[-1] and sum(window) < limit.outside:
            return self.ends(limit, f"{said}within {shown(limit.tolerance)} of {shown(limit.reference)} again; cycle {fields['cycle']}")
        return []

    def stands(self, limit, line, repeats):
        """The line of an alarm, where it is new or is reported again."""
        times = self.standing.get(limit.key(), 0)
        self.standing[limit.key()] = times + 1
        return [line] if repeats or not times else []

    def ends(self, limit, line):
        """The line for the end of an alarm that stood, which says whether it was the last one."""
        if self.standing.pop(limit.key(), None) is None:
            return []
        many = len(self.standing)
        more = f"{many} more alarm{'s' if many > 1 else ''}"
        if limit.level:
            lower = sum(ATTENTION in json.loads(key) for key in self.standing)
            more = " and ".join(f"{count} more at {level}" for count, level in ((many - lower, ALARM), (lower, ATTENTION)) if count)
        return [f"{line}; {more if many else 'all is well'}"]

    def begin_again(self, limits, at):
        """Goes on at a start, at this second of the scale: without the alarms of limits that the table doesn't have any more. No row came
        later than that, though the clock may have been set back."""
        keys = {limit.key() for limit in limits}
        self.standing = {key: times for key, times in self.standing.items() if key in keys}
        self.heard, self.heard_surely = (
            {target: [time, min(then, at)] for target, (time, then) in heard.items()} for heard in (self.heard, self.heard_surely))
        # An earlier version didn't say which rows are sure.
        self.seen = [[*each, True][:4] for each in self.seen]
        self.begun = self.begun and [self.begun[0], min(self.begun[1], at)]

    def called(self, limit):
        """What a line calls a target, after the level where the table has some."""
        name, level = self.names.get(limit.target), f"{limit.level}: " if limit.level else ""
        return level + ("station" if limit.target == ALL else f"target {limit.target}" + (f" ({name})" if name else ""))

    def is_behind(self, fields):
        """Whether a row comes after those that were taken, by its run, its cycle, its step and its attempt. The attempts of a chain come
        one after the other, so within a cycle steps may go back."""
        at = [fields.get("run", ""), int(fields["cycle"])]
        if self.cycle is None or at != self.cycle:
            return self.cycle is None or at > self.cycle
        return [int(fields["step"]), records.attempt_of(fields)] not in self.taken
