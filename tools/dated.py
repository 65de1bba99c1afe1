"""Files by date, as `geocom station --append` names them: which files a pattern such as `north-%Y-%m.csv` stands for, and in which order
their rows are.

`%Y` is the year, `%m` the month, `%d` the day and `%H` the hour, in UTC, with four and two digits, and `%%` is a percent sign. A path that
has none of the four is that of one file, whatever else is in it. All that reads rows asks here, so that the rule stands once.
"""

import datetime
import glob
import os
import re

import records
from faulty import Faulty

# From the largest part of a date to the smallest one, with how many digits each has.
DIGITS = {"Y": 4, "m": 2, "d": 2, "H": 2}
# What stands for a station's name in the form of its files' names.
NAME = "NAME"


def has_date(path):
    """Whether a path is a pattern: one of `%Y`, `%m`, `%d` and `%H` is in it."""
    return any(each[1:] in DIGITS for each in re.findall("(?s)%.?", os.fspath(path)))


class Dated:
    """A pattern, and the files that are there of it."""

    def __init__(self, pattern, form=""):
        """In `form`, which goes on the pattern, the word NAME stands for any name."""
        self.pattern = re.sub("/+", "/", os.fspath(pattern))
        # For `glob` and for `re`; what stands before the first part of a date, whose folder is common to all files; the parts.
        self.wild, self.regex, self.plain, self.parts = "", "", "", []
        for each in re.findall("(?s)%.?|.", self.pattern):
            self.add(each)
        for each in re.findall(f"(?s){NAME}|%.?|.", form):
            self.add(each)
        missing = [letter for letter, larger in zip(DIGITS, [*DIGITS][1:]) if letter not in self.parts and larger in self.parts]
        if missing:
            raise Faulty(f"{pattern}{form} has no %{missing[0]}, so nobody knows the order of its files")

    def add(self, each):
        """Adds a letter, a part of a date, or a name."""
        if each == NAME:
            self.wild += "*"
            self.regex += f"(?P={NAME})" if f"<{NAME}>" in self.regex else f"(?P<{NAME}>[^/]+)"
        elif each.startswith("%") and each[1:] in DIGITS:
            letter = each[1:]
            self.wild += "[0-9]" * DIGITS[letter]
            self.regex += f"(?P={letter})" if letter in self.parts else f"(?P<{letter}>[0-9]{{{DIGITS[letter]}}})"
            self.parts.append(letter)
        elif each.startswith("%") and each != "%%":
            raise Faulty(f"{each} in {self.pattern} is no part of a date: %Y, %m, %d and %H are, and %% is a percent sign")
        else:
            self.wild += glob.escape(each[0])
            self.regex += re.escape(each[0])
            self.plain += each[0] if not self.parts else ""

    def found(self):
        """What is there that fits: each path with its date and, where one is wanted, its name."""
        for path in glob.iglob(self.wild):
            fits = re.fullmatch(self.regex, path, re.DOTALL)
            if fits:
                said = fits.groupdict()
                date = [int(said[letter]) for letter in DIGITS if letter in said]
                if is_date(date):
                    yield path, date, said.get(NAME)

    def files(self):
        """The files that are there, in the order of their dates."""
        return [path for _, path in sorted((date, path) for path, date, _ in self.found())]

    def name_of(self, path):
        """What distinguishes a file from the others: its path behind the folder that they have in common."""
        return path[self.plain.rfind("/") + 1 :]


def is_date(date):
    """Whether there is such a year, month, day and hour, as far as they are said."""
    try:
        datetime.datetime(*(date + [1, 1])[: max(3, len(date))] if date else [1, 1, 1])
    except ValueError:
        return False
    return True


def files_of(path):
    """The files of a pattern, in the order of their dates; of another path the path itself."""
    return Dated(path).files() if has_date(path) else [path]


def patterns(folder, form):
    """The names for which a folder has files in a form, as `NAME-%Y-%m.csv`: of each its pattern, and the files."""
    begin = folder.replace("%", "%%").rstrip("/") + "/"
    found = {}
    for path, _, name in Dated(begin, form).found():
        found.setdefault(begin + form.replace(NAME, name.replace("%", "%%")), (name, []))[1].append(path)
    return found


def stations(folder, forms, endings):
    """The stations of a folder by the forms of their files' names: of each its name, its pattern, whether that has a date, and the files. What
    fits a form with a date is no file of another form."""
    taken = set()
    for form in sorted(forms, key=has_date, reverse=True):
        for ending in endings:
            for pattern, (name, paths) in sorted(patterns(folder, form + ending).items()):
                paths = [path for path in paths if path not in taken]
                taken.update(paths)
                if paths:
                    yield name, pattern, has_date(form), paths


def form_of(text):
    """How the files of stations are called, where a person says it."""
    Dated("", text)
    if NAME not in text:
        raise Faulty(f"{text} has no {NAME}")
    return text


class Order:
    """The order of a station's rows that stand in several files.

    A run that has begun goes on before another one begins, since rows go on in an earlier date's file once the clock was set back. Of a run
    the cycles are in their order, and of a cycle the rows of the file that was read last come first. All else is in the order of the files'
    dates. Files are known by their numbers in that order.
    """

    def __init__(self):
        self.run = self.last = None

    def first(self, heads):
        """The file whose row is next; `heads` has the next row of each file that has more."""
        found = {number: fields for number, fields in heads.items() if run_of(fields) == self.run}
        if not found:
            self.run = run_of(heads[min(heads)])
            return self.first(heads)
        self.last = min(found, key=lambda number: (cycle_of(heads[number]), number != self.last, number))
        return self.last

    def goes_on(self, heads):
        """What says of the rows of that file, asked once of each in turn, whether it comes before those of the others."""
        others = {number: fields for number, fields in heads.items() if number != self.last}
        lowest = {}
        for fields in others.values():
            lowest[run_of(fields)] = min(lowest.get(run_of(fields), cycle_of(fields)), cycle_of(fields))

        def is_next(fields):
            if records.is_of_setup(fields):
                return True
            if run_of(fields) != self.run:
                if self.run in lowest or others and min(others) < self.last:
                    return False
                self.run = run_of(fields)
            return self.run not in lowest or cycle_of(fields) <= lowest[self.run]

        return is_next


def is_before(fields, others):
    """Whether a row is of an earlier cycle than another one of the same run."""
    return run_of(fields) == run_of(others) and cycle_of(fields) < cycle_of(others)


def run_of(fields):
    return fields.get("run", "")


def cycle_of(fields):
    """The cycle by which rows of different files are compared. An earlier version's rows say no run: for them the files' dates decide."""
    return int(fields["cycle"]) if run_of(fields) else 0


def head_of(rows):
    """The row by which a file is compared with others: its next one that is in a cycle."""
    return next((fields for fields in rows if not records.is_of_setup(fields)), rows[0])


def until_cycle():
    """What says of each row in turn whether no one before it is in a cycle."""
    seen = []

    def is_next(fields):
        is_so = not seen
        seen.extend([] if records.is_of_setup(fields) else [fields])
        return is_so

    return is_next


def merged(files, order=None):
    """The rows of several files, each a list, in the order of their dates, as one list, behind those that an order has."""
    order, rest, found = order or Order(), {number: list(reversed(rows)) for number, rows in enumerate(files) if rows}, []
    heads = {number: head_of(rows[::-1]) for number, rows in rest.items()}
    while heads:
        number = order.first(heads)
        is_next, rows = order.goes_on(heads), rest[number]
        while rows and is_next(rows[-1]):
            found.append(rows.pop())
        heads.pop(number)
        if rows:
            heads[number] = head_of(rows[::-1])
    return found
