"""A file of rows that is followed from a place on: how far it was taken, the whole rows after that, and what is refused.

A place is how many bytes of a file were taken, how many rows, and the digest of those bytes. So a file that was cut, edited or replaced
is refused, and nothing is taken from it. A file is a table, whose columns are found by their names, or has an object of JSON on each line.
"""

import hashlib
import os
import stat
from dataclasses import dataclass

import dated
import records

# How many rows go into one transaction at most, and how many bytes are read for them.
BATCH = 1000
PIECE = 1 << 18
NOTHING = hashlib.sha256().hexdigest()


class Refused(Exception):
    """What can't go on without a person."""


class Unread(Refused):
    """What can't be read now. In a folder it is tried again."""


@dataclass
class Place:
    """How far a sink has come in a source: bytes, rows, and the digest of those bytes."""

    bytes: int = 0
    rows: int = 0
    sha256: str = NOTHING


@dataclass
class Row:
    """A row: its number, counted from 1, and its fields by the names of their columns."""

    number: int
    fields: dict

    def known(self, column):
        """A field of the known columns: nothing where it is empty, and a number where it is one."""
        field = self.fields.get(column, "")
        return None if field == "" else int(field) if column in records.NUMBERS else field

    def more(self):
        """The fields of further columns that aren't empty: those of `--columns`, and what a later version may write."""
        return {name: field for name, field in self.fields.items() if name not in records.COLUMNS and field}


class Followed:
    """A file that is followed from a place on."""

    def __init__(self, path, place):
        """Opens it, where it is there, and compares what was taken of it before."""
        self.path = path
        self.place = place
        # A pipe would be waited for.
        self.file = open(path, "rb", buffering=0, opener=lambda name, flags: os.open(name, flags | os.O_NONBLOCK))
        if not stat.S_ISREG(os.fstat(self.file.fileno()).st_mode):
            raise Refused(f"{path} is no regular file")
        self.digest = hashlib.sha256()
        self.last = head = b""
        self.form = None
        behind = place.bytes
        while behind:
            data = self.file.read(min(behind, PIECE))
            if not data:
                raise Refused(f"{path} is shorter than the {place.bytes} bytes that were taken of it: it was cut or replaced")
            behind -= len(data)
            self.digest.update(data)
            if self.form is None:
                head += data
                if b"\n" in head:
                    self.begin(head[: head.index(b"\n")])
            # The last line is before the place, and is looked at before each further read.
            self.last = (self.last + data)[-65536:]
        if self.digest.hexdigest() != place.sha256:
            raise Refused(f"{path} has other bytes before byte {place.bytes} than were taken of it: it was edited or replaced")
        self.last = self.last[self.last[:-1].rfind(b"\n") + 1 :]

    def begin(self, line):
        """Takes the form of the file from its first line."""
        try:
            self.form = records.form_of(line)
        except records.NoRow as why:
            raise Refused(f"{self.path} {why}") from None

    def close(self):
        self.file.close()

    def look(self):
        """How long the file is, which is the one that was opened, and not shorter than what was taken."""
        try:
            there, here = os.stat(self.path), os.fstat(self.file.fileno())
        except FileNotFoundError:
            raise Unread(f"{self.path} was taken away") from None
        if (there.st_dev, there.st_ino) != (here.st_dev, here.st_ino):
            self.go_over()
            here = os.fstat(self.file.fileno())
        if here.st_size < self.place.bytes:
            raise Refused(f"{self.path} is shorter than the {self.place.bytes} bytes that were taken of it: it was cut")
        return here.st_size

    def go_over(self):
        """Goes on in the file that took this one's place, where that begins with all its whole rows: a station that starts after a kill or
        a failed sync puts such a copy there."""
        try:
            other = Followed(self.path, self.place)
        except Refused:
            raise Refused(f"{self.path} was replaced by another file") from None
        begin, data = self.place.bytes, b"\n" * PIECE
        while len(data) == PIECE:
            data = os.pread(self.file.fileno(), PIECE, begin)
            whole = data[: data.rfind(b"\n") + 1]
            if os.pread(other.file.fileno(), len(whole), begin) != whole:
                other.close()
                raise Refused(f"{self.path} was replaced by another file, which lacks rows of this one")
            begin += len(whole)
        self.close()
        self.file, self.form = other.file, other.form

    def next(self, size=None, is_next=None):
        """The next rows, at most a batch, and the place after them. A line without its line feed is left for later; and so is what came
        behind so many bytes, and the first row that isn't next, with all that follows it."""
        size = self.look() if size is None else size
        if size == self.place.bytes:
            return [], (self.place,)
        begin = self.place.bytes - len(self.last)
        data = os.pread(self.file.fileno(), min(PIECE, size - begin), begin)
        if not data.startswith(self.last):
            raise Refused(f"{self.path} has other bytes before byte {self.place.bytes} than were taken of it: it was edited")
        *lines, rest = data[len(self.last) :].split(b"\n")
        if not lines and len(rest) > 65536:
            raise Refused(f"{self.path} has no line feed in {len(rest)} bytes: its rows are not a station's")
        rows, taken, last = [], self.place.bytes, self.last
        digest = self.digest.copy()
        for line in lines[:BATCH]:
            try:
                row = self.row(line, self.place.rows + len(rows) + 1, taken + len(line) + 1)
            except Refused:
                # What is before it is taken first.
                if taken == self.place.bytes:
                    raise
                break
            if row and is_next and not is_next(row.fields):
                break
            rows += [row] if row else []
            last = line + b"\n"
            taken += len(last)
            digest.update(last)
        return rows, (Place(taken, self.place.rows + len(rows), digest.hexdigest()), digest, last)

    def head(self, size):
        """Of the rows in so many bytes the one by which they are compared with other files'; nothing where there is none."""
        rows, _ = self.next(size, dated.until_cycle())
        return dated.head_of([row.fields for row in rows]) if rows else None

    def row(self, line, number, end):
        """The row of a line; nothing of a line with the names of the columns."""
        if self.form is None:
            self.begin(line)
        try:
            fields = self.form.row(line)
        except records.NoRow as why:
            raise Refused(f"{self.path}: the line that ends at byte {end} is no row: {why}") from None
        return Row(number, fields) if fields else None

    def took(self, come):
        """The sink has them."""
        self.place, self.digest, self.last = come
