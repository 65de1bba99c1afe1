"""Stations that append to a file of rows, at an instrument whose answers grow by one with each command; and what such a file holds."""

import csv
import io
import json
from contextlib import contextmanager

from far_end import FarEnd, good
from programs import Run
from records import COLUMNS, COLUMNS_HEAD, HEAD

# What follows fault 66.
ROTATION = ("geocom: the file does not begin as this station's rows do: it has other columns, or a rotation cut off its header "
            "(copytruncate). To rotate it, stop the station, rename the file, and start it\n")
COMMANDS = b"7 5003\n8 5003\n9 5003\n"
PATIENCE = 20


def torn_line(torn):
    """What a station says of so many bytes that it cut off."""
    return f"geocom: {torn} bytes of an incomplete row were cut off\n" if torn else ""


def copied_line(copied):
    """What a station says of so many rows that it copied, since the run before had no good end."""
    return f"geocom: the last run was killed, or a sync failed: {copied} rows were copied to a new file and synced\n" if copied else ""


def mark_of(path):
    """The mark beside a file, from before the first row that a sync is to keep to a good end."""
    return path.with_name(path.name + ".open")


class Counting(FarEnd):
    """An instrument whose number grows with each command. It knows which answers went out, and after which the next command came."""

    def __init__(self):
        self.answered, self.followed, self.last = 0, set(), None
        super().__init__(self.answer, lambda connection: [])

    def answer(self, request):
        if request.rpc != 5003:
            self.last = None
            return good(request)
        if self.last is not None:
            self.followed.add(self.last)
        self.answered += 1
        self.last = self.answered
        return request.reply(b"0,%d" % self.answered)


@contextmanager
def instrument():
    """Such an instrument; it is gone in the end."""
    far = Counting()
    try:
        yield far
    finally:
        far.pull()


def appending(program, far, path, *words, cycles="unlimited", shell=""):
    """A running station that appends to this file."""
    words = ["--append", path, "--cycles", cycles, "--settle", "10", "--retries", "always", "--silent", *words]
    return Run([program, "station", far.port, *words], COMMANDS, shell=shell)


def appended(program, far, path, *words, cycles="unlimited", shell=""):
    """How such a station ended by itself: its status, its output and its messages."""
    with appending(program, far, path, *words, cycles=cycles, shell=shell) as run:
        return run.status(PATIENCE), run.output(), run.messages()


def split(data):
    """The whole rows after the head of a table, and what follows the last line feed."""
    if len(data) < len(HEAD):
        assert HEAD.startswith(data), f"it begins with no front of the head: {data!r}"
        return [], data
    assert data.startswith(HEAD), f"it has another head: {data[:80]!r}"
    *rows, torn = data[len(HEAD) :].split(b"\n")
    found = list(csv.reader([row.decode("ascii") for row in rows]))
    wrong = [row for row in found if len(row) != len(COLUMNS)]
    assert not wrong, f"a row hasn't {len(COLUMNS)} fields: {wrong}"
    return [dict(zip(COLUMNS, row)) for row in found], torn


def numbers(rows):
    """The numbers of the rows that were answered, which grow."""
    found = [int(row["values"]) for row in rows if row["outcome"] == "answered"]
    assert found == sorted(set(found)), "a row is double, or out of order"
    return found


def rows_in(data, form):
    """The rows of a file in one of the three forms."""
    if form == "--json":
        assert data.endswith(b"\n"), f"half a line: {data[-80:]!r}"
        return [json.loads(line) for line in data.splitlines()]
    head = HEAD if form == "--csv" else COLUMNS_HEAD
    assert data.startswith(head) and data.endswith(b"\n"), f"it begins with {data[:400]!r}"
    return list(csv.DictReader(io.StringIO(data.decode("ascii"), newline="")))
