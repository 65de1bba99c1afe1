"""What a station's rows are, as `docs/FORMATS.md`, "Rows", has them: their columns, how moments are read and written, and how the
lines of both forms are read: those of a table, with or without `--columns`, and the objects of `--json`.
"""

import csv
import datetime
import io
import json
import re

from outcomes import COUNTED, NO_VALUE

# tools/columns: lists
# The columns of a station's rows, of which the last ones come last in every table. Further ones are handed on under their names.
LAST = ["quality", "attempt", "request"]
COLUMNS = [
    "run", "sent", "time", "cycle", "step", "target", "name", "procedure", "outcome", "fault", "rc_com", "rc", "values", *LAST,
]
# What `--columns` and `--json` add: the quantities of an answer; and those that answers of each procedure have, in their order.
ANSWER_COLUMNS = [
    "hz_rad", "v_rad", "distance_m", "mode", "easting_m", "northing_m", "height_m", "instrument_height_m", "reflector_height_m",
    "face", "prism_type", "temperature_c", "places", "release", "version", "subversion", "serial", "instrument", "year", "month",
    "day", "hour", "minute", "second",
]
RETURNED = {
    108: ["places"],
    110: ["release", "version", "subversion"],
    2009: ["easting_m", "northing_m", "height_m", "instrument_height_m"],
    2011: ["reflector_height_m"],
    2026: ["face"],
    2107: ["hz_rad", "v_rad"],
    2108: ["hz_rad", "v_rad", "distance_m"],
    2117: ["hz_rad", "v_rad", "distance_m"],
    5003: ["serial"],
    5004: ["instrument"],
    5008: ["year", "month", "day", "hour", "minute", "second"],
    5011: ["temperature_c"],
    5034: ["release", "version", "subversion"],
    17009: ["prism_type"],
    17017: ["hz_rad", "v_rad", "distance_m", "mode"],
}
MOMENTS = ["run", "sent", "time"]
NUMBERS = ["cycle", "step", "target", "procedure", "fault", "rc_com", "rc", "attempt"]
# end
HEAD = ",".join(COLUMNS).encode() + b"\n"


def with_columns(columns):
    """The columns of a table that has these, too: they come before the last ones."""
    return [*COLUMNS[: -len(LAST)], *columns, *LAST]


COLUMNS_HEAD = ",".join(with_columns(ANSWER_COLUMNS)).encode() + b"\n"
# The qualities of an answer whose values read and count; and that of one whose command is sent once more, which counts only then.
GOOD = ["ok", "warning"]
UNCONFIRMED = "unconfirmed"
# The columns that a table of an earlier version may not have: a new one comes last. What every reader needs: the others.
LATER = ["run", "sent", *LAST]
NEEDED = [column for column in COLUMNS if column not in LATER]
# The member that is a list: the items of an answer to a procedure that isn't in the table.
ITEMS = "items"
# What no row has empty.
FILLED = ["run", "time", "cycle", "step", "target", "procedure", "outcome", "attempt"]
# What a row has that doesn't say it, as one of an earlier version: it is of the first attempt.
UNSAID = {"attempt": "1"}
MOMENT = re.compile(r"[0-9]{4}-[0-9]{2}-[0-9]{2}T[0-9]{2}:[0-9]{2}:[0-9]{2}\.[0-9]{3}Z")
ESCAPES = {byte: f"\\x{byte:02x}" for byte in range(256) if not 32 <= byte < 127}


class NoRow(Exception):
    """Why a line is no row."""


def counts_line(**count):
    """The last line of a run with so many commands of each outcome, of which so many answers are `refused`, and chains that went out
    again, which are `retried`; none of what isn't named."""
    count["skipped"] = count.get("skipped", 0) + count.get(NO_VALUE, 0)
    counts = {word: f"{word} {count.get(word, 0)}" for word in (*COUNTED, "retried")}
    counts["answered"] += f" (refused {count.get('refused', 0)})"
    return " ".join(counts.values())


def printable(data):
    """A line as printable ASCII: each other byte is `\\xNN`, so that any sink takes it."""
    return data.decode("latin-1").translate(ESCAPES)


def moment(text):
    """A moment as a station writes it; `ValueError` where it is none."""
    if not MOMENT.fullmatch(text):
        raise ValueError(text)
    return datetime.datetime.fromisoformat(text.replace("Z", "+00:00"))


def moment_text(moment):
    """A moment as a station writes it: in UTC, with milliseconds."""
    return moment.astimezone(datetime.timezone.utc).strftime("%Y-%m-%dT%H:%M:%S.") + f"{moment.microsecond // 1000:03}Z"


def line_of(fields, columns=COLUMNS):
    """The line of a table with these fields, by the names of its columns. Those that aren't given are empty, and an attempt is the first."""
    text = io.StringIO()
    csv.writer(text, lineterminator="\n").writerow({**UNSAID, **fields}.get(column, "") for column in columns)
    return text.getvalue().encode("latin-1")


def fields_of(line):
    """The fields of a table's line without its line feed."""
    try:
        return next(csv.reader([printable(line)], strict=True), [])
    except csv.Error as why:
        raise NoRow(str(why)) from None


def is_list(field):
    """Whether a member is a list of texts."""
    return isinstance(field, list) and all(isinstance(text, str) for text in field)


def members_of(line):
    """The members of an object of JSON, each as the text that is there, and those of a list joined by commas."""
    try:
        members = json.loads(printable(line), object_pairs_hook=list, parse_int=str, parse_float=str)
    except (ValueError, RecursionError):
        members = None
    # A list of JSON would be read as the members of an object are.
    if members is None or not line.startswith(b"{"):
        raise NoRow("it is no object of JSON")
    members = [(name, ",".join(field) if name == ITEMS and is_list(field) else field) for name, field in members]
    for name, field in members:
        if not all(isinstance(text, str) and text.isascii() and text.isprintable() for text in (name, field)):
            raise NoRow(f"its member {ascii(name)[:80]} is neither a number nor a printable text")
    if len(dict(members)) != len(members):
        raise NoRow("a member stands there twice")
    return dict(members)


def checked(fields):
    """The fields of a row. A row that is glued to a torn one has a first field that is no moment."""
    for column in FILLED:
        if fields.get(column) == "":
            raise NoRow(f"it has nothing as {column}")
    for columns, kind, is_so in [(MOMENTS, "moment", moment), (NUMBERS, "number", whole_number)]:
        for column in columns:
            try:
                if fields.get(column):
                    is_so(fields[column])
            except ValueError:
                raise NoRow(f"its {column} is no {kind}: {fields[column][:80]}") from None
    return fields


def whole_number(text):
    """A number that any database takes; `ValueError` where it is none."""
    number = int(text)
    if abs(number) >= 1 << 63:
        raise ValueError(text)
    return number


class Table:
    """The form of a file that begins with the names of its columns."""

    def __init__(self, line, needed):
        self.head = line
        try:
            self.names = fields_of(line)
        except NoRow as why:
            raise NoRow(f"doesn't begin with the names of columns: {why}") from None
        for column in needed:
            if column not in self.names:
                raise NoRow(f"has no column {column}")

    def row(self, line):
        """The fields of a row, by the names of their columns; nothing of the names themselves, which are repeated where the rows of
        several starts were put one after the other."""
        if line == self.head:
            return None
        fields = fields_of(line)
        if len(fields) != len(self.names):
            raise NoRow(f"it has {len(fields)} fields for {len(self.names)} columns")
        return checked({**UNSAID, **dict(zip(self.names, fields))})


class Objects:
    """The form of a file with an object of JSON on each line, in which empty fields are left out."""

    @staticmethod
    def row(line):
        """The fields of a row, by the names of their columns."""
        return checked({**dict.fromkeys(COLUMNS, ""), **UNSAID, **members_of(line)})


def form_of(line, needed=NEEDED):
    """The form of a file with this first line. A table has to have the columns that are needed."""
    return Objects() if line.startswith(b"{") else Table(line, needed)


def is_of_setup(fields):
    """Whether a row is one of the set-up: it is in no cycle, and its attempts are counted over the run."""
    return fields.get("cycle") == "0"


def attempt_of(fields):
    """The attempt of its chain that a row is of."""
    return int(fields.get("attempt") or UNSAID["attempt"])


def last_attempts(rows):
    """The rows that count of rows in their order: of several attempts of a command in a cycle the last one, and none of the set-up."""
    kept, places = [], {}
    for fields in rows:
        if is_of_setup(fields):
            continue
        command = tuple(fields.get(column, "") for column in ("run", "cycle", "step"))
        if attempt_of(fields) > 1 and command in places:
            kept[places[command]] = None
        places[command] = len(kept)
        kept.append(fields)
    return [fields for fields in kept if fields]
