"""What the sinks have to have of a file of rows: each row once, the quantities of those that were answered well, and at the broker the
last values of each target."""

import csv
import json
import sqlite3
import time
from contextlib import closing
from dataclasses import dataclass
from pathlib import Path

import quantities
from followed import Row
from programs import ended, until
from records import COLUMNS, LATER, MOMENTS, UNSAID, fields_of, line_of
from servers import Listening, Servers

TOOLS = Path(__file__).resolve().parents[2]
# What all topics begin with, where nothing else is said.
TOP = "site/north"
# How long a follower may take to come to the end of a file, in seconds.
PATIENCE = 60
# The columns but the moments, which PostgreSQL has as times.
PLAIN = [column for column in COLUMNS if column not in MOMENTS]
PLAIN_SQL = ", ".join(["line", *(f'"{column}"' for column in PLAIN)])


def tool(name, *words):
    """The command line of a tool."""
    return [TOOLS / name, *words]


def messages_of(words, status=0):
    """The messages of a tool that ended by itself with this status."""
    found = ended(words, patience=PATIENCE)
    assert found.status == status, f"{words[0]}: {found.messages!r}"
    return found.messages


def earlier_line(line):
    """A line of a table as an earlier version has it, without the later columns."""
    return line_of(dict(zip(COLUMNS, fields_of(line[:-1]))), [column for column in COLUMNS if column not in LATER])


@dataclass
class Follower:
    """A follower and its sink, as its command line has that."""

    name: str
    servers: Servers
    sink: list

    def command(self, path, *words):
        return tool(self.name, path, *self.sink, *words)

    def taken(self, source):
        """How many rows its sink has of a source. The broker's place says how many it took."""
        source = str(source).encode(errors="surrogateescape").decode(errors="backslashreplace")
        if self.name == "to-sqlite":
            return rows_in_sqlite(self.sink[0], source)
        if self.name == "to-postgres":
            return rows_in_postgres(self.servers, source)
        with Listening(self.servers.broker_port, [f"{self.sink[0]}/followed/{level(source)}"]) as listening:
            time.sleep(0.1)
        return json.loads(listening.came[-1][1])["rows"] if listening.came else 0


def followers(servers, base, topic=TOP):
    """The three followers, into these sinks."""
    return [
        Follower("to-sqlite", servers, [base]),
        Follower("to-postgres", servers, [servers.where()]),
        Follower("to-mqtt", servers, [topic, "--port", servers.broker_port]),
    ]


def rows_in_sqlite(base, source):
    """How many rows the database has of a source; none where it has no table yet."""
    if not Path(base).exists():
        return 0
    with closing(sqlite3.connect(base, timeout=5)) as table:
        try:
            return table.execute("SELECT count(*) FROM record WHERE source = ?", [source]).fetchone()[0]
        except sqlite3.OperationalError:
            return 0


def rows_in_postgres(servers, source):
    import psycopg2.errors

    try:
        return servers.ask("SELECT count(*) FROM record WHERE source = %s", source)[0][0]
    except psycopg2.errors.UndefinedTable:
        return 0


def level(text):
    """A text as one level of a topic."""
    for letter in "%/+#\n\t":
        text = text.replace(letter, f"%{ord(letter):02X}")
    return text


def rows_of(path):
    """The whole rows of a file of either form, with their fields by name."""
    *lines, _ = Path(path).read_text(encoding="ascii").split("\n")
    if lines[0].startswith("{"):
        found = [{**dict.fromkeys(COLUMNS, ""), **UNSAID, **json.loads(line, parse_int=str, parse_float=str)} for line in lines]
    else:
        names, *fields = csv.reader(lines)
        found = [{**UNSAID, **dict(zip(names, row))} for row in fields]
    return [Row(number, fields) for number, fields in enumerate(found, 1)]


def expect_table(found, path, times):
    """The table has each row of the file, once, in order."""
    rows = rows_of(path)
    numbers = [row[0] for row in found]
    assert len(set(numbers)) == len(numbers), "rows are double"
    assert len(numbers) == len(rows), "how many rows the table has"
    for row, (*plain, more), moments in zip(rows, found, times):
        assert (*plain, more and json.loads(more)) == (row.number, *map(row.known, PLAIN), row.more() or None), f"row {row.number}"
        assert moments == tuple(map(row.known, MOMENTS)), f"the moments of row {row.number}"


def expect_sqlite(base, path):
    with closing(sqlite3.connect(base)) as table:
        found = table.execute(f"SELECT {PLAIN_SQL}, more FROM record WHERE source = ? ORDER BY line", [str(path)]).fetchall()
        times = table.execute(f"SELECT {', '.join(MOMENTS)} FROM record WHERE source = ? ORDER BY line", [str(path)]).fetchall()
        expect_table(found, path, times)
        query = "SELECT line, hz_rad, v_rad, distance_m FROM measured WHERE source = ? ORDER BY line"
        expect_measured(path, table.execute(query, [str(path)]), near)


def expect_postgres(servers, path):
    found = servers.ask(f"SELECT {PLAIN_SQL}, more::text FROM record WHERE source = %s ORDER BY line", str(path))
    stamps = ", ".join(f"""to_char({moment} AT TIME ZONE 'UTC', 'YYYY-MM-DD"T"HH24:MI:SS.MS"Z"')""" for moment in MOMENTS)
    times = servers.ask(f"SELECT {stamps} FROM record WHERE source = %s ORDER BY line", str(path))
    expect_table(found, path, times)
    query = "SELECT line, hz_rad::text, v_rad::text, distance_m::text FROM measured WHERE source = %s ORDER BY line"
    expect_measured(path, servers.ask(query, str(path)), str)


def near(text):
    """A number as SQLite reads it, whose last digit may differ."""
    return float(f"{float(text):.14g}")


def expect_measured(path, found, kind):
    """The view has the quantities of each row that was answered well."""
    wanted = []
    for row in rows_of(path):
        if quantities.has_values(row.fields):
            known = quantities.quantities(row.fields)
            wanted.append((row.number, *(kind(known[name]) if name in known else None for name in quantities.POINT)))
    found = [(number, *(value if value is None else kind(value) for value in values)) for number, *values in found]
    assert len(found) == len(wanted), "how many rows the view has"
    for one, row in zip(found, wanted):
        assert one == row, "a row of the view"


def wanted_at_broker(path, top):
    """What has to be retained: of each topic the last row."""
    last = {}
    for row in rows_of(path):
        topic = f"{top}/target/{level(row.fields['name'] or row.fields['target'])}/{row.fields['procedure']}"
        last[f"{topic}/row"] = row
        if quantities.has_values(row.fields):
            last[topic] = row
    return last


def expect_retained(port, path, top=TOP):
    """The broker keeps the last values of each target, and nothing else below it. How many messages."""
    wanted = wanted_at_broker(path, top)
    with Listening(port, [f"{top}/target/#"]) as listening:
        until(lambda: len(listening.came) >= len(wanted), f"{len(wanted)} are to stand at the broker", 10)
        time.sleep(0.2)
    found = {topic: json.loads(text) for topic, text in listening.came}
    assert sorted(found) == sorted(wanted), "the topics"
    for topic, row in wanted.items():
        known = {name: float(text) for name, text in quantities.quantities(row.fields).items()}
        columns = {name: field for name, field in row.fields.items() if name in COLUMNS}
        assert found[topic] == {**columns, **row.more(), **known}, topic
    return len(wanted)
