"""Files with a line that is no row, and what is no file of rows: what is before such a line is taken, and other files are."""

import csv
import os
import random
import re
import sqlite3
from contextlib import closing
from dataclasses import dataclass
from pathlib import Path
from typing import Callable

from growing import first_rows, row, row_of_columns, row_of_json
from programs import Run, until
from records import COLUMNS, COLUMNS_HEAD, HEAD, LAST
from sinks import earlier_line, expect_postgres, expect_sqlite, followers, level, messages_of, tool

GOOD = {"~.csv": HEAD + b"".join(first_rows(40)),
        "~.jsonl": b"".join(row_of_json(random.Random(5), number) for number in range(40))}


@dataclass
class BadFile:
    """A file beside the good ones: its name, what makes it, how many rows of it are taken, and what is reported of it, if anything."""

    name: str
    make: Callable
    rows: int
    message: str | None


def bad_lines():
    """Files with a line that is no row, and a good row after it."""
    table_row, json_row, columns_row = (line(random.Random(5), 2) for line in (row, row_of_json, row_of_columns))
    no_row = "the line that ends at byte {} is no row: "
    glued = no_row + "its run is no moment: 2026-11-242026-11-24T19:59:50.000Z"
    # Of each its name, what is before that line and how many rows of it are good, the line, and what is reported of it.
    for name, before, rows, line, message in [
        ("glued.csv", HEAD + table_row, 1, table_row[:10] + table_row, glued),
        ("later glued.csv", COLUMNS_HEAD, 0, table_row[:10] + columns_row, glued),
        ("glued in a string.csv", HEAD + table_row, 1, table_row[:-6] + table_row, no_row + "',' expected after"),
        ("glued.jsonl", json_row, 1, json_row[:17] + json_row, no_row + "it is no object of JSON"),
        ("no date.csv", HEAD, 0, table_row.replace(b"-24T20", b"-31T20"), no_row + "its sent is no moment: 2026-11-31T20:00:38.766Z"),
        ("no procedure.csv", HEAD, 0, table_row.replace(b",2108,", b",,"), no_row + "it has nothing as procedure"),
        ("no procedure.jsonl", b"", 0, json_row.replace(b'"procedure":2108,', b""), no_row + "it has nothing as procedure"),
        ("no number.jsonl", b"", 0, json_row.replace(b":2108,", b":2.5e3,"), no_row + "its procedure is no number: 2.5e3"),
        ("large.csv", HEAD + table_row, 1, table_row.replace(b",2108,", b",9223372036854775808,"), no_row + "its procedure is no number"),
        ("twice.jsonl", b"", 0, json_row.replace(b"{", b'{"run":"x",'), no_row + "a member stands there twice"),
        ("nested.jsonl", b"", 0, b'{"run":' + b"[" * 50_000 + b"\n", no_row + "it is no object of JSON"),
        ("true.jsonl", b"", 0, json_row.replace(b":2108,", b":true,"), no_row + "its member 'procedure' is neither a number nor"),
        ("both.csv", HEAD + table_row, 1, json_row, no_row + "',' expected after"),
        ("both.jsonl", json_row, 1, table_row, no_row + "it is no object of JSON"),
        ("headless.csv", b"", 0, table_row, " has no column time"),
        ("no table.csv", b"", 0, b'"x"y\n', " doesn't begin with the names of columns: ',' expected after"),
    ]:
        data = before + line
        colon = "" if message.startswith(" ") else ": "
        yield BadFile(name, writes(data + row(random.Random(5), 9)), rows, name + colon + message.format(len(data)))


def writes(data):
    return lambda path: Path(os.fsdecode(path)).write_bytes(data)


def no_files():
    """What is no file, and files whose names aren't printable, which are taken."""
    yield BadFile("folder.csv", os.mkdir, 0, "folder.csv: Is a directory")
    yield BadFile("pipe.csv", os.mkfifo, 0, "pipe.csv is no regular file")
    yield BadFile("link.csv", lambda path: os.symlink("nowhere", path), 0, "link.csv isn't there")
    for name in b"\xff.csv", b"new\nline.csv", b"end\n\\.\nof\tit.csv":
        yield BadFile(os.fsdecode(name), writes(GOOD["~.csv"]), 40, None)


def expect_followed(follower, place, bad, is_once):
    """A follower of a folder takes the good files, and reports the bad one in one line."""

    def taken(name):
        return follower.taken(f"{place.name}/{name}")

    words = ["--as", place.name, "--rest", "0.02", *(["--once"] if is_once else [])]
    with Run(follower.command(place, *words)) as run:
        if is_once:
            assert run.status(20) == (bad.message is not None), run.messages()
        else:
            until(lambda: taken("~.jsonl") == 40 or not run.is_running(), f"{follower.name} doesn't take ~.jsonl", 20)
            assert not run.ends_within(0.3), f"{follower.name} ended"
            run.terminate()
        messages = run.messages()
    assert messages.count("\n") == (bad.message is not None), messages[-300:]
    assert (bad.message or "") in messages
    assert [taken(name) for name in [*GOOD, bad.name]] == [40, 40, bad.rows], "how many rows were taken of the good files and of this one"


def test_one_bad_file_stops_no_other(servers, folder, note):
    """A file with a bad line, a folder, a pipe, a link that leads nowhere, or names that aren't printable, beside two good files: what
    is before a bad line is taken, the line is reported once with its file, and the good files are taken whole. So over rounds, too."""
    wrong, tried = [], 0
    for kind, files in ("once", [*bad_lines(), *no_files()]), ("running", [*list(bad_lines())[:4], *no_files()]):
        for bad in files:
            place = folder / f"{kind} {bad.name}".encode("ascii", "replace").decode().replace("?", "_")
            place.mkdir()
            for name, data in GOOD.items():
                (place / name).write_bytes(data)
            bad.make(os.fsencode(place / bad.name))
            for follower in followers(servers, folder / "bad.db", f"bad {level(place.name)}"):
                try:
                    expect_followed(follower, place, bad, kind == "once")
                except AssertionError as why:
                    wrong.append(f"{kind}, {bad.name!r}, {follower.name}: {why}")
            tried += 1
    assert not wrong
    note(f"{tried} bad files beside good ones, by each follower")


def test_reads_columns_by_name(servers, folder):
    """A column that is needed and missing is reported in one line; further ones, another order, and rows of an earlier version, which
    have no run, no moment of sending, no quality, no attempt and no request, change nothing."""
    path, base = folder / "columns.csv", folder / "columns.db"
    path.write_bytes((",".join(column for column in COLUMNS if column != "rc") + "\n").encode())
    commands = [one.command(path, "--once") for one in followers(servers, base)]
    for command in [*commands, tool("plot", path, folder)]:
        assert messages_of(command, 1).split(": ", 1)[1] == f"{path} has no column rc\n"
    rows = first_rows(30)
    # What a later version may write.
    later = folder / "later.csv"
    with later.open("w", newline="", encoding="ascii") as file:
        table = csv.writer(file, lineterminator="\n")
        table.writerow(["later", *reversed(COLUMNS), "hz_rad", "v_rad"])
        for fields in csv.reader(line.decode().rstrip("\n") for line in rows):
            table.writerow(["x", *reversed(fields), "2.25", ""])
    earlier = folder / "earlier.csv"
    earlier.write_bytes(b"".join(map(earlier_line, [HEAD, *rows])))
    for other in later, earlier:
        for follower in followers(servers, base)[:2]:
            messages_of(follower.command(other, "--once"))
        expect_sqlite(base, other)
        expect_postgres(servers, other)
        messages_of(tool("plot", other, folder / other.stem))


# What earlier versions didn't have.
NO_LATEST = ["DROP VIEW latest", "DROP INDEX record_time", "DROP INDEX record_target", "DROP INDEX record_command"]


def without_attempt(view):
    """The query of a view without its last column."""
    return re.sub(r",\s+(?:record\.)?attempt(?=\s+FROM)", "", view)


def without_request(view):
    """The query of a view that doesn't ask whether a row has a request."""
    return re.sub(r" AND \((?:record\.)?request IS NULL\)", "", view)


def test_goes_on_in_databases_of_an_earlier_version(servers, folder):
    """A table without a quality, an attempt and a request gets these columns, and its view then has the values of warnings."""
    path, base = folder / "old.csv", folder / "old.db"
    path.write_bytes(HEAD)
    commands = [one.command(path, "--once") for one in followers(servers, base)[:2]]
    for command in commands:
        messages_of(command)
    # The view of the other version has all rows.
    older = [*NO_LATEST, "DROP VIEW measured", *(f"ALTER TABLE record DROP COLUMN {column}" for column in LAST)]
    with closing(sqlite3.connect(base)) as table:
        for statement in [*older, "CREATE VIEW measured AS SELECT source, line FROM record"]:
            table.execute(statement)
    view = servers.ask("SELECT pg_get_viewdef('measured')")[0][0]
    servers.order(*older, "CREATE VIEW measured AS " + without_request(without_attempt(view[: view.index("WHERE")])))
    path.write_bytes(HEAD + b"".join(first_rows(300)))
    for command in commands:
        messages_of(command)
    expect_sqlite(base, path)
    expect_postgres(servers, path)


def test_refuses_what_an_earlier_build_made(servers, folder):
    """Rows of an earlier build have `place` where today's have `step`. A file of either form is refused in one line, and so is a database,
    whose rows stay."""
    rows, base = first_rows(30), folder / "build.db"
    table, objects = folder / "build.csv", folder / "build.jsonl"
    table.write_bytes(HEAD.replace(b",step,", b",place,") + b"".join(rows))
    objects.write_bytes(b"".join(row_of_json(random.Random(5), number).replace(b'"step":', b'"place":') for number in range(30)))
    for path, said in (table, " has no column step\n"), (objects, "is no row: it has nothing as step\n"):
        for one in followers(servers, base):
            assert messages_of(one.command(path, "--once"), 1).endswith(said), f"{one.name} {path.name}"
    path = folder / "now.csv"
    path.write_bytes(HEAD + b"".join(rows))
    databases = followers(servers, base)[:2]
    for one in databases:
        messages_of(one.command(path, "--once"))
    older = "ALTER TABLE record RENAME COLUMN step TO place"
    with closing(sqlite3.connect(base)) as opened:
        for statement in "DROP VIEW measured", "DROP VIEW latest", older:
            opened.execute(statement)
    servers.order(older)
    for one in databases:
        assert "its table record has no column step" in messages_of(one.command(path, "--once"), 1), one.name
        assert one.taken(path) == len(rows), one.name
    servers.order("ALTER TABLE record RENAME COLUMN place TO step")


def test_rows_of_an_earlier_version_are_first_attempts(servers, folder):
    """A table without an attempt gets that column: what it has is of the first attempt, and so is a row that doesn't say it. The view has
    the attempt, too."""
    path, base = folder / "old.csv", folder / "old.db"
    rows = first_rows(40)
    path.write_bytes(HEAD + b"".join(rows[:10]))
    commands = [one.command(path, "--once") for one in followers(servers, base)[:2]]
    for command in commands:
        messages_of(command)
    with closing(sqlite3.connect(base)) as table:
        for statement in [*NO_LATEST, "DROP VIEW measured", "ALTER TABLE record DROP COLUMN attempt", "CREATE VIEW measured AS SELECT source, line FROM record"]:
            table.execute(statement)
    view = servers.ask("SELECT pg_get_viewdef('measured')")[0][0]
    servers.order(*NO_LATEST, "DROP VIEW measured", "ALTER TABLE record DROP COLUMN attempt", "CREATE VIEW measured AS " + without_attempt(view))
    path.write_bytes(HEAD + b"".join(rows))
    for command in commands:
        messages_of(command)
    wanted = [1] * 10 + [2 if number % 7 == 3 else 1 for number in range(10, 40)]
    assert set(wanted[10:]) == {1, 2}
    with closing(sqlite3.connect(base)) as table:
        for name in "record", "measured":
            found = table.execute(f"SELECT line, attempt FROM {name} WHERE source = ? ORDER BY line", [str(path)]).fetchall()
            assert found and all(attempt == wanted[line - 1] for line, attempt in found), name
            assert servers.ask(f"SELECT line, attempt FROM {name} WHERE source = %s ORDER BY line", str(path)) == found, name
