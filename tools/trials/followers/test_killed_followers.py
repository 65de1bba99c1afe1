"""Followers that are killed, or follow many files, or one file side by side: no row is missing or double."""

import random
import sqlite3
import threading
import time
from contextlib import closing
from pathlib import Path

from growing import Growing, row, row_of_columns, row_of_json
from killing import kill_followers, kill_side_by_side
from programs import Run, simulator, until
from records import COLUMNS, COLUMNS_HEAD, HEAD
from sinks import PATIENCE, expect_postgres, expect_retained, expect_sqlite, followers, messages_of, tool

# The forms of a file of rows, by its name: its head, and what makes a row.
FORMS = {"table.csv": (HEAD, row), "columns.csv": (COLUMNS_HEAD, row_of_columns), "objects.jsonl": (b"", row_of_json)}


def test_no_row_is_missing_or_double(servers, folder, kills, note):
    """Each follower is killed while a file grows whose last row is torn now and then."""
    grows = Growing(folder / "grown.csv", 31)

    def end_growth():
        grows.end()
        return f", {grows.torn} torn and cut off"

    note(kill_followers(servers, folder, kills, grows.path, end_growth))


def test_reads_both_forms(servers, folder, kills, note):
    """The same rows as a table, as one of `--columns`, and as objects of `--json`: each follower and `plot` make the same of them, over
    kills while they grow."""
    for name in "columns.csv", "objects.jsonl":
        place = folder / Path(name).stem
        place.mkdir()
        head, line = FORMS[name]
        grows = Growing(place / name, 31, head=head, line=line)

        def end_growth(grows=grows):
            grows.end()
            return f" of {grows.path.name}, {grows.torn} torn and cut off"

        note(kill_followers(servers, place, max(5, kills // 10), grows.path, end_growth, f"site/{place.name}"))
    for name, (head, line) in FORMS.items():
        chance = random.Random(5)
        (folder / name).write_bytes(head + b"".join(line(chance, number) for number in range(300)))
    base = folder / "forms.db"
    messages_of(tool("to-sqlite", folder, base, "--as", "forms", "--once"))
    columns = ", ".join(f'"{column}"' for column in COLUMNS)
    with closing(sqlite3.connect(base)) as table:
        query = f"SELECT {columns} FROM record WHERE source = ? ORDER BY line"
        found = [table.execute(query, [f"forms/{name}"]).fetchall() for name in FORMS]
        assert len(found[0]) == 300
        assert found[0] == found[1] == found[2], "the rows of the three files"
    drawn = []
    for name in FORMS:
        messages_of(tool("plot", folder / name, folder / f"of {name}"))
        drawn.append({one.name: one.read_bytes() for one in (folder / f"of {name}").iterdir()})
    assert len(drawn[0]) == 8
    assert drawn[0] == drawn[1] == drawn[2], "the pictures of the three files"


def test_a_station_is_followed(servers, folder, kills, note, program):
    """The same with rows that a real station appends, which is killed now and then, too: in each form of rows."""
    for name, form in {"station.csv": [], "columns.csv": ["--columns"], "objects.jsonl": ["--json"]}.items():
        path = folder / Path(name).stem / name
        path.parent.mkdir()
        with simulator(program) as port:
            note(follow_a_station(servers, kills, program, port, path, form))


def follow_a_station(servers, kills, program, port, path, form):
    """One form of a station's rows; gives what is to be said of it."""
    commands = b"name 7 pier 4\n7 9027 0.5,1.5,0,1,0\n7 2008 1,1\n7 2108 5000,1\n8 5004\n9 2107 0\n"
    words = ["--append", path, *"--deadline 200 --settle 20 --cycles unlimited --retries always --silent".split(), *form]
    chance = random.Random(31)
    ending = threading.Event()
    starts = 0

    def measure():
        nonlocal starts
        while not ending.is_set():
            with Run([program, "station", port, *words], commands):
                starts += 1
                # It measures as fast as it can, and nobody wants millions of rows here.
                ending.wait(chance.uniform(0.1, 0.3))
            ending.wait(0.3)

    def end_growth():
        ending.set()
        thread.join()
        return f" of {path.name}, {starts} starts of the station"

    thread = threading.Thread(target=measure)
    thread.start()
    try:
        # A start may be killed before it has made its file, the more so on a busy machine.
        until(path.exists, "no start of the station made its file", PATIENCE)
        return kill_followers(servers, path.parent, max(5, kills // 10), path, end_growth, f"site/real {path.stem}")
    finally:
        end_growth()


def test_a_folder_is_followed(servers, folder, kills, note):
    """One follower for many files: one that is refused is reported, and the others go on over kills."""
    place, base, top = folder / "rows", folder / "folder.db", "many"
    place.mkdir()
    grows = [Growing(place / f"s{number:02}.csv", number, 0.1, 5) for number in range(20)]
    commands = [one.command(place, "--rest", "0.02") for one in followers(servers, base, top)]
    try:
        kill_side_by_side(max(5, kills // 5), commands)
    finally:
        for one in grows:
            one.end()
    for command in commands:
        messages_of([*command, "--once"])
    edited = grows[3].path
    edited.write_bytes(edited.read_bytes().replace(b"pier 4", b"pier 5", 1))
    added = row(random.Random(9), 900_000)
    for one in grows:
        with open(one.path, "ab") as file:
            file.write(added)
    for command in commands:
        messages = messages_of([*command, "--once"], 1)
        assert messages.count("\n") == 1 and str(edited) in messages
    edited.write_bytes(edited.read_bytes().replace(b"pier 5", b"pier 4", 1)[: -len(added)])
    for one in grows:
        expect_sqlite(base, one.path)
        expect_postgres(servers, one.path)
        expect_retained(servers.broker_port, one.path, f"{top}/{one.path.stem}")
    note(f"20 files, {sum(one.rows for one in grows)} rows, none missing or double")


def test_two_book_each_row_once(servers, folder, note):
    """Two followers of one file into one database, beside one another."""
    path, base = folder / "two.csv", folder / "two.db"
    grows = Growing(path, 12)
    commands = [one.command(path, "--rest", "0.01") for one in followers(servers, base)[:2]] * 2
    runs = [Run(command) for command in commands]
    try:
        time.sleep(5)
        grows.end()
        time.sleep(1)
        for run in runs:
            assert run.is_running(), "one ended"
            run.terminate()
        messages = {line for run in runs for line in run.messages().splitlines()}
    finally:
        grows.end()
        for run in runs:
            run.end()
    assert messages <= {f"{name}: {path} isn't there yet" for name in ("to-sqlite", "to-postgres")}
    expect_sqlite(base, path)
    expect_postgres(servers, path)
    note(f"{grows.rows} rows")
