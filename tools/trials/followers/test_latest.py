"""The view `latest` of both databases: the last attempt of each command, if it was answered well; and what its queries look through."""

import sqlite3
from contextlib import closing

from records import HEAD, last_attempts
from sinks import earlier_line, followers, messages_of, rows_of, tool
from two_faces import Month, other

COLUMNS = "cycle, step, attempt, hz_rad, v_rad, distance_m"


def asked(base, servers, query, source):
    """What both databases say; numbers as SQLite has them."""
    with closing(sqlite3.connect(base)) as table:
        found = table.execute(query.format("?"), [str(source)]).fetchall()
    others = [tuple(each if each is None else float(each) for each in row) for row in servers.ask(query.format("%s"), str(source))]
    assert others == [tuple(each if each is None else float(each) for each in row) for row in found], "both databases say the same"
    return found


def test_the_last_attempts(servers, folder):
    """Chains that were sent twice, with the set-up between them: the view has what a file of the second attempts alone has. Where the last
    one was refused it has nothing of the command, whatever the one before it measured. `avg` counts nothing twice."""
    base, month = folder / "latest.db", Month(cycles=4, noise=2e-6)
    for name, data in zip(("both.csv", "last.csv"), month.tables_of_attempts()):
        (folder / name).write_bytes(data)
    rows = list(month.rows())[0]
    again = [other(rows[2], rc=1285, quality="refused", attempt=2)]
    (folder / "refused.csv").write_bytes(HEAD + b"".join(rows[:3] + again))
    for name in "both.csv", "last.csv", "refused.csv":
        for follower in followers(servers, base)[:2]:
            messages_of(follower.command(folder / name, "--once"))
    latest, measured = (f"SELECT {COLUMNS} FROM {view} WHERE source = {{}} ORDER BY cycle, step, attempt" for view in ("latest", "measured"))
    found = asked(base, servers, latest, folder / "both.csv")
    assert found == asked(base, servers, measured, folder / "last.csv") == asked(base, servers, latest, folder / "last.csv")
    assert len(found) == len(last_attempts([row.fields for row in rows_of(folder / "both.csv")])) == 4 * 3 * 6
    assert {row[2] for row in found} == {2}
    assert len(asked(base, servers, measured, folder / "both.csv")) > len(found)
    assert [row[1] for row in asked(base, servers, latest, folder / "refused.csv")] == [0, 1]
    assert [row[1] for row in asked(base, servers, measured, folder / "refused.csv")] == [0, 1, 2]


def test_rows_without_attempts_are_all_last(servers, folder):
    """Rows of an earlier version, which have no run and no attempt: the view has what `measured` has."""
    path, base = folder / "earlier.csv", folder / "earlier.db"
    rows = [row for rows in Month(cycles=3).rows() for row in rows]
    path.write_bytes(b"".join(map(earlier_line, [HEAD, *rows])))
    for follower in followers(servers, base)[:2]:
        messages_of(follower.command(path, "--once"))
    query = "SELECT cycle, step, hz_rad FROM {} WHERE source = {{}} ORDER BY cycle, step"
    found = asked(base, servers, query.format("latest"), path)
    assert len(found) == len(rows) and found == asked(base, servers, query.format("measured"), path)


def test_looks_through_indexes(folder, note):
    """A target's days are found by an index, and so are a row's other attempts."""
    path, base = folder / "indexed.csv", folder / "indexed.db"
    path.write_bytes(Month(cycles=10).table())
    messages_of(tool("to-sqlite", path, base, "--once"))
    with closing(sqlite3.connect(base)) as table:
        for view in "record", "measured", "latest":
            plan = table.execute(f"EXPLAIN QUERY PLAN SELECT * FROM {view} WHERE target = 7 AND time > '2026-11-01T05'").fetchall()
            assert any("record_target" in row[3] for row in plan), plan
            assert view != "latest" or any("record_command" in row[3] for row in plan), plan
            plan = table.execute(f"EXPLAIN QUERY PLAN SELECT * FROM {view} WHERE time > '2026-11-01T05'").fetchall()
            assert any("record_time" in row[3] for row in plan), plan
    note("record_target, record_time, record_command")


def test_goes_on_without_the_right_to_make_a_view(servers, folder):
    """A role that may write rows, and is not their owner, goes on in a database of an earlier version, without the view; the owner gets it."""
    path = folder / "rows.csv"
    path.write_bytes(HEAD)
    owner = tool("to-postgres", path, servers.where(), "--once")
    messages_of(owner)
    servers.order("DROP VIEW latest", "DROP INDEX record_time", "CREATE ROLE writer LOGIN", "GRANT SELECT, INSERT ON record TO writer",
                  "GRANT SELECT, INSERT, UPDATE ON followed TO writer")
    try:
        path.write_bytes(Month(cycles=1).table())
        where = servers.where().replace("user=geocom", "user=writer")
        messages_of(tool("to-postgres", path, where, "--once"))
        assert servers.ask("SELECT count(*) FROM record WHERE source = %s", str(path))[0][0] == 18
        assert servers.ask("SELECT to_regclass('latest')")[0][0] is None
        messages_of(owner)
        assert servers.ask("SELECT count(*) FROM latest WHERE source = %s", str(path))[0][0] == 18
        assert servers.ask("SELECT count(*) FROM pg_indexes WHERE indexname LIKE 'record\\_%%' AND %s <> ''", "x")[0][0] >= 3
    finally:
        servers.order("DROP OWNED BY writer", "DROP ROLE writer")
