"""Rows of a procedure outside the table that the station's text describes: its values are in columns of the row, of which new ones come
before the quality, or in members of an object. Every follower takes them as those of the table's procedures."""

import datetime
import json
import sqlite3
from contextlib import closing

import drawn
import limits
import pytest
import viewed
from growing import object_of
from programs import ended
from records import ANSWER_COLUMNS, HEAD, Table, line_of, with_columns
from sinks import expect_postgres, expect_retained, expect_sqlite, followers, messages_of, rows_of, tool
from test_alive import NOW, at_noon
from test_cycles import cycle_of
from test_silence import GOOD, REFUSED, fields
from two_faces import SITE, Month, fields_of_row

# What a description calls the values of 2082: Hz, V, two others, and the slope distance. One of the others has the name of a column of
# reductions, and these rows are none.
RPC, NEW = "2082", ["cross_rad", "pairs"]
ITEMS = ["hz_rad", "v_rad", *NEW, "distance_m"]
COLUMNS = with_columns([*ANSWER_COLUMNS, *NEW])
HEADER = ",".join(COLUMNS).encode() + b"\n"


def described(known):
    """The fields of a row of 2108 as one of 2082 that says the same, and what further columns it has."""
    if known["procedure"] != "2108":
        return known, {}
    known = known | {"procedure": RPC, "request": f"%R1Q,{RPC},1:5000,1"}
    if not known["values"]:
        return known, {}
    hz, v, distance = known["values"].split(",")
    found = dict(zip(ITEMS, [hz, v, "0.00001", "-0.00002", distance]))
    has_columns = known["quality"] in ("ok", "warning")
    return known | {"values": ",".join(found.values())}, found if has_columns else {}


def as_column(known):
    """The row in a table with columns."""
    known, found = described(known)
    return line_of(known | found, COLUMNS)


def as_object(known):
    """The row as an object of JSON."""
    known, found = described(known)
    return object_of(known, [each for name, field in found.items() for each in ((name, field), (f"{name}_text", json.dumps(field)))])


FORMS = {"table": (HEADER, as_column), "objects": (b"", as_object)}


def laid(folder, form, table):
    """A file of this form, which says of 2082 what a station's table says of 2108."""
    head, written = FORMS[form]
    (folder / form).write_bytes(head + b"".join(written(fields_of_row(row)) for row in table.splitlines(keepends=True)[1:]))
    return folder / form


@pytest.fixture(params=FORMS)
def form(request):
    return request.param


def test_sinks(servers, folder, form):
    """Databases have each row once, with the quantities in their views, and the broker the last values."""
    path, base = laid(folder, form, Month(cycles=4, noise=2e-6, bad={8: (range(2, 4), "refused")}).table()), folder / "described.db"
    for follower in followers(servers, base, f"described/{form}"):
        messages_of(follower.command(path, "--once"))
    expect_sqlite(base, path)
    expect_postgres(servers, path)
    expect_retained(servers.broker_port, path, f"described/{form}")
    # Two targets in two faces and four cycles, and a third in two cycles of them.
    query = f"SELECT count(hz_rad), count(v_rad), count(distance_m) FROM {{}} WHERE procedure = {RPC}"
    with closing(sqlite3.connect(base)) as table:
        assert [table.execute(query.format(view)).fetchone() for view in ("measured", "latest")] == [(20, 20, 20)] * 2
    assert [servers.ask(f"{query.format(view)} AND source = %s", str(path))[0] for view in ("measured", "latest")] == [(20, 20, 20)] * 2


def test_views_of_an_earlier_version(servers, folder):
    """A database whose views know no further columns gets views that do."""
    path, base = laid(folder, "table", Month(cycles=2).table()), folder / "earlier.db"
    commands = [one.command(path, "--once") for one in followers(servers, base)[:2]]
    for command in commands:
        messages_of(command)
    earlier = "SELECT source, line, NULL AS hz_rad FROM record"
    with closing(sqlite3.connect(base)) as table:
        for view in "measured", "latest":
            table.execute(f"DROP VIEW {view}")
            table.execute(f"CREATE VIEW {view} AS {earlier}")
    for view in "measured", "latest":
        found = servers.ask("SELECT pg_get_viewdef(to_regclass(%s))", view)[0][0]
        servers.order(f"CREATE OR REPLACE VIEW {view} AS " + found.replace("'pairs'", "'none'").replace("'hz_rad'", "'none'"))
        assert servers.ask(f"SELECT count(hz_rad) FROM {view} WHERE source = %s", str(path)) == [(0,)]
    for command in commands:
        messages_of(command)
    expect_sqlite(base, path)
    expect_postgres(servers, path)


def test_cycles_at_a_broker(servers, folder, form):
    """That a procedure measures directions is still known at the next start."""
    head, written = FORMS[form]
    path, top = folder / "values", f"described/{form}"
    rows = [written(fields(cycle, 7, NOW, answer)) for cycle, answer in enumerate([GOOD, REFUSED, REFUSED], 1)]
    for count in 1, 3:
        path.write_bytes(head + b"".join(rows[:count]))
        messages_of(tool("to-mqtt", path, top, "--port", servers.broker_port, "--once"))
    found = cycle_of(servers.broker_port, top)
    assert (found["cycle"], found["measured"], found["unmeasured"]) == (2, [], ["7"])


def test_a_view_that_was_changed_stays(servers, folder):
    """PostgreSQL can't replace a view that has other columns: it stays, and the rows go on."""
    path = laid(folder, "table", Month(cycles=1).table())
    command = tool("to-postgres", path, servers.where(), "--once")
    messages_of(command)
    servers.order("DROP VIEW measured", "CREATE VIEW measured AS SELECT source, line, 1 AS mine FROM record")
    try:
        laid(folder, "table", Month(cycles=2).table())
        messages_of(command)
        assert servers.ask("SELECT max(mine) FROM measured") == [(1,)]
    finally:
        servers.order("DROP VIEW measured")
    messages_of(command)
    expect_postgres(servers, path)


def test_reductions_and_pictures(servers, folder, form):
    """What the rows come to is what those of 2108 come to, but for the procedure; and a table of reductions has directions in its views."""
    table, site = Month(cycles=3, noise=2e-6).table(), folder / "site"
    site.write_text(SITE, encoding="utf-8")
    (folder / "plain").write_bytes(table)
    path = laid(folder, form, table)
    plainly, found = (ended(tool("reduce", each, site), patience=60).output for each in (folder / "plain", path))
    assert plainly.count(b"\n") == 1 + 3 * 3
    assert found == plainly.replace(b",2108,", b",2082,")
    assert drawn.read(path) == drawn.read(folder / "plain") and drawn.read(path)[0].series.keys() == {"hz_rad", "v_rad", "distance_m"}
    messages_of(tool("plot", path, folder / "pictures"))
    (folder / "reduced").write_bytes(found)
    base = folder / "reduced.db"
    for follower in followers(servers, base)[:2]:
        messages_of(follower.command(folder / "reduced", "--once"))
    expect_sqlite(base, folder / "reduced")
    expect_postgres(servers, folder / "reduced")
    with closing(sqlite3.connect(base)) as rows:
        assert rows.execute(f"SELECT count(hz_rad), count(distance_m) FROM latest WHERE procedure = {RPC}").fetchone() == (9, 9)
    assert all(row.fields["procedure"] == RPC for row in rows_of(folder / "reduced"))


def test_alarms(folder, form):
    """Limits are for the quantities as for those of the table, turned over in face II, and for a new column by its name. A silence ends with
    a described measurement."""
    answers = ["2.0,1.5,50.0", "5.1415926536,4.7831853072,50.0", "2.0,1.5,50.1"]
    rows = [fields(cycle, 7, NOW, (values, "ok", 0)) for cycle, values in enumerate(answers, 1)]
    head, written = FORMS[form]
    (folder / "values").write_bytes(head + b"".join(map(written, rows)))
    (folder / "limits").write_text("target,column,reference,tolerance,outside,of\n" + "".join(
        f"7,{limit},1,1\n" for limit in ("hz_rad,2,0.0001", "v_rad,1.5,0.0001", "distance_m,50,0.05", "cross_rad,0,0.000001")), encoding="utf-8")
    found = ended(tool("alarm", folder / "values", folder / "limits", folder / "state", "--repeat", "--once"), patience=60)
    said = [line.split(": ", 1)[1].split(",")[0] for line in found.output.decode().splitlines()]
    assert said == ["cross_rad is 0.00001", "cross_rad is 0.00001", "distance_m is 50.1", "cross_rad is 0.00001"], found
    watch, table = limits.Watch(), limits.limits_of("target,column,reference,tolerance,outside,of\n7,silence,,,,2\n")
    taken = Table(HEADER[:-1], []) if form == "table" else None
    for cycle, answer in enumerate([GOOD, REFUSED, REFUSED, REFUSED, GOOD, GOOD], 1):
        row = as_column(fields(cycle, 7, NOW, answer)) if taken else as_object(fields(cycle, 7, NOW, answer))
        lines = watch.take(table, taken.row(row[:-1]) if taken else rows_of_line(folder, row))
        assert bool(lines) == (cycle in (4, 6)), (cycle, lines)
    assert watch.measured == ["7"]


def rows_of_line(folder, row):
    """The fields of an object."""
    (folder / "one").write_bytes(row)
    return rows_of(folder / "one")[0].fields


@pytest.mark.parametrize("answer, said", [
    (lambda cycle, target: GOOD, "OK: last row 20 s ago; targets: 2, oldest measurement: 7 (pier 7), 20 s ago"),
    (lambda cycle, target: REFUSED if target == 8 and cycle > 10 else GOOD,
     "WARNING: 1 of 2 not measured within 100 s; targets: 2, oldest measurement: 8 (pier 8), 110 s ago or more; last row 20 s ago"),
    (lambda cycle, target: REFUSED if cycle > 38 else GOOD, "OK: last row 20 s ago; targets: 2, oldest measurement: 7 (pier 7), 40 s ago"),
    (lambda cycle, target: REFUSED if cycle > 35 else GOOD, "OK: last row 20 s ago; targets: 2, oldest measurement: 7 (pier 7), 70 s ago"),
    (lambda cycle, target: REFUSED if cycle > 10 else GOOD,
     "CRITICAL: 2 of 2 not measured within 100 s; targets: 2, oldest measurement: 7 (pier 7), 320 s ago or more; last row 20 s ago"),
    (lambda cycle, target: REFUSED, "OK: last row 20 s ago; no target with a measurement"),
])
def test_alive(folder, form, answer, said):
    """A target that is measured by a described procedure is asked for, also if no answer of the last two cycles has a direction: then rows
    further back say which procedure measures."""
    head, written = FORMS[form]
    rows = [fields(cycle, target, NOW - datetime.timedelta(seconds=20 + (40 - cycle) * 10), answer(cycle, target), name=f"pier {target}")
            for cycle in range(1, 41) for target in (7, 8)]
    path = folder / "values"
    path.write_bytes(head + b"".join(map(written, rows)))
    assert at_noon(path) == said


def test_pages(folder, form):
    """On a page a target that is measured by a described procedure isn't good by what it is asked besides, also if for two days no answer
    had a direction."""
    head, written = FORMS[form]
    rows = []
    for cycle in range(1, 81):
        moment = NOW - datetime.timedelta(hours=81 - cycle)
        for place, (target, procedure) in enumerate([(7, "9027"), (7, "2108"), (8, "9027"), (8, "2108"), (9, "5003")]):
            answer = REFUSED if procedure == "2108" and (target == 8 or cycle > 32) else GOOD
            row = fields(cycle, target, moment, answer) | {"step": str(place), "procedure": procedure}
            rows.append(row if procedure == "2108" else row | {"values": ""})
    (folder / "rows").write_bytes(head + b"".join(map(written, rows)))
    station = viewed.Station("north", folder / "rows", folder / "reduced", folder / "limits", folder / "site", 31)
    station.look(NOW.timestamp())
    assert not station.faults and [target.number for target in station.measured()] == ["7", "8"]
    # The last good one is of cycle 32, and target 8 has none.
    assert [target.good and NOW.timestamp() - target.good for target in station.measured()] == [49 * 3600, None]


def test_a_table_without_columns_has_none(folder):
    """In a table without columns such a row is one without quantities, as a raw one is."""
    path = folder / "values"
    path.write_bytes(HEAD + b"".join(line_of(described(fields_of_row(row))[0]) for row in Month(cycles=2).table().splitlines(keepends=True)[1:]))
    messages_of(tool("to-sqlite", path, folder / "plain.db", "--once"))
    with closing(sqlite3.connect(folder / "plain.db")) as table:
        assert table.execute(f"SELECT count(*), count(hz_rad) FROM measured WHERE procedure = {RPC}").fetchone() == (12, 0)
    assert not any(target.series for target in drawn.read(path))
