"""Chains that are sent twice, under `agree`: what is unconfirmed, or in disagreement, is no measurement for any follower."""

import sqlite3
from contextlib import closing

import drawn
import pytest
from programs import ended
from records import HEAD, line_of
from sinks import messages_of, rows_of, tool
from test_alarms import laid, lines_of, row
from test_alive import NOW, at_noon, rows
from test_alive import laid as laid_rows
from test_silence import fields
from two_faces import SITE, Month

OUTSIDE, WITHIN = "2,1.5,50.1", "2,1.5,50"


def tables():
    """A month whose chains are sent twice, of which some targets disagree at times, and what counts of it."""
    return Month(cycles=6, noise=2e-6, bad={8: (range(3, 5), "disagree")}).tables_of_agreeing()


def test_the_second_sending_counts(folder):
    """Reductions, pictures and the view `latest` have what a file of the second sendings alone has."""
    site = folder / "site"
    site.write_text(SITE, encoding="utf-8")
    for name, table in zip(("both", "last"), tables()):
        (folder / name).write_bytes(table)
        messages_of(tool("to-sqlite", folder / name, folder / f"{name}.db", "--once"))
    both, last = (ended(tool("reduce", folder / name, site), patience=60).output for name in ("both", "last"))
    assert both == last and both.count(b"\n") == 1 + 6 * 3
    messages_of(tool("reduce", folder / "both", site, "--append", folder / "made", "--once"))
    assert (folder / "made").read_bytes() == last
    assert drawn.read(folder / "both") == drawn.read(folder / "last")
    assert drawn.read(folder / "both")[1].marks.keys() == {"disagree"}
    found = []
    for name in "both", "last":
        with closing(sqlite3.connect(folder / f"{name}.db")) as table:
            found.append([table.execute(f"SELECT cycle, step, attempt, hz_rad, v_rad, distance_m FROM {view} ORDER BY cycle, step, attempt").fetchall()
                          for view in ("measured", "latest")])
    assert found[0] == found[1] and found[0][0] == found[0][1]
    with closing(sqlite3.connect(folder / "both.db")) as table:
        assert table.execute("SELECT count(*) FROM record").fetchone()[0] == len(rows_of(folder / "both")) == 2 * 6 * 3 * 6


def test_a_first_sending_alone(folder):
    """A run that ends before the second one: the rows are there, and none is a value."""
    table, _ = tables()
    (folder / "values").write_bytes(HEAD + b"".join(table.splitlines(keepends=True)[1:4]))
    messages_of(tool("to-sqlite", folder / "values", folder / "values.db", "--once"))
    with closing(sqlite3.connect(folder / "values.db")) as base:
        assert [base.execute(f"SELECT count(*) FROM {name}").fetchone()[0] for name in ("record", "measured", "latest")] == [3, 0, 0]
    target, = drawn.read(folder / "values")
    assert not target.series and list(target.marks) == ["unconfirmed"]


@pytest.mark.parametrize("second, many", [
    ({"values": OUTSIDE, "quality": "ok"}, 1), ({"values": WITHIN, "quality": "ok"}, 0), ({"values": OUTSIDE, "quality": "", "outcome": "disagree"}, 0), (None, 0)])
def test_alarms(folder, second, many):
    """An unconfirmed value raises no alarm, and neither does one that its second sending disagrees with."""
    data = row(1, 7, WITHIN) + row(2, 7, OUTSIDE, "unconfirmed")
    data += row(2, 7, attempt=2, **second) if second else b""
    assert len(lines_of(laid(folder, "7,distance_m,50,0.05,1,1\n", data + row(3, 8, WITHIN)))) == many


def test_silence(folder):
    """What is unconfirmed ends no silence."""
    data = b"".join(row(cycle, 7, WITHIN, "ok" if cycle == 1 else "unconfirmed") for cycle in range(1, 5))
    assert [line.rsplit(" ", 1)[1] for line in lines_of(laid(folder, "7,silence,,,,2\n", data))] == ["3"]


def test_alive(folder):
    """What is unconfirmed, or in disagreement, is no measurement."""
    for more in {"quality": "unconfirmed"}, {"outcome": "disagree", "quality": ""}:
        data = rows(10, 10, (7,), ago=110, end=NOW)
        data += [line_of({**fields(cycle, 7, NOW), **more}) for cycle in range(11, 20)]
        assert at_noon(laid_rows(folder, data)).startswith("CRITICAL: 1 of 1 not measured"), more
