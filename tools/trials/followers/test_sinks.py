"""Sinks that are away for a while, SQLite's own import, the unit of systemd that names a file of rows, and pictures."""

import shlex
import signal
import sqlite3
import sys
import time
import xml.dom.minidom
from contextlib import ExitStack, closing

from growing import Growing, first_rows
from programs import Run, ended, free_port
from records import HEAD
from sinks import TOOLS, expect_postgres, expect_retained, expect_sqlite, followers, messages_of, tool


def test_waits_where_the_sink_is_away(servers, folder, note):
    """A sink that is away is reported, and its rows come once it is there again."""
    path, base = folder / "away.csv", folder / "away.db"
    messages_of(tool("to-sqlite", path, base, "--once"), 1)
    grows = Growing(path, 8, 0.02, 5)
    with ExitStack() as stack:
        stack.callback(grows.end)
        runs = [stack.enter_context(Run(one.command(path, "--rest", "0.05"))) for one in followers(servers, base)]
        time.sleep(2)
        take_away(servers, base)
        grows.end()
        time.sleep(3)
        for run in runs:
            run.terminate()
        messages = [run.messages() for run in runs]
    expect_sqlite(base, path)
    expect_postgres(servers, path)
    expect_retained(servers.broker_port, path)
    # The broker was away twice.
    for text, count in zip(messages, [1, 1, 2]):
        assert 1 <= text.count("the sink is away") <= count + 1, text
        assert text.count("there again") == text.count("is away"), text
    note(f"{grows.rows} rows, none missing")


def test_a_refused_login_is_no_sink_away(servers, folder):
    """It ends with a line of its own, also without `--once`; a port at which nobody listens is a sink that is away."""
    path = folder / "refused.csv"
    path.write_bytes(HEAD + b"".join(first_rows(3)))
    for where, why in [(servers.where().replace("user=geocom", "user=nobody"), 'role "nobody" does not exist'),
                       (servers.where().replace("dbname=postgres", "dbname=other"), 'database "other" does not exist')]:
        messages = messages_of(tool("to-postgres", path, where), 1)
        assert messages.startswith("to-postgres: the login is refused: ") and why in messages and messages.count("\n") == 1, messages
    nowhere = servers.where().replace(str(servers.port), str(free_port()))
    assert messages_of(tool("to-postgres", path, nowhere, "--once"), 1).startswith("to-postgres: the sink is away: ")


def take_away(servers, base):
    """Takes the three sinks away for a while, and the broker once more, which forgets what it didn't save yet."""
    with closing(sqlite3.connect(base, isolation_level=None, timeout=10)) as other:
        # Another writer holds SQLite for longer than the follower waits.
        other.execute("BEGIN IMMEDIATE")
        servers.end_base(signal.SIGQUIT)
        servers.end_broker()
        time.sleep(6)
        other.execute("ROLLBACK")
    servers.begin_base()
    servers.begin_broker()
    time.sleep(2)
    servers.end_broker(signal.SIGKILL)
    servers.begin_broker()
    time.sleep(2)


def test_a_unit_names_its_file(folder):
    """The unit appends to NAME.csv, and where its `.conf` has a line FILE= to that file: so a file of objects is called NAME.jsonl."""
    unit = folder / "geocom-station@.service"
    text = (TOOLS.parent / "packaging/systemd" / unit.name).read_text(encoding="utf-8")
    unit.write_text(text.replace("/etc/geocom", str(folder)), encoding="utf-8")
    for more, name in [("", "north.csv"), ("FILE=north.jsonl\n", "north.jsonl"), ("FILE=north-%Y-%m.jsonl\n", "north-%Y-%m.jsonl")]:
        (folder / "north.conf").write_text(f"WHERE=4001\nWORDS=--json --cycles unlimited\n{more}", encoding="utf-8")
        status, output, messages = ended([sys.executable, TOOLS / "unit_line.py", unit, "north"])
        assert status == 0, messages
        words = shlex.split(output.decode())
        wanted = ["station", "4001", "--json", "--cycles", "unlimited", "--append", f"/var/lib/geocom/{name}", "--fsync"]
        *given, asks, now, until, stop = words[words.index("station") : -2]
        assert (given, asks, until) == (wanted, "--now", "--until"), "the words of the unit"
        assert now.endswith("/geocom-station-north/now") and stop.endswith("/geocom-station-north/stop"), "the files of the unit"


def test_draws_each_target(folder, note):
    """The pictures of each target, as PNG and SVG; half a row at the end is left out."""
    path, drawn = folder / "drawn.csv", folder / "drawn"
    path.write_bytes(HEAD + b"".join(first_rows(450)) + b"2026-11-24T2")
    status, output, messages = ended(tool("plot", path, drawn), patience=600)
    assert status == 0, messages
    assert sorted(output.decode().splitlines()) == sorted(map(str, drawn.iterdir())), "the files that it tells"
    names = [f"{name}.{kind}" for name in ("site", "target-7", "target-8", "target-9") for kind in ("png", "svg")]
    assert sorted(one.name for one in drawn.iterdir()) == names, "the files"
    for target in 7, 8, 9:
        assert (drawn / f"target-{target}.png").read_bytes().startswith(b"\x89PNG\r\n"), "it is no PNG"
        text = (drawn / f"target-{target}.svg").read_text(encoding="utf-8")
        xml.dom.minidom.parseString(text)
        for word in "horizontal direction", "slope distance", "µrad", "UTC", "lost (", "skipped (", "missed (", "late (":
            assert word in text, f"the picture of target {target}"
    note("8 pictures")


def test_imports_without_a_follower(folder):
    """SQLite's own `.import` reads the file as it is."""
    path, base = folder / "import.csv", folder / "import.db"
    path.write_bytes(HEAD + b"".join(first_rows(100)))
    messages_of(["sqlite3", base, ".mode csv", f".import {path} record"])
    # Such a table is none of the follower's, which leaves it as it is.
    messages = messages_of(tool("to-sqlite", path, base, "--once"), 1)
    assert messages.count("\n") == 1 and "the database: table record has no column named source" in messages
    with closing(sqlite3.connect(base)) as table:
        table.text_factory = bytes
        assert table.execute("SELECT count(*) FROM record").fetchone()[0] == 100
