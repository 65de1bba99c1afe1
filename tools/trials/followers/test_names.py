"""Names, values and topics that mean something to the library that they are handed to: they are taken as they are, or refused in one
line."""

import csv
import io
import json
import os
import random
import subprocess
from html import unescape

import pytest
from growing import first_rows, row
from programs import ended, free_port
from records import COLUMNS, HEAD
from servers import Listening
from sinks import TOP, expect_retained, level, messages_of, tool
from two_faces import SITE, Month

# Formulas of matplotlib, right and wrong, marks of XML and of Python's formats, and two words at which a label is divided.
NAMES = ["$_$", "x_{$ $}", "A$1 B$2", "a -- <b>&amp;", r"\frac{%s {x}", "_one: two: three", "%2F/+#"]
NOBODY = "nobody reads standard output"


def named(rows, names):
    """The rows of a table, whose targets are these names' places."""
    text = io.StringIO()
    table = csv.writer(text, lineterminator="\n")
    for number, line in enumerate(rows):
        fields = dict(zip(COLUMNS, next(csv.reader([line.decode()]))))
        place = number % len(names)
        table.writerow({**fields, "target": place, "name": names[place]}[column] for column in COLUMNS)
    return HEAD + text.getvalue().encode()


def valued(values, column="values"):
    """A table of two rows that were answered well, with these values."""
    fields = dict(zip(COLUMNS, next(csv.reader([row(random.Random(5), 2).decode()]))))
    fields |= {"procedure": "2108", "outcome": "answered", "fault": "", "rc_com": "0", "rc": "0", "quality": "ok", column: values}
    text = io.StringIO()
    csv.writer(text, lineterminator="\n").writerows([fields[name] for name in COLUMNS] for _ in range(2))
    return HEAD + text.getvalue().encode()


def test_draws_names_as_they_are(folder):
    """A name is no formula: what is drawn, as a comment of the SVG says it, is the name itself."""
    path, drawn = folder / "values.csv", folder / "drawn"
    path.write_bytes(named(first_rows(20 * len(NAMES)), NAMES))
    status, output, messages = ended(tool("plot", path, drawn), patience=600)
    assert (status, messages) == (0, "")
    assert len(output.splitlines()) == 2 * len(NAMES) + 2
    for place, name in enumerate(NAMES):
        text = unescape((drawn / f"target-{place}.svg").read_text(encoding="utf-8"))
        # No comment has two hyphens in a row.
        assert f"target {place}: {name}".replace("--", "- -") in text, name


@pytest.mark.parametrize("values", ["1e999,1.5,50", "x,4.75,50", "1e13,1e13,1e13", "1e300,1.5,1e300", "1e-999,1.5,50"])
def test_draws_what_has_a_place(folder, values):
    """Numbers that are none, or larger than any of the protocol: the others are drawn."""
    (folder / "values.csv").write_bytes(valued(values))
    status, output, messages = ended(tool("plot", folder / "values.csv", folder / "drawn"), patience=600)
    assert (status, len(output.splitlines()), messages) == (0, 4, "")


def test_a_reader_that_goes_away(folder):
    """One line says that nobody reads standard output, with status 1; all pictures are drawn."""
    month, site, limits = folder / "values.csv", folder / "site", folder / "limits"
    month.write_bytes(Month(cycles=30).table())
    site.write_text(SITE, encoding="utf-8")
    limits.write_text("target,column,reference,tolerance,outside,of\n7,distance_m,1,0.05,1,1\n", encoding="utf-8")
    for words in ["reduce", month, site], ["plot", month, folder / "drawn"], ["alarm", month, limits, folder / "state", "--once"]:
        # With and without a buffer of Python's own.
        for more in {"PYTHONUNBUFFERED": "1"}, {}:
            reading, writing = os.pipe()
            os.close(reading)
            others = {name: value for name, value in os.environ.items() if name != "PYTHONUNBUFFERED"}
            run = subprocess.run(tool(*words), stdout=writing, stderr=subprocess.PIPE, text=True, timeout=600, check=False, env=others | more)
            os.close(writing)
            assert (run.returncode, run.stderr) == (1, f"{words[0]}: {NOBODY}\n"), f"{words[0]}, {more}"
    assert len(list((folder / "drawn").iterdir())) == 8


@pytest.mark.parametrize("topic", ["site/#", "site/+", "+", "a+b", "$SYS/x", "$share/x/y", "", "site\n", "site\udcff", pytest.param("x" * 40000, id="long")])
def test_refuses_a_topic(folder, topic):
    """A topic below which no row can be published is refused in one line, also without --once, and no broker is asked."""
    (folder / "values.csv").write_bytes(HEAD + b"".join(first_rows(3)))
    for words in ["--once"], []:
        messages = messages_of(tool("to-mqtt", folder / "values.csv", topic, "--port", free_port(), *words), 1)
        assert messages.startswith("to-mqtt: TOPIC ") and messages.count("\n") == 1, messages


def test_refuses_no_broker(folder):
    """What can't be the place of a broker, or its password, is refused in one line."""
    path = folder / "values.csv"
    path.write_bytes(HEAD + b"".join(first_rows(3)))
    for words, why in [
        (["--port", "0"], "0 is no port"), (["--port", "70000"], "70000 is no port"), (["--host", ""], "is no host"),
        (["--host", "a" * 64 + ".b"], "is no host"),
        (["--user", "x", "--password-file", folder / "none"], f"{folder}/none: No such file or directory"),
    ]:
        messages = messages_of(tool("to-mqtt", path, TOP, *words), 1)
        assert messages.startswith("to-mqtt: ") and why in messages and messages.count("\n") == 1, messages


def test_publishes_names_as_they_are(servers, folder):
    """Each name is a level of its own. A message is JSON, which has no infinite number; a name too long for a topic is refused with its
    row, and what is before it is published."""
    path, top = folder / "names.csv", "names/of"
    path.write_bytes(named(first_rows(20 * len(NAMES)), NAMES))
    messages_of(tool("to-mqtt", path, top, "--port", servers.broker_port, "--once"))
    expect_retained(servers.broker_port, path, top)
    path = folder / "large.csv"
    path.write_bytes(valued("1e999,1.5," + 60 * "9"))
    messages_of(tool("to-mqtt", path, "large", "--port", servers.broker_port, "--once"))
    path = folder / "long.csv"
    path.write_bytes(valued("1,1.5,50") + valued(70_000 * "x", "name").split(b"\n", 1)[1])
    messages = messages_of(tool("to-mqtt", path, "long", "--port", servers.broker_port, "--once"), 1)
    assert messages == "to-mqtt: row 3 has a name too long for a topic\n"
    with Listening(servers.broker_port, ["large/target/#", "long/target/#"]) as listening:
        listening.client.publish("large/target/end", "{}", qos=1).wait_for_publish(5)
    found = {topic: json.loads(text, parse_constant=pytest.fail) for topic, text in listening.came}
    assert {topic.split("/")[0] for topic in found} == {"large", "long"}
    large = next(fields for topic, fields in found.items() if topic.startswith("large") and topic.endswith("/2108"))
    assert "hz_rad" not in large and (large["v_rad"], large["distance_m"]) == (1.5, float(60 * "9"))


def test_a_message_that_is_no_place(servers, folder):
    """Where another program wrote what the broker keeps of a file, that is reported in one line."""
    path = folder / "values.csv"
    path.write_bytes(HEAD + b"".join(first_rows(3)))
    for number, text in enumerate(["x", "[]", "{}", '{"bytes": "x", "rows": 0, "sha256": ""}', '{"bytes": -1, "rows": 0, "sha256": ""}']):
        with Listening(servers.broker_port, ["nothing"]) as other:
            other.client.publish(f"other{number}/followed/{level(str(path))}", text, qos=1, retain=True).wait_for_publish(5)
        command = tool("to-mqtt", path, f"other{number}", "--port", servers.broker_port)
        # A place without its members is that of a file of which nothing was taken.
        messages = messages_of([*command, *(["--once"] if text == "{}" else [])], text != "{}")
        assert messages.count("\n") == (text != "{}") and ("says of no file" in messages) == (text != "{}"), messages


def test_any_encoding_of_a_database(servers, folder):
    """A database in another encoding takes each name that it has a place for, and refuses others in one line."""
    path = folder / "values.csv"
    path.write_bytes(HEAD + b"".join(first_rows(3)))
    for encoding, names in ("SQL_ASCII", [("north", True), ("nörd", True), ("", True)]), ("LATIN1", [("nörd", True), ("север", False)]):
        subprocess.run(["createdb", "-h", "127.0.0.1", "-p", str(servers.port), "-U", "geocom", "-E", encoding, "-T", "template0", "--locale=C",
                        encoding.lower()], check=True)
        where = servers.where().replace("dbname=postgres", f"dbname={encoding.lower()}")
        for name, is_taken in names:
            messages = messages_of(tool("to-postgres", path, where, "--as", name, "--once"), not is_taken)
            assert messages.count("\n") == (not is_taken), messages
