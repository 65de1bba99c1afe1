"""What `alive` says of a file's end, each status, and what it sends to systemd: to a socket of the trial's own."""

import datetime
import json
import os
import re
import signal
import socket
import subprocess
import time
from contextlib import contextmanager

import freshness
import pytest
from programs import ended, until
from records import COLUMNS, HEAD, NUMBERS, line_of
from sinks import tool
from test_silence import GOOD, REFUSED, fields, now


# The fake clock's moment.
NOW = datetime.datetime(2026, 11, 24, 12, tzinfo=datetime.timezone.utc)


def rows(cycles, every, targets=(7, 8), ago=0, answer=lambda cycle, target: GOOD, name="pier", end=None):
    """The rows of cycles, of which the last one ended so many seconds before a moment, or now."""
    return [line_of(fields(cycle, target, (end or now()) - datetime.timedelta(seconds=ago + (cycles - cycle) * every), answer(cycle, target),
                           name=f"{name} {target}")) for cycle in range(1, cycles + 1) for target in targets]


def said(path, *words, within=1000):
    """The status and the line of a look; nothing is on standard error."""
    found = ended(tool("alive", path, "--within", within, *words), patience=60)
    assert found.messages == "" and found.output.count(b"\n") == 1, found
    line = found.output.decode().strip()
    assert line.split(":")[0] == freshness.WORDS[found.status], line
    return found.status, line


def at_noon(path, within=100, measured=None, left_out=()):
    """The same by the fake clock, as a line."""
    status, line, _, _ = freshness.judged(path, NOW, within, measured or within, left_out)
    return f"{freshness.WORDS[status]}: {line}"


def laid(folder, data, head=HEAD):
    path = folder / "values.csv"
    path.write_bytes(head + (data if isinstance(data, bytes) else b"".join(data)))
    return path


def test_each_status(folder):
    """0 where rows and measurements are young, 1 where a target's isn't, 2 where none is or no row comes, and 3 where nobody knows."""
    gone = {"answer": lambda cycle, target: REFUSED if target == 8 and cycle > 10 else GOOD}
    none = {"answer": lambda cycle, target: REFUSED if cycle > 10 else GOOD}
    never = {"answer": lambda *_: REFUSED}
    for data, words, line in [
        (rows(40, 10, ago=20, end=NOW), {}, "OK: last row 20 s ago; targets: 2, oldest measurement: 7 (pier 7), 20 s ago"),
        (rows(40, 10, ago=100, end=NOW), {}, "OK: last row 100 s ago; targets: 2, oldest measurement: 7 (pier 7), 100 s ago"),
        (rows(40, 10, ago=101, end=NOW), {}, "CRITICAL: no row for 101 s (100 allowed); targets: 2, oldest measurement: 7 (pier 7), 101 s ago"),
        (rows(40, 10, ago=20, end=NOW, **gone), {},
         "WARNING: 1 of 2 not measured within 100 s; targets: 2, oldest measurement: 8 (pier 8), 110 s ago or more; last row 20 s ago"),
        (rows(40, 10, ago=20, end=NOW, **gone), {"left_out": ["9", "8"]}, "OK: last row 20 s ago; targets: 1, oldest measurement: 7 (pier 7), 20 s ago"),
        (rows(40, 10, ago=20, end=NOW, **gone), {"measured": 320}, "OK: last row 20 s ago; targets: 2, oldest measurement: 8 (pier 8), 320 s ago"),
        (rows(40, 10, ago=20, end=NOW, **gone), {"measured": 319},
         "WARNING: 1 of 2 not measured within 319 s; targets: 2, oldest measurement: 8 (pier 8), 320 s ago or more; last row 20 s ago"),
        (rows(40, 10, ago=20, end=NOW, **none), {},
         "CRITICAL: 2 of 2 not measured within 100 s; targets: 2, oldest measurement: 7 (pier 7), 110 s ago or more; last row 20 s ago"),
        (rows(40, 10, ago=20, end=NOW, **none), {"left_out": ["7", "8"]}, "OK: last row 20 s ago; no target with a measurement"),
        (rows(40, 10, ago=-60, end=NOW), {}, "UNKNOWN: the clock is 60 s before the last row: it was set back, or the row's is ahead"),
        (rows(40, 10, ago=-4, end=NOW), {}, "OK: last row 0 s ago; targets: 2, oldest measurement: 7 (pier 7), 0 s ago"),
        (rows(3, 10, ago=1, end=NOW, **never), {}, "OK: last row 1 s ago; targets: 2, oldest measurement: 7 (pier 7), never in this file"),
        (rows(2, 20, ago=90, end=NOW, **never), {},
         "CRITICAL: 2 of 2 not measured within 100 s; targets: 2, oldest measurement: 7 (pier 7), never in this file; last row 90 s ago"),
    ]:
        assert at_noon(laid(folder, data), **words) == line


def test_the_status_of_the_command(folder):
    """Its words reach what decides, and it ends with the status."""
    gone = {"answer": lambda cycle, target: REFUSED if target == 8 and cycle > 10 else GOOD}
    data = rows(400, 30, ago=20, **gone)
    for words, status in [([], 1), (["--except", "9", "08"], 0), (["--measured", "40000"], 0), (["--measured", "2000", "--except", "8"], 0)]:
        assert said(laid(folder, data), *words)[0] == status
    assert said(laid(folder, rows(40, 10, ago=1200)))[0] == 2 and said(laid(folder, rows(40, 10, ago=-200)))[0] == 3


def test_what_is_no_measurement(folder):
    """Off target, a value that is missing, the face and the temperature; a row of the setup is none of a cycle."""
    def moment(cycle):
        return NOW - datetime.timedelta(seconds=200 - 10 * cycle)

    for more in {"outcome": "off_target", "quality": ""}, {"values": "2,1.5"}, {"values": "x,1.5,50"}, {"procedure": 2026, "values": "0"}, {"procedure": 5011, "values": "21.0"}:
        data = rows(10, 10, (7,), ago=110, end=NOW)
        for cycle in range(11, 20):
            other = {name: str(field) for name, field in more.items()}
            data += [line_of(fields(cycle, 7, moment(cycle), REFUSED)), line_of({**fields(cycle, 7, moment(cycle)), "step": "9", **other})]
        assert at_noon(laid(folder, data)).startswith("CRITICAL: 1 of 1 not measured"), more
    data = rows(10, 10, (7,), ago=110, end=NOW) + [line_of({**fields(0, 9, NOW), "attempt": str(attempt)}) for attempt in range(1, 9)]
    assert at_noon(laid(folder, data)).startswith("CRITICAL: no row for 110 s")


def test_files_that_say_nothing(folder):
    """Each has one line: no file, no row yet, half a row, another form, no rows at all, a folder."""
    path = laid(folder, b"")
    assert re.fullmatch(re.escape(f"WARNING: {path} has no row of a cycle yet; it was changed ") + "[0-9] s ago", said(path)[1])
    os.utime(path, (time.time() - 1001,) * 2)
    assert re.fullmatch(re.escape(f"CRITICAL: {path} has no row of a cycle yet; it was changed ") + "10[0-9][0-9] s ago", said(path)[1])
    for data in b"", HEAD[:20], HEAD + b"2026-11-2":
        assert said(laid(folder, data, b""))[0] == 1
    assert said(laid(folder, rows(5, 10) + [b"2026-11-24T00:0"]))[0] == 0
    for head, data, why in [
        (b"a,b\n", [], "has no column"), (b"x" * 70000, [], "has no column"), (HEAD, [*rows(3, 10), b"no row\n"], "a line near its end is no row"),
        (HEAD, [*rows(3, 10), b"\0" * 70000], "has no line feed in its last 65536 bytes"), (HEAD, [b"x" * 200_000, b"\n"], "line of more than"),
        (b'"\n', [], "doesn't begin"),
    ]:
        status, line = said(laid(folder, data, head))
        assert status == 3 and str(path) in line and why in line, line
    assert said(folder / "none") == (2, f"CRITICAL: {folder / 'none'} isn't there")
    assert said(folder) == (3, f"UNKNOWN: {folder}: Is a directory")
    os.mkfifo(folder / "pipe")
    assert said(folder / "pipe") == (3, f"UNKNOWN: {folder / 'pipe'} is no regular file")


def test_any_form_and_name(folder):
    """Objects of JSON, and names that mean something to a monitor."""
    name = "$x_{1}|a ;'`"
    lines = []
    for line in rows(5, 10, (7,), ago=10):
        row = dict(zip(COLUMNS, line.decode().split(",")))
        row = fields(int(row["cycle"]), 7, now(50 - 10 * int(row["cycle"])), name=name)
        lines.append(json.dumps({column: int(field) if column in NUMBERS else field for column, field in row.items() if field}).encode() + b"\n")
    status, line = said(laid(folder, lines, b""))
    assert status == 0 and "7 ($x_{1} a ;'`), " in line and line.count("|") == 1, line


def test_reads_the_end_alone(folder, note, monkeypatch):
    """Of a file of 69 MB some pieces are read, whatever its beginning; a target that was never measured bounds it, too."""
    path, read = laid(folder, b""), []
    pread = os.pread
    monkeypatch.setattr(freshness.os, "pread", lambda file, count, begin: read.append(count) or pread(file, count, begin))
    with open(path, "ab") as file:
        for _ in range(60):
            file.write(b"no row, but bytes\n" * 60_000)
        file.write(b"".join(rows(2000, 10, (7, 8), end=NOW)))
    assert at_noon(path).startswith("OK: ") and sum(read) <= 2 * freshness.PIECE, read
    with open(path, "ab") as file:
        file.write(b"".join(line_of(fields(cycle, 9, NOW, REFUSED)) for cycle in (2001, 2002)))
    read.clear()
    assert at_noon(path, 1000, 15_000).startswith("CRITICAL: 1 of 1 not measured within 15000 s")
    assert sum(read) < 10 * freshness.PIECE
    note(f"{path.stat().st_size >> 20} MB, {sum(read) >> 10} kB read")


def test_finds_the_file_that_took_its_place(folder):
    """A file that was moved away: the one at the path counts, as for the station."""
    path = laid(folder, rows(5, 10, ago=1500))
    assert said(path)[0] == 2
    path.rename(folder / "values.1")
    assert said(path)[1] == f"CRITICAL: {path} isn't there"
    assert said(laid(folder, rows(1, 10)))[0] == 0


@pytest.mark.parametrize("words", [[], ["--within", "0"], ["--within", "x"], ["--within", "1", "--except", "x"], ["--within", "1", "--other"], ["--within", "nan"]])
def test_misuse_is_unknown(folder, words):
    found = ended(tool("alive", folder / "x", *words), patience=60)
    assert (found.status, found.output) == (3, b"") and "usage: alive" in found.messages and "Traceback" not in found.messages


@contextmanager
def systemd(name):
    """A socket as systemd's, at this name."""
    with socket.socket(socket.AF_UNIX, socket.SOCK_DGRAM) as listening:
        listening.bind("\0" + name[1:] if name.startswith("@") else name)
        listening.settimeout(0.05)
        yield listening


def sent(listening):
    """What came, each message's lines."""
    found = []
    while True:
        try:
            found.append(listening.recv(65536).decode().split("\n"))
        except TimeoutError:
            return found


@contextmanager
def watching(path, name, *words, **more):
    """A watcher in the background, as ExecStartPost= leaves it."""
    with subprocess.Popen(list(map(str, tool("alive", path, *words, "--notify"))), env={**os.environ, "NOTIFY_SOCKET": name, **more}, start_new_session=True,
                          stderr=subprocess.PIPE) as run:
        try:
            assert run.wait(60) == 0
            yield run
        finally:
            os.killpg(run.pid, signal.SIGKILL)


@pytest.mark.parametrize("place", ["@geocom trial ✓", "notify"], ids=["abstract", "path"])
def test_a_watchdog(folder, place):
    """From the start on it has the limit's time; then WATCHDOG=1 comes while rows do, whatever they measured, and no longer. READY=1 comes
    with the first row of this run."""
    name = f"{place}{os.getpid()}" if place.startswith("@") else str(folder / place)
    path = laid(folder, rows(5, 10, ago=5000))
    with systemd(name) as listening, watching(path, name, "--within", "1.5", WATCHDOG_USEC="300000"):
        came = []
        until(lambda: came.extend(sent(listening)) or len(came) > 3, "no message", 20)
        assert all("WATCHDOG=1" in lines and "READY=1" not in lines and lines[0].startswith("STATUS=CRITICAL: no row for 50") for lines in came), came
        begun = time.monotonic()
        while time.monotonic() < begun + 2.5:
            with open(path, "ab") as file:
                file.write(line_of(fields(int(10 * (time.monotonic() - begun)) + 6, 7, now(), REFUSED)))
            time.sleep(0.1)
        came = sent(listening)
        assert all("WATCHDOG=1" in lines for lines in came) and "READY=1" in came[-1] and not any("USEC" in line for lines in came for line in lines), came
        until(lambda: "WATCHDOG=1" not in (sent(listening) or [["WATCHDOG=1"]])[-1], "it is kept fresh", 20)
        with open(path, "ab") as file:
            file.write(line_of(fields(99, 7, now())))
        until(lambda: any("WATCHDOG=1" in lines for lines in sent(listening)), "it doesn't come back", 20)


def test_a_watchdog_without_a_unit_that_bounds_it(folder):
    """It says itself how long systemd is to wait. Without a socket it refuses, and where nobody listens it goes on, with one line."""
    path, name = laid(folder, rows(5, 10)), str(folder / "notify")
    with systemd(name) as listening, watching(path, name, "--within", "40"):
        until(lambda: "WATCHDOG_USEC=60000000" in sum(sent(listening), []), "no bound", 20)
    for more in {}, {"NOTIFY_SOCKET": "vsock:2:1"}:
        found = ended(tool("alive", path, "--within", "1", "--notify"), patience=60, env={**{name: value for name, value in os.environ.items() if name != "NOTIFY_SOCKET"}, **more})
        assert found.status == 3 and found.messages.count("\n") == 1 and "names no socket" in found.messages, found
    with watching(path, str(folder / "nobody"), "--within", "0.4") as run:
        time.sleep(0.8)
        os.killpg(run.pid, signal.SIGTERM)
        assert run.stderr.read().decode() == "alive: NOTIFY_SOCKET: No such file or directory\n"


def test_looks_at_a_clock(folder):
    """Days of a fake clock: what is ahead of it says nothing, but for the last row, which is reported."""
    path = laid(folder, [line_of(fields(cycle, 7, datetime.datetime(2026, 11, 24, tzinfo=datetime.timezone.utc) + datetime.timedelta(minutes=5 * cycle))) for cycle in range(1, 9)])

    def status(minutes, within=1000):
        moment = datetime.datetime(2026, 11, 24, tzinfo=datetime.timezone.utc) + datetime.timedelta(minutes=minutes)
        return freshness.judged(path, moment, within, within)[0]

    assert [status(minutes) for minutes in (0, 39.9, 40, 56, 57, 10_000)] == [3, 3 if freshness.AHEAD < 6 else 0, 0, 0, 2, 2]
    # Set back by an hour, and then a row that measured nothing.
    with open(path, "ab") as file:
        file.write(line_of(fields(9, 7, datetime.datetime(2026, 11, 23, 23, 40, tzinfo=datetime.timezone.utc), REFUSED)))
    assert [status(minutes) for minutes in (-19, -10, 6)] == [2, 2, 2]
    with open(path, "ab") as file:
        file.write(line_of(fields(10, 7, datetime.datetime(2026, 11, 23, 23, 45, tzinfo=datetime.timezone.utc))))
    assert [status(minutes) for minutes in (-16, -14, 1, 2)] == [3, 0, 0, 2]
