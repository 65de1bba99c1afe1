"""Files by date, as `north-%Y-%m.csv`: what each tool makes of the files of three months is what it makes of one file with the same rows. The
borders lie in the middle of a cycle, and behind one. Files appear while a tool runs; two instruments have theirs in one folder.
"""

import datetime
import json
import os
import random
import shutil
import signal
import sqlite3
import time
from contextlib import closing

import dated
import drawn
import freshness
import pytest
import shown_month
import viewed
from faulty import Faulty
from growing import row as grown_row
from programs import Run, ended, until
from records import HEAD, fields_of, line_of
from servers import Listening
from sinks import PATIENCE, followers, messages_of, rows_of, tool
from test_alive import rows as rows_of_targets
from test_silence import GOOD, REFUSED, TABLE
from two_faces import SITE, Month, fields_of_row

MONTHS = ["2026-11", "2026-12", "2027-01"]
PATTERN = "-%Y-%m.csv"
SINKS = ["to-sqlite", "to-postgres", "to-mqtt"]
# 120 cycles of 18 rows, over three weeks.
CYCLES = 120
FROM_ALL = SITE + "mean 5\nvelocity 3\nepoch 2026-11-01T00:00:00Z 2026-11-02T00:00:00Z\n"
LIMITS = TABLE + "8,target_easting_m,1005,0.002,2,3\n8,moved_easting_m,0,0.002,2,3\n9,silence,,,,3\n7,silence,,,,3\n"


def month_rows():
    """Rows of a station whose target 8 moves, and whose target 9 is lost over the first border."""
    month = Month(cycles=CYCLES, every=14_400, from_day=7.0, noise=1e-6, bad={9: (range(38, 44), "lost")})
    return [row for rows in month.rows() for row in rows]


def parted(rows, folder, name="north", cuts=(40 * 18 + 7, 80 * 18), dates=MONTHS, head=HEAD):
    """The rows as files by date, cut in the middle of cycle 41 and behind cycle 80, and as one file; gives the pattern and that file."""
    folder.mkdir(exist_ok=True)
    for date, begin, end in zip(dates, (0, *cuts), (*cuts, None)):
        (folder / f"{name}-{date}.csv").write_bytes(head + b"".join(rows[begin:end]))
    one = folder / f"one-{name}.csv"
    one.write_bytes(head + b"".join(rows))
    return folder / f"{name}{PATTERN}", one


@pytest.fixture
def months(folder):
    """A folder with the files of three months: the pattern, one file with the same rows, and the folder."""
    return (*parted(month_rows(), folder), folder)


def printed(name, *words, status=0):
    found = ended(tool(name, *words), patience=60)
    assert (found.status, found.messages) == (status, ""), found
    return found.output


def test_which_files_fit_a_pattern(folder):
    """Those that the station can have made, and no marks, copies, other dates and other names; in the order of their dates."""
    for name in ["a-2026-11.csv", "a-2026-02.csv", "a-2025-12.csv", "a-2026-13.csv", "a-2026-00.csv", "a-2026-11.csv.open", "a-2026-11.csv.copy", "a-2026-1.csv",
                 "b-2026-11.csv", "a-%Y-%m.csv", "a-2026-11.jsonl", "A-2026-11.csv", "a-0000-11.csv", "a-20261-1.csv"]:
        (folder / name).touch()
    assert [os.path.basename(path) for path in dated.files_of(f"{folder}/a-%Y-%m.csv")] == ["a-2025-12.csv", "a-2026-02.csv", "a-2026-11.csv"]
    for name in ["50%[x]*", "50%[x]*/2026", "50%[x]*/2027"]:
        (folder / name).mkdir()
    for name in ["2026/2026-12-31T23.csv", "2027/2027-01-01T00.csv", "2026/2027-01-01T00.csv", "2026/2026-12-31T24.csv", "2027/2027-02-29T00.csv"]:
        (folder / "50%[x]*" / name).touch()
    many = dated.Dated(f"{folder}//50%%[x]*/%Y/%Y-%m-%dT%H.csv")
    assert [many.name_of(path) for path in many.files()] == ["2026/2026-12-31T23.csv", "2027/2027-01-01T00.csv"]
    # Without a date a path is one file's, whatever is in it.
    for path in ["values.csv", "50%.csv", "%%Y.csv", "%y-%S.csv"]:
        assert not dated.has_date(path) and dated.files_of(path) == [path]
    for pattern, why in [("%Y-%y.csv", "%y in"), ("%Y%", "% in"), ("%m.csv", "has no %Y"), ("%Y-%d", "has no %m"), ("%Y-%m-%H", "has no %d"), ("%H", "has no %d")]:
        with pytest.raises(Faulty, match=why):
            dated.Dated(pattern)
    for name, *words in [("to-sqlite", "base"), ("alarm", "limits", "state"), ("reduce", "site"), ("plot", folder)]:
        for each in ("limits", "site"):
            (folder / each).write_text(LIMITS if each == "limits" else SITE, encoding="ascii")
        words = [folder / word if isinstance(word, str) else word for word in words]
        assert "has no %Y" in messages_of(tool(name, f"{folder}/%m.csv", *words), 1)
        assert "no such file is there" in messages_of(tool(name, f"{folder}/none-%Y.csv", *words, *["--once"] * (name != "plot")), 1)


def test_reduces_months_as_one(months):
    """The same rows, with means, velocities and the epoch of the first day, to the last byte; a network, too. Without the first month they
    are refused, as the epoch is missing."""
    pattern, one, folder = months
    (folder / "site").write_text(FROM_ALL, encoding="ascii")
    wanted = printed("reduce", one, folder / "site")
    assert wanted.count(b"\n") == 3 * CYCLES + 1 and b",0.002" in wanted
    assert printed("reduce", pattern, folder / "site") == wanted
    assert printed("reduce", pattern, folder / "site", "--gama", "41") == printed("reduce", one, folder / "site", "--gama", "41")
    assert messages_of(tool("reduce", pattern, folder / "site", "--append", folder / "made", "--once")) == ""
    (folder / f"north-{MONTHS[0]}.csv").rename(folder / "away.csv")
    assert "has other rows than these come to" in messages_of(tool("reduce", pattern, folder / "site", "--append", folder / "made", "--once"), 1)


def test_reduces_months_as_they_grow(folder, note):
    """Killed while the files of three months appear: a start goes on in the table, and a cycle over a border is one."""
    rows, chance = month_rows(), random.Random(11)
    (folder / "site").write_text(FROM_ALL, encoding="ascii")
    command = tool("reduce", folder / f"north{PATTERN}", folder / "site", "--append", folder / "made", "--rest", "0.02")
    kills, at = 0, 0
    run = Run(command)
    for date, end in zip(MONTHS, (40 * 18 + 7, 80 * 18, len(rows))):
        with open(folder / f"north-{date}.csv", "wb", buffering=0) as file:
            file.write(HEAD)
            while at < end:
                many = min(end - at, chance.randint(1, 60))
                file.write(b"".join(rows[at : at + many]))
                at += many
                time.sleep(0.02)
                if chance.random() < 0.15:
                    run.end()
                    run, kills = Run(command), kills + 1
    (folder / "one.csv").write_bytes(HEAD + b"".join(rows))
    wanted = printed("reduce", folder / "one.csv", folder / "site")
    until(lambda: (folder / "made").read_bytes() == wanted, "the table has every row", PATIENCE)
    assert run.messages() == ""
    run.end()
    note(f"{kills} kills, {len(rows)} rows")


def test_alarms_of_months_are_those_of_one_file(months, note):
    """The same lines, each once: limits of two rows of three, and silences of cycles, over both borders; at once, and as files appear, with
    a start behind each. Of reductions, too, which have a reference epoch."""
    pattern, one, folder = months
    (folder / "site").write_text(FROM_ALL, encoding="ascii")
    (folder / "limits").write_text(LIMITS, encoding="ascii")
    (folder / "reduced.csv").write_bytes(printed("reduce", pattern, folder / "site"))
    told = printed("alarm", folder / "reduced.csv", folder / "limits", folder / "of-reduced", "--once").decode().splitlines()
    first = Month(cycles=CYCLES, every=14_400, from_day=7.0).first_outside(0.002, 2)
    assert [line for line in told if f"moved_easting_m is 0.002" in line and f"cycle {first}" in line or f"cycle {first + 1}" in line or f"cycle {first - 1}" in line]
    (folder / "limits").write_text(TABLE + "9,distance_m,200,0.001,2,3\n9,silence,,,,3\n7,silence,,,,3\n8,distance_m,0,1000,1,1\n", encoding="ascii")
    wanted = printed("alarm", one, folder / "limits", folder / "of-one", "--once")
    assert wanted.count(b"\n") >= 3 and b"no good row for 3 cycles; cycle 40" in wanted and b"a good row again; cycle 44" in wanted
    assert printed("alarm", pattern, folder / "limits", folder / "of-three", "--once") == wanted
    for date in MONTHS:
        (folder / f"north-{date}.csv").rename(folder / f"later-{date}.csv")
    found = b""
    for date in MONTHS:
        (folder / f"later-{date}.csv").rename(folder / f"north-{date}.csv")
        found += printed("alarm", pattern, folder / "limits", folder / "of-steps", "--once")
    assert found == wanted
    assert printed("alarm", pattern, folder / "limits", folder / "of-steps", "--once") == b""
    note(f"{wanted.count(bytes([10]))} lines")


def test_no_silence_at_a_border(folder):
    """A station whose rows go on in another file isn't silent, by seconds and by cycles; one that ends there is, once. A file that was taken
    away is reported, and the alarm goes on."""
    (folder / "limits").write_text(TABLE + "*,silence,,,,100s\n7,silence,,,,100s\n8,silence,,,,3\n", encoding="ascii")
    rows = rows_of_targets(60, 10, end=datetime.datetime.now(datetime.timezone.utc))
    pattern, _ = parted(rows, folder, cuts=(41, 80))
    with Run(tool("alarm", pattern, folder / "limits", folder / "state", "--rest", "0.05")) as run:
        until(lambda: (folder / "state").exists() and json.loads((folder / "state").read_text())["watch"]["cycle"][1:] == [60], "all is taken")
        time.sleep(0.3)
        (folder / f"north-{MONTHS[0]}.csv").unlink()
        until(lambda: "2026-11.csv was taken away" in run.messages(), "it is reported")
        (folder / "north-2027-02.csv").write_bytes(HEAD + line_of(fields_of_row(rows[-1]) | {"cycle": "61", "step": "7", "target": "7"}))
        until(lambda: json.loads((folder / "state").read_text())["watch"]["cycle"][1:] == [61], "it goes on")
        assert run.is_running() and run.output() == b"" and run.messages().count("\n") == 1
    old = rows_of_targets(60, 10, ago=200, end=datetime.datetime.now(datetime.timezone.utc))
    pattern, one = parted(old, folder / "old", cuts=(41, 80))
    lines = [[line.split(b" ", 1)[1] for line in printed("alarm", path, folder / "limits", folder / f"state{number}", "--once").splitlines()]
             for number, path in enumerate((pattern, one))]
    assert lines[0] == lines[1] and len(lines[0]) == 2 and b"station: no good row for 200 s" in lines[0][0]


def test_alive_over_months(folder):
    """Status and words of the months are those of the one file: also where the newest one has its header alone, or a part of it, and where
    a target was measured in an earlier one alone. Where the clock was set back the file counts in which rows go on."""
    noon = datetime.datetime(2026, 11, 24, 12, tzinfo=datetime.timezone.utc)
    lost = lambda cycle, target: REFUSED if target == 8 and cycle > 12 else GOOD
    for number, (ago, within, measured) in enumerate([(20, 100, 100), (20, 100, 500), (150, 100, 500), (20, 15, 500), (-60, 100, 100)]):
        for answer in (lambda *_: GOOD), lost:
            place = folder / f"{number}-{answer is lost}"
            rows = rows_of_targets(40, 10, ago=ago, end=noon, answer=answer)
            pattern, one = parted(rows, place, cuts=(21, 60))
            judged = [freshness.judged(str(path), noon, within, measured) for path in (pattern, one)]
            assert judged[0] == judged[1], place
            for beginning in (b"", HEAD[:20], HEAD):
                (place / "north-2027-02.csv").write_bytes(beginning)
                assert freshness.judged(str(pattern), noon, within, measured) == judged[1]
    assert freshness.judged(f"{folder}/none-%Y.csv", noon, 100, 100)[:2] == (freshness.CRITICAL, f"{folder}/none-%Y.csv: no such file is there")
    assert freshness.judged(f"{folder}/%m.csv", noon, 100, 100)[0] == freshness.UNKNOWN
    # Set back by a day: the rows of the day after are ahead.
    place = folder / "back"
    place.mkdir()
    rows = rows_of_targets(40, 10, ago=20, end=noon)
    ahead = rows_of_targets(5, 10, end=noon + datetime.timedelta(days=1))
    (place / "north-2026-11-24.csv").write_bytes(HEAD + b"".join(rows))
    (place / "north-2026-11-25.csv").write_bytes(HEAD + b"".join(ahead))
    pattern = f"{place}/north-%Y-%m-%d.csv"
    assert freshness.judged(pattern, noon, 100, 100)[:2] == (freshness.OK, "last row 20 s ago; targets: 2, oldest measurement: 7 (pier 7), 20 s ago")
    assert freshness.judged(pattern, noon, 10, 10)[0] == freshness.UNKNOWN
    status = ended(tool("alive", f"{place}/north-%Y-%m-%d.csv", "--within", 1)).status
    assert status in (freshness.CRITICAL, freshness.UNKNOWN)


def test_pictures_of_months(folder):
    """The same pictures, byte for byte."""
    pattern, one = parted(month_rows()[: 12 * 18], folder, cuts=(4 * 18 + 7, 8 * 18))
    (folder / "north-2027-02.csv").touch()
    for name, path in ("months", pattern), ("one", one):
        messages_of(tool("plot", path, folder / name))
    made = [{each.name: each.read_bytes() for each in (folder / name).iterdir()} for name in ("months", "one")]
    assert made[0] == made[1] and len(made[0]) == 8


def test_pages_of_months(folder):
    """The same pages, byte for byte, whether a station's rows are in one file or in three; another station beside it, whose name begins so,
    and one that has one file. And as they grow."""
    shown_month.lay(folder)
    rows = (folder / "rows/north.csv").read_bytes().splitlines(keepends=True)[1:]
    words = ["--limits", folder / "limits", "--once", "--at", "2026-11-30T22:30:00Z"]
    page = lambda made, *more: ended(tool("page", folder / made, "--rows", folder / "rows", *words, *more), patience=60)
    assert page("one").status == 0
    wanted = (folder / "one/station-north.html").read_bytes()
    shutil.copy(folder / "rows/north.csv", folder / "rows/plain.csv")
    (folder / "rows/north.csv").unlink()
    # The last border is within the day that the strips show, in the middle of a cycle.
    parts = (0, len(rows) // 2, len(rows) - 101, len(rows))
    for date, begin, end in zip(MONTHS, parts, parts[1:]):
        for name in "north", "north-west":
            (folder / f"rows/{name}-{date}.csv").write_bytes(HEAD + b"".join(rows[begin:end]))
    found = page("three", "--files", "NAME", "NAME-%Y-%m")
    assert (found.status, found.messages) == (0, "")
    assert sorted(each.name for each in (folder / "three").iterdir()) == ["index.html"] + [f"station-{name}.html" for name in ("north-west", "north", "plain")]
    assert (folder / "three/station-north.html").read_bytes() == wanted
    for text, why in ("NAME-%m", "has no %Y"), ("x-%Y", "has no NAME"), ("NAME%y", "is no part of a date"):
        found = page("none", "--files", text)
        assert found.status == 2 and why in found.messages, found
    # One that is looked at again and again as rows come, and files.
    now = shown_month.BEGIN.timestamp() + 3600 * shown_month.NOW
    table, site = f"{folder}/limits/north.limits", f"{folder}/limits/north.site"
    stations = [viewed.Station("north", f"{folder}/grow{name}.csv", f"{folder}/none.csv", table, site, 31) for name in ("-%Y-%m", "")]
    for date, begin, end in zip(MONTHS, parts, parts[1:]):
        for at in range(begin, end, (end - begin) // 3 + 1):
            new = rows[at : min(end, at + (end - begin) // 3 + 1)]
            for name in f"-{date}", "":
                with open(folder / f"grow{name}.csv", "ab") as file:
                    file.write((b"" if file.tell() else HEAD) + b"".join(new))
            for station in stations:
                station.look(now)
            assert stations[0].row == stations[1].row and stations[0].faults == stations[1].faults == []
    assert vars(stations[0])["targets"] == vars(stations[1])["targets"]


def cycle_rows(count, seed):
    """Rows of a station: those of `growing`, of which 15 are a cycle."""
    chance = random.Random(seed)
    return [grown_row(chance, number) for number in range(count)]


def booked(follower, servers, base, topic, paths, source):
    """Looks that a sink has each row of these files once."""
    for path in paths:
        if follower.name == "to-sqlite":
            with closing(sqlite3.connect(base)) as table:
                query = "SELECT count(*), count(DISTINCT line) FROM record WHERE source = ?"
                found = table.execute(query, [source(path)]).fetchone()
        elif follower.name == "to-postgres":
            found = servers.ask("SELECT count(*), count(DISTINCT line) FROM record WHERE source = %s", source(path))[0]
        else:
            found = (follower.taken(source(path)),) * 2
        many = len(rows_of(path))
        assert found == (many, many), (follower.name, path, found)


@pytest.mark.parametrize("way", ["folder", "stations", "patterns"])
def test_sinks_take_files_that_appear(servers, folder, note, way):
    """Two instruments of one folder, whose next files appear while followers run and are killed: each row once, of the folder, of the folder
    by its stations, and of each instrument's pattern. At the broker the last cycle is whole though it began in the month before."""
    rows, chance, kills = {name: cycle_rows(600, seed) for seed, name in enumerate(["north", "north-west"])}, random.Random(3), 0
    cuts = (200, 427, 600)
    rowed = folder / "rows"
    rowed.mkdir()
    base, topic = folder / "values.db", f"dated/{way}"
    commands, said = [], f"machine-{way}"
    for follower in followers(servers, base, topic):
        ways = [(rowed / f"{name}{PATTERN}", f"{topic}/{name}") for name in rows] if way == "patterns" else [(rowed, topic)]
        for path, top in ways:
            command = [*follower.command(path, "--as", said, "--rest", "0.02"), *["--files", "NAME-%Y-%m", "NAME"] * (way == "stations")]
            commands.append([top if word == topic else word for word in command])
    runs = [Run(command) for command in commands]
    at = 0
    for date, end in zip(MONTHS, cuts):
        for name in rows:
            (rowed / f"{name}-{date}.csv").write_bytes(HEAD)
        while at < end:
            many = min(end - at, chance.randint(1, 25))
            for name, each in rows.items():
                with open(rowed / f"{name}-{date}.csv", "ab") as file:
                    file.write(b"".join(each[at : at + many]))
            at += many
            time.sleep(0.02)
            if chance.random() < 0.3:
                number = chance.randrange(len(runs))
                runs[number].kill()
                runs[number].end()
                runs[number], kills = Run(commands[number]), kills + 1
    paths = [rowed / f"{name}-{date}.csv" for name in rows for date in MONTHS]
    for run, command in zip(runs, commands):
        run.terminate(20) if run.is_running() else None
        messages = run.messages()
        run.end()
        assert "refused" not in messages and "replaced" not in messages, messages
        assert messages_of([*command, "--once"]) == ""
    source = lambda path: f"{said}/{path.name}"
    one, two, three = followers(servers, base, topic)
    for follower in (one, two):
        booked(follower, servers, base, topic, paths, source)
    for name, each in rows.items():
        tops = [f"{topic}/{name}-{date}" for date in MONTHS] if way == "folder" else [f"{topic}/{name}"]
        parts = [rowed / f"{name}-{date}.csv" for date in MONTHS]
        three.sink[0] = f"{topic}/{name}" if way == "patterns" else topic
        booked(three, servers, base, topic, parts, source)
        with Listening(servers.broker_port, [f"{top}/cycle" for top in tops]) as listening:
            until(lambda: len(listening.came) >= len(tops), "the cycles are at the broker", 10)
        found = [json.loads(text) for _, text in listening.came]
        if way != "folder":
            # The last of 40 cycles isn't over; each cycle has 15 rows.
            assert [(cycle["cycle"], cycle["rows"]) for cycle in found] == [(39, 15)], found
    note(f"{kills} kills, {6 * 200} rows of six files")


def test_a_cycle_over_a_border_at_the_broker(servers, folder):
    """A cycle that begins in one month and ends in the next has one message, with all its rows; also where the follower is begun again at
    the border."""
    rows = cycle_rows(45, 1)
    command = [*followers(servers, None, "dated/border")[2].command(folder / f"north{PATTERN}"), "--once"]
    found = []
    for date, begin, end in [(MONTHS[0], 0, 20), (MONTHS[1], 20, 23), (MONTHS[2], 23, 31)]:
        (folder / f"north-{date}.csv").write_bytes(HEAD + b"".join(rows[begin:end]))
        messages_of(command)
        with Listening(servers.broker_port, ["dated/border/cycle"]) as listening:
            until(lambda: listening.came, "the cycle is at the broker", 10)
        found.append(json.loads(listening.came[-1][1]))
    assert [(each["cycle"], each["rows"], each["begun"]) for each in found] == [
        (1, 15, fields_of(rows[0][:-1])[2]), (1, 15, fields_of(rows[0][:-1])[2]), (2, 15, fields_of(rows[15][:-1])[2])]


def test_a_clock_that_was_set_back(folder):
    """Rows that go on in an earlier file come in the order in which they were written: within a run by their cycles, and a run that has begun
    ends before another one begins. So a table of reductions goes on over a restart."""
    rows = month_rows()
    cycle = lambda first, last: rows[(first - 1) * 18 : last * 18]
    second = [line_of(fields_of_row(row) | {"run": "2026-10-15T00:00:00.000Z"}) for row in rows]
    steps = [("2026-11", cycle(1, 10)), ("2026-12", cycle(11, 11)), ("2026-11", cycle(12, 14)), ("2026-12", cycle(15, 20)),
             ("2026-11", second[: 4 * 18 + 5]), ("2026-12", second[4 * 18 + 5 : 9 * 18]), ("2027-01", second[9 * 18 : 12 * 18])]
    (folder / "site").write_text(SITE + "mean 5\n", encoding="ascii")
    pattern, one = folder / f"north{PATTERN}", folder / "one.csv"
    one.write_bytes(HEAD)
    command = tool("reduce", pattern, folder / "site", "--append", folder / "live", "--rest", "0.02")
    alarm = lambda path, state: printed("alarm", path, folder / "limits", folder / state, "--once")
    (folder / "limits").write_text(TABLE + "9,distance_m,0,1,2,3\n7,silence,,,,3\n", encoding="ascii")
    with Run(command) as run:
        for date, some in steps:
            path = folder / f"north-{date}.csv"
            data = b"".join(some)
            with open(path, "ab") as file:
                file.write((b"" if file.tell() else HEAD) + data)
            one.write_bytes(one.read_bytes() + data)
            wanted = printed("reduce", one, folder / "site")
            # The last cycle may not be over.
            until(lambda: (folder / "live").exists() and len((folder / "live").read_bytes()) >= len(wanted) - 1500, "it goes on", PATIENCE)
            assert wanted.startswith((folder / "live").read_bytes()), date
            time.sleep(0.1)
    assert messages_of([*command, "--once"]) == "", "a restart"
    assert printed("reduce", pattern, folder / "site") == printed("reduce", one, folder / "site")
    assert alarm(pattern, "three") == alarm(one, "one")
    assert drawn.read(str(pattern)) == drawn.read(str(one))


def test_what_is_refused_of_one_is_refused(folder):
    """A file that was edited, or has a line that is no row, ends a follower of its pattern as it does that of one file: what is before it is
    taken, and nothing behind it."""
    rows = cycle_rows(60, 2)
    pattern, _ = parted(rows, folder, cuts=(20, 40))
    (folder / f"north-{MONTHS[1]}.csv").write_bytes(HEAD + b"".join(rows[20:30]) + b"no row\n" + b"".join(rows[30:40]))
    base = folder / "values.db"
    assert "is no row" in messages_of(tool("to-sqlite", pattern, base, "--once"), 1)
    with closing(sqlite3.connect(base)) as table:
        assert table.execute("SELECT count(*) FROM record").fetchone() == (30,)
    (folder / f"north-{MONTHS[1]}.csv").write_bytes(HEAD + b"".join(rows[20:40]))
    assert messages_of(tool("to-sqlite", pattern, base, "--once")) == ""
    with closing(sqlite3.connect(base)) as table:
        assert table.execute("SELECT count(*), count(DISTINCT source) FROM record").fetchone() == (60, 3)
    (folder / f"north-{MONTHS[0]}.csv").write_bytes(HEAD + b"".join(rows[1:21]))
    assert "it was edited or replaced" in messages_of(tool("to-sqlite", pattern, base, "--once"), 1)


def test_many_files(folder, note):
    """A year of daily files: how long a follower takes to come to their end, and to look once more."""
    rows = cycle_rows(365 * 20, 4)
    for day in range(365):
        date = datetime.date(2026, 1, 1) + datetime.timedelta(days=day)
        (folder / f"north-{date}.csv").write_bytes(HEAD + b"".join(rows[day * 20 : day * 20 + 20]))
    command = tool("to-sqlite", folder / "north-%Y-%m-%d.csv", folder / "values.db")
    begun = time.monotonic()
    messages_of([*command, "--once"])
    took = time.monotonic() - begun
    with closing(sqlite3.connect(folder / "values.db")) as table:
        assert table.execute("SELECT count(*) FROM record").fetchone() == (7300,)
    with Run([*command, "--rest", "1"]) as run:
        time.sleep(3)
        before = run.seconds()
        time.sleep(5)
        used = (run.seconds() - before) / 5
        run.send_signal(signal.SIGINT)
        run.status()
    assert took < 30 and used < 0.2
    note(f"{took:.1f} s, then {used * 100:.1f} % of a processor")


def test_set_back_in_a_cycle():
    """A cycle whose rows begin in the later file and go on in the earlier one, as where the clock is set back in between; and forth again."""
    row = lambda cycle, place, run="2026-11-24T00:00:00.000Z", attempt=1: {"run": run, "cycle": str(cycle), "step": str(place), "attempt": str(attempt)}
    wanted = [row(cycle, place) for cycle in range(1, 20) for place in (0, 1)]
    for cuts in [(6, 15, 24), (7, 16, 25), (6, 15, 25), (7, 15, 24)]:
        one, two, three, four = (wanted[begin:end] for begin, end in zip((0, *cuts), (*cuts, None)))
        assert dated.merged([one + three, two + four]) == wanted, cuts
    order = dated.Order()
    assert [order.first(heads) for heads in ({1: row(8, 0)}, {0: row(8, 2), 1: row(8, 1)}, {0: row(8, 2)})] == [1, 1, 0]
    # A chain that is repeated over a border, and its next commands.
    wanted = [row(1, 0), row(1, 1), row(1, 0, attempt=2), row(1, 1, attempt=2), row(1, 2), row(2, 0)]
    for cut in range(1, 6):
        assert dated.merged([wanted[:cut], wanted[cut:]]) == wanted, cut
    # Set-up rows come with their file.
    wanted = [row(0, 0), row(1, 0), row(0, 0), row(1, 1), row(2, 0), row(0, 0), row(3, 0), row(0, 0, "later"), row(1, 0, "later")]
    for cut in range(1, 9):
        assert dated.merged([wanted[:cut], wanted[cut:]]) == wanted, cut


def test_one_station_of_a_folder_is_refused(folder):
    """The others go on, also one with a single file; and what says no folder, or no name, is refused."""
    rows, rowed, base = cycle_rows(90, 6), folder / "rows", folder / "values.db"
    for name in "north", "south":
        parted(rows, rowed, name, cuts=(20, 60))
        (rowed / f"one-{name}.csv").unlink()
    (rowed / "plain.csv").write_bytes(HEAD + b"".join(rows))
    with open(rowed / f"north-{MONTHS[1]}.csv", "ab") as file:
        file.write(b"no row\n")
    command = tool("to-sqlite", rowed, base, "--files", "NAME-%Y-%m", "NAME", "--as", "x")
    messages = messages_of([*command, "--once"], 1)
    assert messages.count("\n") == 1 and f"north-{MONTHS[1]}.csv: the line that ends at byte" in messages
    with closing(sqlite3.connect(base)) as table:
        found = table.execute("SELECT source, count(*) FROM record GROUP BY source ORDER BY source").fetchall()
    assert found == [("x/north-2026-11.csv", 20), ("x/north-2026-12.csv", 40), ("x/plain.csv", 90),
                     ("x/south-2026-11.csv", 20), ("x/south-2026-12.csv", 40), ("x/south-2027-01.csv", 30)]
    assert "is no folder" in messages_of(tool("to-sqlite", rowed / "plain.csv", base, "--files", "NAME-%Y", "--once"), 1)
    assert "has no NAME" in messages_of(tool("to-sqlite", rowed, base, "--files", "x-%Y", "--once"), 2)
