"""Runs of the program over a bad line: the same decisions, logs, schedules, devices, and what is refused."""

import socket
from collections import Counter
from contextlib import contextmanager

import pytest

from far_end import standing
from lining import BAD_LINE, Caller, lining, settled
from measuring import finished, measuring
from programs import Run, ended, free_port, simulator, until
from terminals import joined

TEXT = "delay 0 6\nrepeat 25\npieces 40 9\nup echo 5\n"
CALLS = [(5003, b""), (9027, b"2.25,1.625,0,1,0"), (17017, b"2"), (5004, b""), (2107, b"0"), (9028, b"0,1,0"), (2012, b"1.5"), (2011, b"")]
COMMANDS = b"".join(b"1 %d %s\n" % call for call in CALLS).replace(b" \n", b"\n")


def run(program, folder, name, text, *words, times=10):
    """What a run of `ask` wrote over a line, and what was decided."""
    decided = folder / f"{name}.decided"
    with simulator(program) as far, lining(folder, text, far, "--decided", decided, "--connections", 1, *words) as (port, line):
        found = ended([program, "ask", port], COMMANDS * times, 60)
        assert found.status == 0
        line.status(10)
    return found.output, decided.read_text()


def decisions(text):
    """What was decided of each line: a direction and a number, with its words. Which direction's came first is the moment's matter, and
    so is whether the last replies came before the end."""
    found = {}
    for line in text.splitlines():
        way, number, *word = line.split()
        found.setdefault((way, int(number)), []).append(word)
    return {place: words for place, words in found.items() if place[1] <= 80}


@pytest.mark.title("the same seed and texts, the same decisions and answers")
def test_same_decisions(program, folder, note):
    asked, text = run(program, folder, "one", TEXT, "--seed", 7)
    decided = decisions(text)
    assert [*map(len, [decided, asked.splitlines()])] >= [100, 80]
    for name, line, seed in ("two", TEXT, 7), ("again", text, 3):
        again, other = run(program, folder, name, line, "--seed", seed)
        assert (again, decisions(other)) == (asked, decided), name
    assert decisions(run(program, folder, "other", TEXT, "--seed", 8)[1]) != decided, "another seed"
    words = Counter(word[0] for words in decided.values() for word in words)
    note("80 commands; of the first 80 lines each way " + ", ".join(f"{word} {count}" for word, count in sorted(words.items())))


@pytest.mark.title("--decided: an altered line, before and after; it is counted")
def test_altered(folder):
    text, decided = "alter 100\nup 1 alter 9=34\ndown 1 alter 8=32,24-\ndown 1 repeat\n", folder / "decided"
    with standing() as far, lining(folder, text, far.port, "--decided", decided) as (port, line), Caller(port) as caller:
        caller.say(5003, 1)
        assert caller.lines() == [b'%R1P,0,2:0,"GEOCOM SIM"\n'] * 2
        line.terminate()
        assert line.messages() == "connections 1 up 1 down 1 repeat 1 alter 2\n"
    assert decided.read_text().splitlines() == [
        r"up 1 alter 9=34  # %R1Q,5003,1:\x0d\x0a -> %R1Q,5004,1:\x0d\x0a",
        r'down 1 alter 8=32,24-  # %R1P,0,1:0,"GEOCOM SIM"\x0d\x0a -> %R1P,0,2:0,"GEOCOM SIM"\x0a',
        "down 1 repeat",
    ]


@pytest.mark.title("--log and --far-log: check --log reads them")
def test_logs(program, folder, note):
    near, far_log = folder / "near.log", folder / "far.log"
    with simulator(program) as far, lining(folder, TEXT + "down 3 close\n", far, "--log", near, "--far-log", far_log) as (port, line):
        with Caller(port) as caller:
            caller.link.sendall(b"\n")
            for number, (rpc, params) in enumerate(CALLS[:3]):
                caller.say(rpc, number, params)
            while caller.line() is not None:
                pass
        with Caller(port) as caller:
            caller.say(2011, 4)
            assert caller.line()
            caller.link.sendall(b"half a li")
        until(lambda: near.read_bytes().count(b" - closed") == 1, "the end of the second connection")
        line.terminate()
    for log in (near, far_log):
        status, output, messages = ended([program, "check", "--log"], log.read_bytes())
        assert (status, messages) == (0, "")
        kinds = Counter(one.split(b" ", 1)[1] for one in output.splitlines())
        assert not any(b"no log line" in kind or b"fault" in kind for kind in kinds), kinds
        assert kinds[b"> request 5003 ok"] >= 1 and kinds[b"< reply 0 0"] >= 2, kinds
    said = [one.split(b" ", 1)[1] for one in near.read_bytes().splitlines()]
    assert said.count(b"- open") == 2 and said.count(b"- ended") == 1 and b">| half a li" in said and said[-1] == b"- closed"
    note(f"{len(said)} entries at the client's end")


@pytest.mark.title("--drill: a run of ask is played again")
def test_drill_of_ask(program, folder, note):
    schedule = folder / "schedule"
    asked, _ = run(program, folder, "one", TEXT.replace("up echo 5\n", ""), "--seed", 7, "--drill", schedule)
    assert ended([program, "drill"], schedule.read_bytes()) == (0, asked, "")
    assert b"#" not in schedule.read_bytes()
    note(f"{asked.count(b'answered')} answers, {len(schedule.read_text().splitlines())} events")


@pytest.mark.title("--drill: a run with more events than a schedule has room for")
def test_long_drill(program, folder):
    schedule = folder / "schedule"
    asked, _ = run(program, folder, "long", "pieces 100 2\n", "--drill", schedule, times=30)
    events = schedule.read_bytes()
    assert 65_000 < len(events) <= 65_536
    assert events.endswith(b"\n# From here on the run isn't played: a schedule has 65536 bytes at most.\n")
    status, output, _ = ended([program, "drill"], events)
    assert status == 0 and output and asked.startswith(output)


@pytest.mark.title("--drill: a client that gives up, over a line that loses, width {width}")
@pytest.mark.parametrize("width", [1, 3])
def test_drill_of_losses(program, folder, width, note):
    """Delays keep away from the deadline, so that both ends agree on what is late."""
    schedule = folder / "schedule"
    text = "delay 0 10\nlose 4\nrepeat 15\npieces 40 9\nlate 3 1150 1150\n"
    with simulator(program) as far, lining(folder, text, far, "--seed", 11, "--drill", schedule, "--deadline", 500) as (port, line):
        written = settled(port, CALLS * 8, 0.5, width)
        line.terminate()
    status, output, messages = ended([program, "drill"], schedule.read_bytes())
    assert (status, output.decode(), messages) == (0, written, "")
    assert b"#" not in schedule.read_bytes()
    kinds = Counter(one.split()[2] for one in written.splitlines())
    assert kinds["answered"] >= 20 and kinds["lost"] and kinds["late"], kinds
    note(f"{len(CALLS) * 8} requests; " + ", ".join(f"{kind} {count}" for kind, count in sorted(kinds.items())))


@pytest.mark.title("--drill: why a run isn't played further, {text}")
@pytest.mark.parametrize("text, why", [
    ("up 2 cut 3", b"up cut"), ("down 2 behead 3", b"down behead"), ("up 3 echo", b"up echo"), ("up 1 restart", b"up restart"),
    ("down 2 alter 8-", b"down alter"),
])
def test_drill_stops(program, folder, text, why):
    schedule = folder / "schedule"
    with simulator(program) as far, lining(folder, text, far, "--drill", schedule) as (port, line), Caller(port) as caller:
        for number in range(3):
            caller.say(5003, number)
        caller.lines()
        line.terminate()
    events = schedule.read_bytes().splitlines()
    assert events[-1] == b"# From here on the run isn't played: " + why + b"."
    assert ended([program, "drill"], schedule.read_bytes()).status == 0


@pytest.mark.title("--drill: a station begins by null procedures of its own")
def test_drill_of_station(program, folder):
    schedule = folder / "schedule"
    with simulator(program) as far, lining(folder, "", far, "--drill", schedule) as (port, _):
        with measuring(program, port, "--settle 100 --deadline 300", b"7 5003\n") as station:
            finished(station)
    assert schedule.read_bytes() == b"# From here on the run isn't played: what came up is no line.\n"


@pytest.mark.title("a station over {place}")
@pytest.mark.parametrize("place", ["a port", "another address", "a name", "a device at the other end"])
def test_stations(program, folder, place, note):
    """Each row has the right values, whatever the line does, and each request that came twice acted once."""
    text = "delay 0 5\nlose 3\nrepeat 10\npieces 30 5\nclose 1\nkeep 80 0 20\nup echo 1\n"
    commands = b"chained\n7 9027 2.25,1.625,0,1,0\n7 17017 2\n8 5003\n"
    values = {"9027": "", "17017": "2.25,1.625,110.0625,2", "5003": "123456"}
    near = {"another address": f"127.0.0.2:{free_port()}", "a name": str(folder / "device")}.get(place)
    with instrument(program, "device" in place) as far, lining(folder, text, far, "--seed", 5, near=near) as (where, line):
        with measuring(program, where, "--settle 60 --deadline 200 --cycles 30 --width 3", commands) as station:
            rows, _ = finished(station, patience=60)
        line.terminate()
        said = line.messages()
    assert len(rows) == 90
    answered = [row for row in rows if row["outcome"] == "answered"]
    assert all(row["values"] == values[row["procedure"]] for row in answered), "values of another request"
    assert len(answered) >= 45, Counter(row["outcome"] for row in rows)
    note(f"{dict(Counter(row['outcome'] for row in rows))}; line: {said.strip()}")


@contextmanager
def instrument(program, is_device):
    """Where a simulated instrument is: at a port, or at the end of a serial line."""
    if not is_device:
        with simulator(program) as port:
            yield port
    else:
        with joined() as (one, other), Run([program, "serve", other.path, "--keep"]):
            yield one.path


@pytest.mark.title("what is refused, and with which status")
def test_refused(program, folder):
    bad = folder / "bad.line"
    bad.write_text("delay 1 2\nloose 2\n")
    taken = socket.create_server(("127.0.0.1", 0))
    with standing() as far:
        for words, status, message in [
            ([free_port(), "here"], 2, "bad-line: error: here is no place"),
            ([free_port(), 0], 2, "bad-line: error: 0 is no place"),
            ([free_port(), far.port, "--seed", -1], 2, "bad-line: error: argument --seed: -1 is not 0 to 18446744073709551615"),
            ([free_port(), far.port, "--deadline", 5], 2, "bad-line: error: --deadline is a word of --drill"),
            ([free_port(), far.port, "--line", bad], 1, f"bad-line: {bad} line 2: there is no word loose"),
            ([free_port(), far.port, "--line", folder / "none"], 1, f"bad-line: {folder}/none: No such file or directory"),
            ([free_port(), free_port()], 1, "bad-line: Connection refused"),
            ([free_port(), "/dev/null"], 1, "bad-line: /dev/null is no terminal"),
            ([taken.getsockname()[1], far.port], 1, "bad-line: Address already in use"),
            ([free_port(), far.port, "--log", "/nowhere/log"], 1, "bad-line: /nowhere/log: No such file or directory"),
        ]:
            found = ended([BAD_LINE, *words])
            assert (found.status, found.output) == (status, b"") and found.messages.splitlines()[-1].startswith(message), (words, found)


@pytest.mark.title("an instrument that goes away and comes back")
def test_instrument_goes(program, folder):
    log = folder / "far.log"
    with standing() as far, lining(folder, "", far.port, "--far-log", log) as (port, line):
        with Caller(port) as caller:
            caller.say(5003, 1)
            assert caller.line() == b"%R1P,0,1:0,123456\r\n"
            far.say(far.near, 1, b"half a li")
            far.pull()
            assert caller.is_over()
        with Caller(port) as caller:
            assert caller.is_over()
        far.plug()
        with Caller(port) as caller:
            caller.say(5003, 2)
            assert caller.line() == b"%R1P,0,2:0,123456\r\n"
        line.terminate()
        marks = [entry.split(b" ", 1)[1] for entry in log.read_bytes().splitlines() if b"%R1" not in entry]
        assert marks == [b"- open", b"<| half a li", b"- ended", b"- open"], "the front of a line went with its instrument"
        assert line.messages() == "bad-line: the instrument: Connection refused\nconnections 2 up 2 down 2\n"
