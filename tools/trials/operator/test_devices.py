"""Devices, which are pseudo terminals here: where a station measures, where commands are asked, and where a simulator is served."""

import contextlib
import os
import select
import shutil
import stat
import termios
import threading
import time
from pathlib import Path

import pytest

from asking import ANSWERED, COMMANDS, REPLY, REQUEST, SHORT, expect_asked, expect_measured
from far_end import good
from measuring import ECHOES, expect_each_once, finished, measuring
from programs import PATIENCE, Run, ended, until
from terminals import joined, lead, terminal

NO_TERMINAL, HELD, FORBIDDEN = 58, 59, 60
NOT_RAW = "geocom: the line changes CR to LF: set it to raw mode (stty raw)"
# The times of a station where not all is answered.
SHORTER = "--settle 100 --deadline 300"
NOBODY = 65534


def asked(line):
    """The procedures that were asked for at a device, without the station's own null procedures."""
    return [request.rpc for request in line.requests if request.rpc]


@pytest.mark.title("places, a station at a device, width {width}")
@pytest.mark.parametrize("width", [1, 7])
def test_station(program, width):
    """A station measures over a device."""
    with terminal() as line:
        messages = expect_measured(program, line.path, f"{SHORT} --width {width}", cycles=5)
        assert messages == [], "what was told"
        assert asked(line) == [5003, 5004] * 5, "what was asked for"


@pytest.mark.title("places, ask at a device")
def test_ask(program):
    """`ask` asks over a device."""
    with terminal() as line:
        expect_asked(program, line.path)
        assert line.came == b"%R1Q,5003,0:\r\n%R1Q,5004,1:\r\n", "what came"


@pytest.mark.title("places, names of a device")
def test_names(program, folder):
    """The path of a device may be a link, and one from the folder that the program is in."""
    with terminal() as line:
        link = folder / "device"
        lead(link, line.path)
        expect_asked(program, link)
        assert ended([program, "ask", "./device"], COMMANDS, cwd=folder) == (0, ANSWERED, ""), "ask ./device"


@pytest.mark.title("places, a simulator and a station at the devices of a line")
def test_simulator_and_station(program):
    """A line with a simulator at one device, and a station and then `ask` at the other."""
    with joined() as (near, far), Run([program, "serve", far.path]) as server:
        until(lambda: far.path in server.open_files(), "the device isn't opened")
        expect_measured(program, near.path)
        expect_asked_anew(program, near.path)
        assert server.is_running(), f"serve ended: {server.messages()!r}"


def expect_asked_anew(program, place):
    """Each command is answered, by an instrument that was asked before: a null procedure goes ahead, whose id it may know."""
    status, output, messages = ended([program, "ask", place], b"0 0\n" + COMMANDS)
    values = [line.split(b":", 1)[1] for line in output.splitlines()[1:]]
    assert (status, values, messages) == (0, [b"0,123456", b'0,"GEOCOM SIM"'], ""), f"ask {place}"


def ask_by_hand(line):
    """Asks once at the far end of a device."""
    os.write(line.far, REQUEST)
    came, end = b"", time.monotonic() + PATIENCE
    while not came.endswith(b"\n"):
        assert select.select([line.far], [], [], max(0, end - time.monotonic()))[0], f"no reply, {came!r}"
        came += os.read(line.far, 4096)
    assert came == REPLY, "what came"


@pytest.mark.title("places, serve at a device, to its end")
def test_serve(program):
    """A device is served to its end, which is that of the program."""
    with terminal(None) as line, Run([program, "serve", line.path]) as run:
        for _ in range(3):
            ask_by_hand(line)
        assert run.is_running(), "it ended"
        line.pull()
        assert (run.status(), run.messages()) == (0, ""), "status and messages"


@pytest.mark.title("places, serve --keep at a device that comes and goes")
def test_serve_again(program, folder):
    """With --keep a device is served each time that it is there."""
    link = folder / "device"
    with Run([program, "serve", link, "--keep"]) as run:
        for time_of in range(3):
            time.sleep(0.5)
            with terminal(None) as line:
                lead(link, line.path)
                until(lambda: line.path in run.open_files(), "the device isn't opened")
                ask_by_hand(line)
                ask_by_hand(line)
            assert run.is_running(), f"it ended behind time {time_of + 1}"
            link.unlink()
            until(lambda: not any(path.startswith("/dev/pts/") for path in run.open_files()), "the device is held")
        assert len(run.messages().splitlines()) <= 10
        assert run.seconds() < 1, "seconds of a processor"


def expect_refused(program, path, fault, **options):
    """Nothing is done at this path, and that is reported."""
    for command in "station", "ask", "serve":
        status, output, messages = ended([program, command, path], COMMANDS, **options)
        assert (status, output) == (1, b""), f"{command} {path}"
        assert messages.startswith(f"geocom: fault {fault}\ngeocom: {path}: ") and messages.count("\n") <= 3, command


@pytest.mark.title("places, no terminal")
def test_no_terminal(program, folder):
    """What is no terminal is refused, and stays as it is."""
    file = folder / "file"
    file.write_bytes(b"%R1P,0,0:0,123456\r\n" * 100)
    before = file.read_bytes(), file.stat()
    expect_refused(program, file, NO_TERMINAL)
    after = file.read_bytes(), file.stat()
    assert after[0] == before[0], "the file"
    assert (after[1].st_mtime_ns, after[1].st_mode) == (before[1].st_mtime_ns, before[1].st_mode), "when it changed"
    expect_refused(program, folder, NO_TERMINAL)
    assert os.listdir(folder) == ["file"], "what is in the folder"
    expect_refused(program, "/dev/null", NO_TERMINAL)


@pytest.mark.title("places, a device that a station holds")
def test_held_by_a_station(program):
    """While a station has a device no second one, no `ask` and no simulator gets it, and the station goes on."""
    with terminal() as line, measuring(program, line.path, f"{SHORT} --every 1 --cycles 6", COMMANDS) as run:
        until(lambda: asked(line), "nothing is asked")
        expect_refused(program, line.path, HELD)
        assert run.is_running(), "the first ended before the others were refused"
        rows, messages = finished(run, patience=12)
        expect_each_once(rows, 2, 6)
        assert (messages, {row["outcome"] for row in rows}) == ([], {"answered"}), "what was told, and the outcomes"
        assert asked(line) == [5003, 5004] * 6, "what was asked for"
        expect_asked(program, line.path)


@pytest.mark.title("places, a device that a simulator holds")
def test_held_by_a_simulator(program):
    """While a simulator has a device nobody else gets it, and the simulator serves on."""
    with terminal(None) as line, Run([program, "serve", line.path]) as run:
        ask_by_hand(line)
        expect_refused(program, line.path, HELD)
        ask_by_hand(line)
        assert run.is_running(), "it ended"


@pytest.mark.title("places, a device without permission")
def test_no_permission(program, folder):
    """A device that may be read alone, or not even that; as nobody where the trial has all permissions."""
    as_nobody = {"user": NOBODY, "group": NOBODY, "extra_groups": []} if os.geteuid() == 0 else {}
    with terminal(None) as line:
        os.chmod(folder, 0o755)
        copy = shutil.copy(program, folder)
        os.chmod(copy, 0o755)
        for mode in (0, stat.S_IRUSR | stat.S_IRGRP | stat.S_IROTH):
            os.chmod(line.path, mode)
            expect_refused(copy, line.path, FORBIDDEN, **as_nobody)
        os.set_blocking(line.far, False)
        with contextlib.suppress(BlockingIOError):
            raise AssertionError(f"{os.read(line.far, 100)!r} came")


@pytest.mark.title("places, a device that comes later")
def test_comes_later(program, folder):
    """A device that comes two seconds later is measured, and all is answered."""
    with terminal() as line:
        link = folder / "device"
        later = threading.Timer(2, lead, [link, line.path])
        later.start()
        began = time.monotonic()
        messages = expect_measured(program, link, patience=20)
        assert time.monotonic() > began + 2, "it ended before the device was there"
        assert [line.partition(" since ")[0] for line in messages] == ["geocom: no connection", "geocom: connected again"], "told"


@pytest.mark.title("places, a device that is pulled")
def test_pulled(program, folder):
    """A line that is pulled and comes back costs no cycle its rows."""
    with terminal() as first, terminal() as second:
        link = folder / "device"
        lead(link, first.path)
        with measuring(program, link, f"{SHORTER} --every 1 --cycles 4", COMMANDS) as run:
            until(lambda: len(asked(first)) > 3, "nothing is asked")
            lead(link, second.path)
            first.pull()
            rows, _ = finished(run, patience=12)
        expect_each_once(rows, 2, 4)
        assert second.requests, "nothing is asked behind the pull"
        assert {row["outcome"] for row in rows[:2] + rows[6:]} == {"answered"}, rows


def echoing(request):
    """Each request comes back ahead of its answer."""
    back = b"%%R1Q,%d,%d:%s\r\n" % (request.rpc, request.id, request.params)
    return back + good(request)


@pytest.mark.title("places, a line that echoes")
def test_echo(program):
    """A line that sends back what is sent is reported once, and costs nothing."""
    for words, wanted in ("", [ECHOES]), (" --silent", []):
        with terminal(echoing) as line:
            messages = expect_measured(program, line.path, SHORT + words, cycles=20)
            assert messages == wanted, f"what was told{words}"


@pytest.mark.title("places, an echo is told before a command is sent")
def test_echo_told_first(program):
    """When a command comes, the echo was told."""
    told = []

    def answers(request):
        if request.rpc:
            told.append(ECHOES in run.messages())
        return echoing(request)

    with terminal(answers) as line, measuring(program, line.path, SHORT, COMMANDS) as run:
        finished(run, patience=20)
        assert told == [True, True], "when it was told"


@pytest.mark.title("places, a line as after a power cut")
def test_cooked(program):
    """A terminal as a system sets it, with its echo on: that its line ends are changed is told once, and no command is sent. Only what is
    sent goes out as it is: with `onlcr` requests end in CR CR LF, and the far end here, as a strict instrument, answers none."""
    with terminal() as line:
        setting = termios.tcgetattr(line.near)
        setting[0] |= termios.ICRNL | termios.IXON
        setting[3] |= termios.ECHO | termios.ECHOCTL | termios.ICANON | termios.ISIG | termios.IEXTEN
        termios.tcsetattr(line.near, termios.TCSANOW, setting)
        with measuring(program, line.path, f"{SHORTER} --retries 1", COMMANDS) as run:
            run.status(20)
            assert run.messages().splitlines().count(NOT_RAW) == 1, "how often it was told"
            assert asked(line) == [], "a command was sent"


@pytest.mark.title("places, replies that end in CR alone, and in CR CR LF")
@pytest.mark.parametrize("end", [b"\r", b"\r\r\n"])
def test_changed_ends(program, end):
    """Line ends that no reply has are told after the first reply, long before its request times out."""
    wanted = {b"\r": "geocom: replies end in CR alone: ", b"\r\r\n": "geocom: replies end in CR CR LF: "}[end]
    with terminal(lambda request: good(request).replace(b"\r\n", end)) as line:
        with measuring(program, line.path, "--deadline 30000", COMMANDS) as run:
            until(lambda: wanted in run.messages(), "it isn't told", patience=6)
            assert [request.rpc for request in line.requests] == [0], "what was sent by then"


@pytest.mark.title("places, a line that isn't raw")
def test_not_raw(program):
    """A line that changes CR to LF is reported once; no reply reads there."""
    for words, wanted in ("", 1), (" --silent", 0):
        with terminal() as line:
            setting = termios.tcgetattr(line.near)
            setting[0] |= termios.ICRNL
            termios.tcsetattr(line.near, termios.TCSANOW, setting)
            with measuring(program, line.path, f"{SHORTER} --retries 3{words}", COMMANDS) as run:
                run.status(20)
                assert len(line.requests) > 1, "it asked once"
                assert run.messages().splitlines().count(NOT_RAW) == wanted, f"how often it was told{words}"
                assert b",answered," not in run.output()


@pytest.mark.title("places, no controlling terminal")
def test_no_controlling_terminal(program):
    """A leader of a session that opens a device isn't ended by what happens there."""
    with terminal() as line:
        words = ["station", line.path, "--csv", "--every", "1", "--cycles", "3", *SHORT.split()]
        with Run([program, *words], COMMANDS, start_new_session=True) as run:
            until(lambda: len(asked(line)) > 1, "nothing is asked")
            assert line.path in run.open_files(), "the device isn't open"
            expect_no_terminal(run)
            finished(run, patience=10)
    with terminal(None) as line, Run([program, "serve", line.path], start_new_session=True) as run:
        ask_by_hand(line)
        expect_no_terminal(run)


def expect_no_terminal(run):
    fields = Path(f"/proc/{run.pid}/stat").read_text().rsplit(")", 1)[1].split()
    assert int(fields[3]) == run.pid, "its session"
    assert int(fields[4]) == 0, "its controlling terminal"


@pytest.mark.title("places, a device at which nobody answers")
def test_silent(program):
    """Where nobody reads at the far end a station ends by its deadlines."""
    with terminal(None) as line:
        expect_gives_up(program, line, 10)


@pytest.mark.title("places, a device that takes nothing")
def test_full(program, note):
    """Where the line takes nothing more a write ends after its ten seconds, and a station with it."""
    with terminal(None) as line:
        fill(line.near)
        note(f"in {expect_gives_up(program, line, 28):.1f} s")


def fill(near):
    """Writes until the line takes no byte more."""
    os.set_blocking(near, False)
    for size in (4096, 1, 1):
        with contextlib.suppress(BlockingIOError):
            while True:
                os.write(near, bytes(size))
        # The system moves what it holds on, and has room again.
        time.sleep(0.1)


def expect_gives_up(program, line, patience):
    """A station ends with a fault, and nothing was answered. In how many seconds."""
    began = time.monotonic()
    with measuring(program, line.path, f"{SHORTER} --retries 1", COMMANDS) as run:
        assert run.status(patience) == 1, run.messages()
        assert b",answered," not in run.output()
        return time.monotonic() - began
