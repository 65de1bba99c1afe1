"""The log of a station: what is in it, and which files it may be."""

import os
import re
import signal
from pathlib import Path

import pytest

from far_end import CLOSES, good, standing
from measuring import expect_each_once, finished, measuring
from programs import ended, until
from records import HEAD, MOMENT, counts_line

LINE = re.compile(rb"(%s) (>|<|>\||<\||-) (.*)" % MOMENT.pattern.encode())
ESCAPE = re.compile(rb"\\x([0-9a-f]{2})")
TWO = b"7 5003\n8 5004\n"
LOG_LINE = b"2026-11-24T20:00:40.000Z < %R1P,0,2:0,123456\n"


def entries(log):
    """The lines of a log, each with its mark and the bytes that it stands for, in order of time."""
    found = [LINE.fullmatch(line) for line in log.splitlines()]
    assert all(found) and log.endswith(b"\n"), f"a line of the log has no form: {log!r}"
    times = [line[1] for line in found]
    assert times == sorted(times), f"the log goes back: {times}"
    ends = {b">": b"\r\n", b"<": b"\r\n"}
    return [(line[2], ESCAPE.sub(lambda two: bytes([int(two[1], 16)]), line[3]) + ends.get(line[2], b"")) for line in found]


def carried(log):
    """What the log says came and went over each connection."""
    went, came = [], []
    for mark, data in entries(log):
        if (mark, data) == (b"-", b"open"):
            went.append(b"")
            came.append(b"")
        elif mark in (b">", b">|"):
            went[-1] += data
        elif mark in (b"<", b"<|"):
            came[-1] += data
    return went, came


@pytest.mark.title("--log, each byte, width {width}")
@pytest.mark.parametrize("width", [1, 7])
def test_each_byte(program, folder, width):
    """What is in the log is what the far end saw, byte by byte, over each connection; and `check --log` reads it."""
    asked = []
    noise = [b"", b"no reply \x00\x7f\x80\xff\\x41\r\n", b"half a li\n", b"\r\r\n\n", b"%R1P,0," + 600 * b"9" + b"\r\n", b"\\"]

    def answers(request):
        asked.append(request)
        # In the beginning, where one request is in flight alone: the log has what was put, and the far end what came.
        if len(asked) in (5, 6):
            return CLOSES
        return noise[len(asked) % len(noise)] + good(request)

    with standing(answers) as far:
        log = folder / "log"
        words = f"--log {log} --settle 200 --deadline 200 --cycles 6 --width {width}"
        with measuring(program, far.port, words, TWO) as run:
            rows, _ = finished(run, patience=12)
        expect_each_once(rows, 2, 6)
        assert len(far.came) > 2, f"{len(far.came)} connections"
        assert carried(log.read_bytes()) == (far.came, far.went), "what the log says"
        expect_read_by_check(program, log)
        expect_appends(program, far, log)


def expect_read_by_check(program, log):
    """`check --log` says of each line what its bytes are."""
    meanings = {
        b"-": rb"(open|not open|ended|failed|closed)",
        b">": rb"request \d+ ok", b">|": rb"(cleared|part)",
        b"<": rb"(reply 0 0|fault \d|overlong)", b"<|": rb"(cleared|part)",
    }
    status, output, messages = ended([program, "check", "--log"], log.read_bytes())
    assert (status, messages) == (0, ""), "status and messages of check --log"
    lines = output.splitlines()
    marks = [mark for mark, _ in entries(log.read_bytes())]
    assert len(lines) == len(marks), "how many lines check --log wrote"
    for line, mark in zip(lines, marks):
        assert re.fullmatch(rb"\S+ " + re.escape(mark) + b" " + meanings[mark], line), f"check --log said {line!r}"


def expect_appends(program, far, log):
    """A second run leaves what is in the log."""
    before = log.read_bytes()
    with measuring(program, far.port, f"--log {log} --settle 100 --deadline 100", TWO) as run:
        finished(run)
    assert log.read_bytes().startswith(before) and len(log.read_bytes()) > len(before), "the log was not appended to"


def limited(program, port, log, words):
    """A station whose files can't grow above 4096 bytes, with a log that has nearly as many."""
    log.write_bytes(LOG_LINE * (4080 // len(LOG_LINE)))
    return measuring(program, port, f"--log {log} --settle 100 --deadline 100 {words}", TWO, shell="ulimit -f 4; trap '' XFSZ")


@pytest.mark.title("--log, a full disk")
def test_full_disk(program, folder):
    """Where the log can't be written the rows are the same, and that is reported in the end."""
    with standing() as far:
        with limited(program, far.port, folder / "log", "") as run:
            assert run.status() == 0, "the status"
            messages = run.messages().splitlines()
            assert messages[-1:] == [counts_line(answered=2)], "the last line"
            assert messages[-2] == "geocom: the log could not be written completely", "the line before it"
            assert run.output().count(b",answered,") == 2, "how many rows"


@pytest.mark.title("--log, a full disk, told at once")
def test_full_disk_told_at_once(program, folder):
    """That the log can't be written is reported while the station runs, once, also where it reports no signs of life."""
    lost = "geocom: the log can't be written and ends here: measuring continues\n"
    for silent in "", "--silent":
        with standing() as far:
            with limited(program, far.port, folder / "log", f"--every 2 --cycles 3 {silent}") as run:
                until(lambda: lost in run.messages(), "it isn't told")
                assert run.is_running(), "it is told at the end alone"
                assert run.status(9) == 0, "the status"
                assert run.messages().count(lost) == 1, "how often it is told"


@pytest.mark.title("--log, a limit of its size whose signal isn't ignored")
def test_limited_by_a_signal(program, folder):
    """The system ends the program without a word. The next start cuts off the torn line of the log, and says so."""
    log = folder / "log"
    log.write_bytes(LOG_LINE * (4080 // len(LOG_LINE)))
    with standing() as far:
        with measuring(program, far.port, f"--log {log} --settle 100 --deadline 100 --silent", TWO, shell="ulimit -f 4") as run:
            assert (run.status(), run.messages()) == (-signal.SIGXFSZ, ""), "how it ended"
        torn = log.read_bytes().rsplit(b"\n", 1)[1]
        assert torn, "no line is torn"
        with measuring(program, far.port, f"--log {log} --settle 100 --deadline 100", TWO) as run:
            _, messages = finished(run)
    assert f"geocom: {len(torn)} bytes of an incomplete line of the log were cut off" in messages


@pytest.mark.title("--log, no such folder")
def test_no_folder(program):
    """Where the log can't be opened nothing is sent."""
    with standing() as far:
        expect_refused(program, far, "/nowhere/log", "No such file or directory")


def expect_refused(program, far, log, why=""):
    """A station with this log does nothing but report that it is refused."""
    with measuring(program, far.port, f"--log {log} --settle 100", TWO) as run:
        assert run.status() == 1, log
        assert run.messages().startswith("geocom: fault 57\n"), log
        assert why in run.messages(), log
        assert run.output() == b""
        assert far.came == [], "the connections"


@pytest.mark.title("--log, what is no log")
def test_no_log(program, folder):
    """A pipe without a reader, a folder, and files that aren't logs are refused, and stay."""
    with standing() as far:
        pipe = folder / "pipe"
        os.mkfifo(pipe)
        expect_refused(program, far, pipe)
        expect_refused(program, far, folder)
        for held in HEAD, b"7 5003\n", b"x", b"\n", b"2026-11-24 something else\n", LOG_LINE[1:], b"\n" + LOG_LINE:
            path = folder / "other"
            path.write_bytes(held)
            expect_refused(program, far, path)
            assert path.read_bytes() == held, "what stands in the file"


@pytest.mark.title("--log, held by another station")
def test_held_log(program, folder):
    """While a station has a log no second one writes into it, and the first goes on."""
    with standing() as far, standing() as other:
        log = folder / "log"
        with measuring(program, far.port, f"--log {log} --settle 100 --cycles unlimited --every 1", TWO) as run:
            until(lambda: log.exists() and log.read_bytes(), "the first one logs nothing")
            expect_refused(program, other, log)
            before = len(log.read_bytes())
            until(lambda: len(log.read_bytes()) > before, "the first one logs no more")
            assert run.is_running(), "the first one ended"


@pytest.mark.title("--log, a torn line")
def test_torn_line(program, folder):
    """A torn last line of a log is cut off, and reported: no log has a line that neither went nor came."""
    for torn in LOG_LINE[:-3], LOG_LINE[:30], LOG_LINE[:9], b"":
        for whole in LOG_LINE * 2, b"":
            with standing() as far:
                log = folder / "log"
                log.write_bytes(whole + torn)
                with measuring(program, far.port, f"--log {log} --settle 100 --deadline 100", TWO) as run:
                    _, messages = finished(run)
                line = f"geocom: {len(torn)} bytes of an incomplete line of the log were cut off"
                assert (line in messages) == (torn != b""), f"{messages} was told of {torn!r}"
                assert log.read_bytes().startswith(whole + b"20"), f"{log.read_bytes()[:200]!r}"
                fresh = log.read_bytes()[len(whole) :]
                assert carried(fresh) == (far.came, far.went), "what the log says"
                expect_read_by_check(program, log)


LOST = "geocom: the log can't be written and ends here: measuring continues"
MOST = 2000
# More bytes than any line of these runs has.
LONGEST = 100
BOUNDED = f"--log-bytes {MOST} --settle 100 --deadline 100"


def both(log):
    """The bytes of both files of a log, the older one's first; each file has whole lines alone, and no more bytes than it may have."""
    older = log.with_name(log.name + ".1")
    parts = [path.read_bytes() for path in (older, log) if path.exists()]
    for part in parts:
        assert len(part) <= MOST, f"it has {len(part)} bytes"
        assert part.endswith(b"\n") and LINE.match(part), f"no whole lines: {part!r}"
    return b"".join(parts)


def expect_newest(log, far):
    """What both files say went and came is the last of what the far end saw, byte by byte, and as much as has to be there."""
    data = both(log)
    went = b"".join(part for mark, part in entries(data) if mark in (b">", b">|"))
    came = b"".join(part for mark, part in entries(data) if mark in (b"<", b"<|"))
    assert b"".join(far.came).endswith(went), f"what went: {went[-200:]!r}"
    assert b"".join(far.went).endswith(came), f"what came: {came[-200:]!r}"
    assert went and came and len(data) > MOST - LONGEST, f"{len(data)} bytes are left of it"


@pytest.mark.title("--log-bytes")
def test_bounded_log(program, folder):
    """Over several runs a log has its newest lines, whole, in two files, neither with more bytes than it may have; and `check --log` reads
    both, also where they begin in the middle of a run."""
    log = folder / "log"
    for number in range(4):
        with standing() as far:
            with measuring(program, far.port, f"--log {log} {BOUNDED} --cycles 20", TWO) as run:
                rows, messages = finished(run)
            expect_each_once(rows, 2, 20)
            assert messages == [], f"what run {number} told"
            expect_newest(log, far)
        whole = folder / "whole"
        whole.write_bytes(both(log))
        expect_read_by_check(program, whole)
        assert b"impossible" not in ended([program, "check", "--log"], whole.read_bytes())[1], "a line is called altered for want of those before it"
    assert ended([program, "station", "1", "--log-bytes", "2000"])[0] == 2, "the status without --log"


@pytest.mark.title("--log-bytes, each size")
def test_each_size(program, folder):
    """Whichever size a line would have to be split at, it isn't: a line that fills the file to its last byte is in it, too."""
    line = LOG_LINE
    for spare in range(0, 100, 7):
        log = folder / f"log{spare}"
        log.write_bytes(line * ((MOST - spare) // len(line)))
        held = log.read_bytes()
        with standing() as far:
            with measuring(program, far.port, f"--log {log} {BOUNDED}", TWO) as run:
                finished(run)
            data = both(log)
            assert data.startswith(held), "what was there is gone"
            assert carried(data[len(held) :]) == (far.came, far.went), "what the log says"


@pytest.mark.title("--log-bytes, a log that has more")
def test_larger_log(program, folder):
    """A log that has more bytes than it may have, from a run without a bound, is the older file from the first line on."""
    log = folder / "log"
    log.write_bytes(LOG_LINE * 100)
    with standing() as far:
        with measuring(program, far.port, f"--log {log} {BOUNDED}", TWO) as run:
            finished(run)
        assert (folder / "log.1").read_bytes() == LOG_LINE * 100, "what the older file has"
        assert carried(log.read_bytes()) == (far.came, far.went), "what the log says"


@pytest.mark.title("--log-bytes, a link")
def test_linked_log(program, folder):
    """Of a log by a symbolic link the older file is beside the file that it leads to, and the link stays."""
    (folder / "disk").mkdir()
    log = folder / "log"
    log.symlink_to(folder / "disk" / "east")
    with standing() as far:
        with measuring(program, far.port, f"--log {log} {BOUNDED} --cycles 20", TWO) as run:
            finished(run)
        expect_newest(folder / "disk" / "east", far)
    assert log.is_symlink() and not (folder / "log.1").exists(), "what is beside the link"


def ways(folder):
    """What isn't a file of a log, each made at the path of the older file in a folder of its own, and that folder."""
    makes = [Path.mkdir, os.mkfifo, lambda path: path.symlink_to("/nowhere"), lambda path: path.write_bytes(HEAD)]
    for number, make in enumerate(makes):
        place = folder / f"{number}"
        place.mkdir()
        yield place, lambda: make(place / "log.1")


@pytest.mark.title("--log-bytes, what is in the way")
def test_in_the_way(program, folder):
    """What isn't a file of a log isn't replaced: at the start it is refused."""
    for place, make in ways(folder):
        make()
        with standing() as far:
            expect_refused(program, far, f"{place / 'log'} --log-bytes {MOST}")
        assert os.path.lexists(place / "log.1"), "it is gone"


@pytest.mark.title("--log-bytes, what gets in the way")
def test_gets_in_the_way(program, folder):
    """What gets there later isn't replaced either: the log ends, which is told once, and measuring goes on. So it does without its folder."""
    for place, make in ways(folder):
        expect_lost(program, place, make)
        assert os.path.lexists(place / "log.1"), "it is gone"
    place = folder / "moved"
    place.mkdir()
    expect_lost(program, place, lambda: place.rename(folder / "gone"))


def expect_lost(program, place, spoil):
    """A station whose log can't be rolled measures on, and tells so once."""
    log = place / "log"
    # Room for the first cycle, and not for the third.
    log.write_bytes(LOG_LINE * (800 // len(LOG_LINE)))
    with standing() as far:
        with measuring(program, far.port, f"--log {log} {BOUNDED} --every 1 --cycles unlimited", TWO) as run:
            until(lambda: run.output().count(b",answered,") >= 2, "nothing is answered")
            spoil()
            until(lambda: LOST in run.messages(), "it isn't told")
            before = run.output().count(b",answered,")
            until(lambda: run.output().count(b",answered,") > before, "it doesn't go on")
            assert run.messages().count(LOST) == 1, "how often it is told"


def is_moved(path, other):
    """Moves a file away; whether it was there: between two files of a log there is none for a moment."""
    try:
        path.rename(other)
    except FileNotFoundError:
        return False
    return True


@pytest.mark.title("--log-bytes, moved away")
def test_moved_log(program, folder):
    """If somebody moves the log away, its lines go on there until it is full, and then in a new one at the path, which they begin."""
    log, older, moved, stop = folder / "log", folder / "log.1", folder / "moved", folder / "stop"
    with standing() as far:
        with measuring(program, far.port, f"--log {log} {BOUNDED} --cycles unlimited --until {stop}", TWO) as run:
            until(lambda: log.exists() and log.read_bytes(), "nothing is logged")
            until(lambda: is_moved(log, moved), "there is no log to be moved away")
            # One that was full before is of lines before those that were moved away.
            older.unlink(missing_ok=True)
            until(older.exists, "no new file at the path was full")
            stop.touch()
            _, messages = finished(run)
        assert messages == [], "what was told"
        assert len(moved.read_bytes()) <= MOST and moved.read_bytes().endswith(b"\n"), "what the moved file has"
        expect_newest(log, far)
