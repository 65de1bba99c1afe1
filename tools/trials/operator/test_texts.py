"""Texts of commands: what a station takes of one, what it refuses and how it says so, and which deadline holds."""

import os
import pty
import select
import socket
import time
import tty

import pytest

from far_end import good, standing
from measuring import expect_each_once, finished, measuring, outcomes_of
from programs import ended

RAW_PARAMETERS = "more than 16 parameters, a double quote without its end, or a carriage return"
# Texts that are refused, with the number of the first faulty line and what is said of it.
FAULTY = [
    (b"7 5003\n7 9999\n", 2, "no procedure 9999 in the table, nor with such parameters in a line procedure before this one"),
    (b"7 2107\n", 1, "2107 wants 1 parameters"),
    (b"# angles\n\n7 9027 0.5,1.5\n", 3, "9027 wants 5 parameters"),
    (b"7 2012 1,65\n", 1, "2012 wants 1 parameters"),
    (b"7 2012 1.6x\n8 5003\n9\n", 1, "spelling of the parameters"),
    (b"7 2012 1e14\n", 1, "spelling of the parameters"),
    (b"7 65536\n", 1, "procedure"),
    (b"4294967296 5003\n", 1, "target"),
    (b"seven 5003\n", 1, "target"),
    (b"deadline 0\n7 5003\n", 1, "deadline"),
    (b"deadline 86400001\n", 1, "deadline"),
    (b"deadline\n", 1, "deadline"),
    (b"name 7 \n", 1, "name"),
    (b"name 7 a,b\n", 1, "name"),
    (b"name 7 =1+1\n", 1, "name"),
    (b"7 5003\nname 7 +1\n", 2, "name"),
    (b"name 7 -1\n", 1, "name"),
    (b"name 7 @sum\n", 1, "name"),
    (b"name 7 " + 65 * b"a" + b"\n", 1, "name"),
    (b"name 7 pier\n7 5003\nname 7 pillar\n", 3, "name"),
    (b"".join(b"name %d pier\n" % target for target in range(65)), 65, "name"),
    (b"name x pier\n", 1, "target"),
    (b"near 7 6.3 1.6 0.01\n", 1, "near: HZ is no decimal from 0 to a turn, in radians"),
    (b"near 7 2.25,1.6,0.01\n", 1, "near: HZ is no decimal from 0 to a turn, in radians"),
    (b"near 7 2.25 3.2 0.01\n", 1, "near: V is no decimal from 0 to half a turn, in radians"),
    (b"near 7 2.25 1.6 \n", 1, "near: TOLERANCE is no decimal from 0 to half a turn, in radians"),
    (b"near 7 2.25 1.6 0.01 12,5 0.1\n", 1, "near: DISTANCE is no decimal from 0 to 100000, in metres"),
    (b"near 7 2.25 1.6 0.01 12.5\n", 1, "near: the TOLERANCE after DISTANCE is no decimal from 0 to 100000, in metres"),
    (b"near 7 2.25 1.6 0.01\n7 5003\nnear 7 2.25 1.6 0.02\n", 3, "near: a second place of the target, or a 65th"),
    ("\ufeff# one\r\n7 5003\r\n".encode(), 1, "begins with a byte order mark: save the text without it"),
    ("7 5003\n".encode("utf-16"), 1, "is UTF-16: save the text as UTF-8"),
    (b"7\n", 1, "no form"),
    (b"7 raw 2167\n7 raw 2108 5000,1\n", 2, "2108 is TMC_GetSimpleMea: leave out raw"),
    (b"7 raw 0\n", 1, "0 is COM_NullProc: leave out raw"),
    (b"7 raw 09027\n", 1, "9027 is AUT_MakePositioning: leave out raw"),
    (b"7 raw\n", 1, "procedure"),
    (b"7 raw x\n", 1, "procedure"),
    (b"7 raw 65536\n", 1, "procedure"),
    (b"7 raw raw\n", 1, "procedure"),
    (b"x raw 2167\n", 1, "target"),
    (b"7 Raw 2167\n", 1, "procedure"),
    (b"7 raw 2167 \n", 1, "no form"),
    (b'7 raw 2167 "a\n', 1, RAW_PARAMETERS),
    (b"7 raw 2167 " + 16 * b"1," + b"1\n", 1, RAW_PARAMETERS),
    (b"7 raw 2167 1\r2\n", 1, RAW_PARAMETERS),
    (b"7 raw 2167 " + 501 * b"1" + b"\n", 1, "the request has more than 512 bytes"),
    (b"Chained\n", 1, "no form"),
]


@pytest.mark.title("a faulty text, what is said of it")
def test_faulty_text(program):
    """Nothing is connected to or written, and the first faulty line and its trouble are reported."""
    with socket.create_server(("127.0.0.1", 0)) as listener:
        for text, line, trouble in FAULTY:
            found = ended([program, "station", listener.getsockname()[1], "--csv"], text)
            assert not select.select([listener], [], [], 0)[0], f"it connected, of {text!r}"
            assert found == (1, b"", f"geocom: fault 51 line {line}\ngeocom: line {line}: {trouble}\n"), f"of {text!r}"


@pytest.mark.title("a text without a command")
def test_empty_text(program):
    """A text without a command ends at once, and nothing is connected to; of `ask` and `loop` nothing is asked."""
    with socket.create_server(("127.0.0.1", 0)) as listener:
        port = listener.getsockname()[1]
        fault = "geocom: fault 50\ngeocom: the text has no command of a cycle\n"
        for text in b"", b"\n", b"# none\nname 7 pier\ndeadline 200\nunchained\n", b"at start\n7 5003\n":
            for words in [], ["--cycles", "unlimited"], ["--csv", "--every", "1", "--cycles", "unlimited", "--retries", "always"]:
                assert ended([program, "station", port, *words], text) == (1, b"", fault), f"{words} of {text!r}"
        assert not select.select([listener], [], [], 0)[0], "it connected"
    assert ended([program, "loop"], b"") == (0, b"", ""), "loop"


@pytest.mark.title("an answer with control bytes")
def test_control_bytes(program):
    """An answer with control bytes is in one line of the records, as a row has it."""
    evil = b'0,"\x1b[2K\r2026-11-25T00:00:00.000Z 0 7 answered %R1P,0,1:0\x7f\xe9\\"'

    def answers(request):
        return request.reply(b"0" if request.rpc == 0 else evil)

    with standing(answers) as far:
        words = ["station", far.port, "--settle", "100", "--deadline", "300", "--silent"]
        status, output, messages = ended([program, *words], b"7 5004\n7 5003\n")
    assert status == 0, messages
    assert len(output.splitlines()) == 2
    assert all(32 <= byte <= 126 or byte == 10 for byte in output), output
    assert b"\\x1b[2K\\x0d2026" in output and b"\\x7f\\xe9\\x5c" in output


@pytest.mark.title("an answer with control bytes, shown by a terminal")
def test_control_bytes_at_a_terminal(program):
    """A refusal that is written over as an answer: `ask` shows a terminal no byte of it that the terminal acts on, and writes it as
    it came into a pipe."""
    reply = b"%R1P,0,0:26,\x1b[1K\r0 7 answered %R1P,0,0:0,654321"

    def answers(request):
        return reply + b"\r\n"

    with standing(answers) as far:
        words = [program, "ask", far.port]
        assert ended(words, b"7 5003\n") == (0, b"0 7 answered " + reply + b"\n", "")
    with standing(answers) as far:
        assert shown(program, ["ask", far.port], b"7 5003\n") == (
            b"0 7 answered %R1P,0,0:26,\\x1b[1K\\x0d0 7 answered %R1P,0,0:0,654321\n"
        )


def shown(program, words, text):
    """What is written to standard output, if that is a terminal."""
    master, slave = pty.openpty()
    tty.setraw(slave)
    try:
        status, _, messages = ended([program, *words], text, shell=f"exec >{os.ttyname(slave)}")
        assert (status, messages) == (0, "")
        return os.read(master, 4096)
    finally:
        os.close(slave)
        os.close(master)


@pytest.mark.title("a word for the text")
def test_word_for_the_text(program):
    """A word for the text is refused, and it is reported where it is read from."""
    for words in ["station", "4001", "commands"], ["ask", "4001", "commands"], ["loop", "commands"]:
        status, output, messages = ended([program, *words])
        assert (status, output) == (2, b""), messages
        assert "standard input" in messages and "< FILE" in messages


@pytest.mark.title("a fault of one of two texts")
def test_two_texts(program, folder):
    """A scene that is refused is named with its file; a fault of the commands isn't."""
    scene = folder / "scene"
    scene.write_bytes(b"target 0.25\n")
    status, _, messages = ended([program, "loop", "--scene", scene], b"7 5003\n")
    trouble = "geocom: fault 51 line 1\ngeocom: line 1 of the scene: the form is target HZ V DISTANCE\n"
    assert (status, messages) == (1, f"{trouble}geocom: of the scene in {scene}\n"), "the scene"
    scene.write_bytes(b"serial 71\n")
    status, _, messages = ended([program, "loop", "--scene", scene], b"7 5003 1\n")
    trouble = "geocom: fault 51 line 1\ngeocom: line 1: 5003 wants 0 parameters\n"
    assert (status, messages) == (1, trouble), "the commands"


@pytest.mark.title("a full standard error")
def test_full_standard_error(program):
    """A run with all its rows ends with status 0, also where no message can be written."""
    with standing() as far:
        words = [program, "station", far.port, "--csv", "--settle", "100", "--deadline", "300"]
        status, output, _ = ended(words, b"7 5003\n8 5004\n", shell="exec 2>/dev/full")
    assert (status, output.count(b",answered,")) == (0, 2), "the status and the answers"


@pytest.mark.title("a station's lines in the texts of ask and loop")
def test_lines_of_a_station(program):
    """Of what only a station's text may have `ask` and `loop` say that it is for a station."""
    with socket.create_server(("127.0.0.1", 0)) as listener:
        port = listener.getsockname()[1]
        for text in b"deadline 200\n", b"chained\n", b"unchained\n", b"name 7 pier 4\n":
            for words in ["ask", port], ["loop"]:
                status, output, messages = ended([program, *words], b"7 5003\n" + text)
                trouble = "geocom: fault 51 line 2\ngeocom: line 2: of a text for geocom station\n"
                assert (status, output, messages) == (1, b"", trouble), f"{words[0]} of {text!r}"
        assert not select.select([listener], [], [], 0)[0], "it connected"


@pytest.mark.title("names of targets")
def test_names(program):
    """A name is in all rows of its target, wherever its line is."""
    text = b"7 5003\nname 7 pier 4\n8 5003\n7 5004\nname 0 it's %s: 100%\nname 9 " + 64 * b"x" + b"\r\n9 5003\n0 5003\n"
    with standing() as far, measuring(program, far.port, "--settle 100 --deadline 100 --cycles 2", text) as run:
        rows, _ = finished(run)
        expect_each_once(rows, 5, 2)
        names = [row["name"] for row in rows]
        assert names == 2 * ["pier 4", "", "pier 4", 64 * "x", "it's %s: 100%"], "the names"


@pytest.mark.title("deadlines of the text")
def test_deadlines(program):
    """A deadline of the text holds for the commands after it, and that of the words for those before."""
    text = b"7 2107 0\ndeadline 200\n8 2107 0\n# once more\ndeadline 1500\n9 2107 0\n"
    asked = []

    def answers(request):
        if request.rpc:
            asked.append(request)
            time.sleep(0.6)
        return good(request)

    with standing(answers) as far, measuring(program, far.port, "--settle 1500 --deadline 1500", text) as run:
        rows, messages = finished(run, patience=12)
        assert outcomes_of(rows) == [(7, 2107, "answered"), (8, 2107, "late"), (9, 2107, "answered")]
        assert messages == [], "what was told"


@pytest.mark.title("numbers out of their range")
def test_ranges(program):
    """Numbers out of their range are refused with status 2, and so is 0 where a word says that there is no limit."""
    for words in ("--deadline 0", "--deadline 86400001", "--settle 0", "--width 0", "--width 8", "--every 0", "--every 86401", "--cycles 0", "--retries 0",
                  "--stale 0"):
        assert ended([program, "station", "1", *words.split()]).status == 2, words
