"""Files that a station appends to: whole, torn, in each form, foreign, or held."""

import os
import time

from programs import until
from records import COLUMNS, HEAD, counts_line, fields_of, line_of
from stations import PATIENCE, ROTATION, appended, appending, instrument, numbers, rows_in, split, torn_line

SENT = {"run": "2026-11-24T00:00:00.000Z", "sent": "2026-11-24T00:00:01.000Z", "time": "2026-11-24T00:00:02.000Z", "cycle": 1, "step": 0, "target": 7,
        "procedure": 5003, "request": "%R1Q,5003,1:"}
LOST = line_of({**SENT, "outcome": "lost"})
ANSWERED = line_of({**SENT, "outcome": "answered", "rc_com": 0, "rc": 0, "values": 1, "quality": "ok"})
FORMS = ["--csv", "--columns", "--json"]


def test_starts_whole(program, folder):
    """A file that isn't there, an empty one, a front of the head, a head with half a row, and more rows than are read at once."""
    path = folder / "whole.csv"
    for held, torn in [(None, 0), (b"", 0), (HEAD[:9], 9), (HEAD, 0), (HEAD + b"2026", 4), (HEAD + LOST * 100 + LOST[:40], 40)]:
        path.unlink(missing_ok=True)
        if held is not None:
            path.write_bytes(held)
        held = held or b""
        with instrument() as far:
            found = appended(program, far, path, cycles=1)
        counts = counts_line(answered=3) + "\n"
        assert found == (0, b"", torn_line(torn) + counts), f"of {held[-60:]!r}"
        rows, rest = split(path.read_bytes())
        assert (numbers(rows), rest) == ([1, 2, 3], b""), f"of {held[-60:]!r}"
        assert path.read_bytes().startswith(held[: len(held) - torn]), f"of {held[-60:]!r}: its whole rows are gone"


def append_each_form(program, path, form):
    """What a file of a form holds after two runs, the second of which finds half a row."""
    for torn in b"", None:
        if torn is None:
            last = path.read_bytes().splitlines(True)[-1]
            torn = last[: len(last) // 2]
            with path.open("ab") as file:
                file.write(torn)
        with instrument() as far:
            status, output, messages = appended(program, far, path, form, cycles=2)
        assert (status, output) == (0, b""), f"{form}: {messages!r}"
        assert messages.startswith(torn_line(len(torn))), form
    return path.read_bytes()


def test_has_each_form(program, folder):
    """Each form of rows has its head, or none, and goes on after its own rows and half a row; a file of another form is refused."""
    held = {form: append_each_form(program, folder / f"form{form}", form) for form in FORMS}
    for form in FORMS:
        rows = rows_in(held[form], form)
        assert [int(row["values"]) for row in rows] == [1, 2, 3, 4, 5, 6] * 2, form
        if form != "--csv":
            assert [str(row["serial"]) for row in rows] == [str(row["values"]) for row in rows], form
        for other in FORMS:
            path = folder / "other"
            path.write_bytes(held[other])
            with instrument() as far:
                found = appended(program, far, path, form, cycles=1)
            if form == other:
                assert found[0] == 0, found
                assert path.read_bytes().startswith(held[other]), form
            else:
                assert found == (1, b"", "geocom: fault 66\n" + ROTATION), f"{form} behind {other}"
                assert path.read_bytes() == held[other], f"{form} changed a file of {other}"


def test_refuses(program, folder):
    """What is no such file, or was edited, is refused, and stays."""
    pipe = folder / "pipe"
    os.mkfifo(pipe)
    cases = [(folder, None, 64), (folder / "none" / "rows.csv", None, 64), (pipe, None, 64)]
    # A file of an earlier version has no request, one before that no attempt, one before that no quality, and one before that neither the run
    # nor the moment of sending; and it has its steps as places.
    fields = dict(zip(COLUMNS, fields_of(ANSWERED[:-1])))
    earlier = [line_of(dict(zip(names, names)), names) + line_of(fields, names) for names in (COLUMNS[:-1], COLUMNS[:-2], COLUMNS[:-3], COLUMNS[2:-3])]
    others = [b"x", b"run\n", *earlier, HEAD.replace(b",step,", b",place,") + ANSWERED, HEAD[:-1] + b";more\n" + ANSWERED, b"\n" + HEAD + ANSWERED, b"\xef\xbb\xbf" + HEAD + ANSWERED]
    # One that was truncated while a station wrote it has rows alone.
    cases += [(folder / "foreign.csv", held, 66) for held in [*others, ANSWERED * 3]]
    for path, held, fault in cases:
        if held is not None:
            path.write_bytes(held)
        for words in [], ["--fsync"]:
            with instrument() as far:
                status, output, messages = appended(program, far, path, *words)
                assert (status, output) == (1, b""), f"{path} {held!r}"
                assert messages.startswith(f"geocom: fault {fault}\n" + (ROTATION if fault == 66 else "")), f"{path} {held!r}"
                assert far.answered == 0 and not far.came, f"{path} {held!r}: a connection was made"
        assert held is None or path.read_bytes() == held, f"{path} {held!r}: it was changed"


def test_holds(program, folder):
    """A second program on the same file is refused, and the first goes on."""
    path = folder / "held.csv"
    with instrument() as far, instrument() as other:
        with appending(program, far, path) as first:
            until(lambda: far.answered >= 10, "the first has no ten answers", PATIENCE)
            found = appended(program, other, path, "--fsync")
            before = far.answered
            time.sleep(0.3)
            assert first.is_running(), "the first ended"
        assert found == (1, b"", "geocom: fault 65\n"), "the second"
        assert not other.came, "the second connected"
        assert far.answered > before, "the first stood still"
        numbers(split(path.read_bytes())[0])


def test_shares_no_log(program, folder):
    """The file of records is no log: fault 57. One of objects is empty at first, as a new log is; but it is held."""
    for form, head in ("--csv", HEAD), ("--json", b""):
        path = folder / f"both{form}"
        with instrument() as far:
            status, output, messages = appended(program, far, path, form, "--log", path, cycles=1)
            assert (status, output) == (1, b""), form
            assert messages.startswith("geocom: fault 57\n"), form
            assert not far.came, f"{form}: a connection was made"
        assert path.read_bytes() == head, form
