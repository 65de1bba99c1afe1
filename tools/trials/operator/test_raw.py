"""Procedures that aren't in the table: what is sent, what is written of their answers, and that no kept reply is taken for one."""

import csv
import json

import pytest

from far_end import good, standing
from measuring import finished, measuring, outcomes_of
from programs import PATIENCE, Run, simulator
from records import LAST

SHORT = "--deadline 300 --settle 150"
# A line of a text, what follows the colon of its request, and what it is answered with after the colon; the outcome of its row, its
# fault, its quality and its items.
ANSWERS = [
    (b"7 raw 2167 2,1", b"2,1", b"0,0.0012,-0.0034", "answered", "", "ok", ["0.0012", "-0.0034"]),
    (b"7 raw 2028", b"", b"0", "answered", "", "ok", []),
    (b'7 raw 5039  "a,b" , \x27ff\x27 ,', b' "a,b" , \x27ff\x27 ,', b'0, "a,b" , \x27ff\x27 ,', "answered", "", "ok", ['"a,b"', "\x27ff\x27", ""]),
    (b"7 raw 02167 1", b"1", b"0,1e3,x?,+", "answered", "", "ok", ["1e3", "x?", "+"]),
    (b"7 raw 18005 1", b"1", b"27", "answered", "", "refused", None),
    (b"7 raw 18005 1", b"1", b"1283,1,2", "answered", "", "warning", ["1", "2"]),
    (b"7 raw 18005 1", b"1", b"1284", "answered", "", "warning", []),
    (b"7 raw 18005 1", b"1", b"1285,1", "answered", "", "refused", None),
    (b"7 raw 65535", b"", b'0,"a', "unreadable", "13", "", None),
    (b"7 raw 1", b"", b"0" + 17 * b",1", "unreadable", "14", "", None),
    (b"7 raw 1", b"", b"0" + 16 * b",1", "answered", "", "ok", 16 * ["1"]),
]
TEXT = b"unchained\naccept 1283 1284\n" + b"".join(one[0] + b"\n" for one in ANSWERS)


def answering():
    """What answers the commands in turn."""
    given = iter(ANSWERS)
    return lambda request: request.reply(next(given)[2]) if request.rpc else good(request)


@pytest.mark.title("raw, rows")
def test_rows(program):
    """The parameters are sent exactly as they are, and what comes is in `values` as it came."""
    with standing(answering()) as far, measuring(program, far.port, SHORT, TEXT) as run:
        rows, _ = finished(run)
        assert [request.params for request in far.commands()] == [one[1] for one in ANSWERS], "what was asked"
    assert [(row["outcome"], row["fault"], row["quality"]) for row in rows] == [one[3:6] for one in ANSWERS], "the rows"
    came = [one[2].decode().partition(",") for one in ANSWERS]
    assert [(row["rc"], row["values"]) for row in rows] == [(code, values) for code, _, values in came], "what came"


@pytest.mark.title("raw, columns and objects")
def test_objects(program):
    """No quantity is in a column, and an object has the items as a list."""
    with standing(answering()) as far:
        with Run([program, "station", far.port, "--columns", *SHORT.split()], TEXT) as run:
            assert run.status(PATIENCE) == 0, run.messages()
            rows = list(csv.DictReader(run.output().decode().splitlines()))
    names = list(rows[0])
    empty = names[names.index("values") + 1 : -len(LAST)]
    assert not any(row[name] for row in rows for name in empty), "the columns of quantities"
    with standing(answering()) as far:
        with Run([program, "station", far.port, "--json", *SHORT.split()], TEXT) as run:
            assert run.status(PATIENCE) == 0, run.messages()
            objects = list(map(json.loads, run.output().splitlines()))
    assert [one.get("items") for one in objects] == [one[6] for one in ANSWERS], "the items"
    assert all(list(one)[-1 - len(LAST):] == ["items", *LAST] for one in objects if "items" in one), "where they stand"


@pytest.mark.title("raw, chains")
def test_chains(program):
    """A command of a chain is sent after one that was answered well or with an accepted code, and after no other."""
    text = b"accept 1283\n7 raw 18005 1\n7 raw 2028\n7 2011\n8 raw 2167\n8 2026\n9 raw 2167\n9 2026\n"
    given = {18005: iter([b"0"]), 2028: iter([b"1283,1013.25"]), 2167: iter([b"1284,1", b"0,\"1"])}
    with standing(lambda request: request.reply(next(given[request.rpc])) if request.rpc in given else good(request)) as far:
        with measuring(program, far.port, SHORT, text) as run:
            rows, _ = finished(run)
    assert outcomes_of(rows) == [(7, 18005, "answered"), (7, 2028, "answered"), (7, 2011, "answered"), (8, 2167, "answered"), (8, 2026, "skipped"),
                                 (9, 2167, "unreadable"), (9, 2026, "skipped")], "the rows"


@pytest.mark.title("raw, a line that loses replies, width {width}")
@pytest.mark.parametrize("width", [1, 7])
def test_lost(program, width):
    """A raw command whose reply is lost times out, and is settled as lost by a later reply."""
    text = b"unchained\n" + b"".join(b"%d raw 2167 %d\n" % (target, target) for target in range(20))
    came = []

    def answers(request):
        if request.rpc == 0:
            return good(request)
        came.append(request.params)
        return b"" if int(request.params) % 5 == 1 else request.reply(b"0," + request.params)

    with standing(answers) as far, measuring(program, far.port, f"{SHORT} --width {width} --cycles 3", text) as run:
        rows, _ = finished(run)
    assert [row["outcome"] for row in rows] == 3 * [("lost" if target % 5 == 1 else "answered") for target in range(20)], "the outcomes"
    assert all(row["values"] == row["target"] for row in rows if row["outcome"] == "answered"), "whose answers they are"


class Keeping:
    """An instrument that keeps its reply over what it doesn't know, and looks at the id of a request before it looks at its procedure."""

    def __init__(self, known):
        self.known, self.kept = known, (None, b"")

    def answer(self, request):
        if request.id == self.kept[0]:
            return self.kept[1]
        if request.rpc not in self.known:
            return b"%%R1P,3081,%d:0\r\n" % request.id
        self.kept = request.id, request.reply(self.known[request.rpc])
        return self.kept[1]


@pytest.mark.title("raw alone, an instrument that keeps its reply, width {width}")
@pytest.mark.parametrize("width", [1, 3, 7])
def test_kept_replies(program, width):
    """A station of raw commands alone books no kept reply: each is reported as not known."""
    text = b"unchained\n" + b"".join(b"%d raw 2167\n" % target for target in range(30))
    with standing(Keeping({0: b"0"}).answer) as far, measuring(program, far.port, f"{SHORT} --width {width} --cycles 3", text) as run:
        rows, _ = finished(run)
        nulls = sum(request.rpc == 0 for request in far.requests)
    assert [(row["outcome"], row["rc_com"], row["quality"]) for row in rows] == 90 * [("answered", "3081", "refused")], "the rows"
    assert 8 + 90 // 8 <= nulls <= 8 + 90 // 7 + 3, f"{nulls} null procedures for 90 commands"


@pytest.mark.title("raw between others, an instrument that keeps its reply, {raws} of them")
@pytest.mark.parametrize("raws", [6, 7, 8, 15, 16])
def test_kept_between(program, raws):
    """After so many procedures that the simulated instrument doesn't know, a call of the table gets its own answer."""
    text = b"unchained\n1 5003\n" + raws * b"2 raw 2167\n" + b"3 2026\n4 5004\n"
    with simulator(program) as port, measuring(program, port, f"{SHORT} --cycles 2", text) as run:
        rows, _ = finished(run)
    cycle = [("123456", "0")] + raws * [("", "3081")] + [("0", "0"), ('"GEOCOM SIM"', "0")]
    assert [(row["values"], row["rc_com"]) for row in rows] == 2 * cycle, "the rows"
