"""Chains: no target is measured where the telescope points at another one, and no value is booked that doesn't read."""

import csv
import re
import time

import pytest

from far_end import CLOSES, closes, good, loses, standing
from measuring import STAMP, finished, measuring, outcomes_of
from programs import PATIENCE, Run
from records import COLUMNS_HEAD, counts_line

PRISMS = b"7 9027 0.5,1.5,0,1,0\n7 17017 2\n8 9027 2.25,1.625,0,1,0\n8 17017 2\n"
SHORT = "--deadline 300 --settle 300"


def first(rpc, other):
    """What answers each request well but the first one of this procedure, which gets something other."""
    came = []

    def answers(request):
        if request.rpc == rpc and not came:
            came.append(request)
            return other(request)
        return good(request)

    return answers


def refuses(request):
    return request.reply(b"8710")


def does_not_know(request):
    return b"%%R1P,3081,%d:0\r\n" % request.id


def answers_late(request):
    time.sleep(0.45)
    return good(request)


# How a positioning may go wrong: what comes in place of a good answer, and the outcome of its row.
WAYS = {
    "lost": (loses, "lost"),
    "refused": (refuses, "answered"),
    "not known": (does_not_know, "answered"),
    "late": (answers_late, "late"),
    "cut off by a close": (closes, "lost"),
}


@pytest.mark.title("the wrong prism, a positioning {what}, width {width}")
@pytest.mark.parametrize("what", WAYS)
@pytest.mark.parametrize("width", [1, 7])
def test_wrong_prism(program, what, width):
    """Where the telescope wasn't turned to a target that isn't measured, its row says so, and the next target goes on."""
    other, outcome = WAYS[what]
    with standing(first(9027, other)) as far, measuring(program, far.port, f"{SHORT} --width {width}", PRISMS) as run:
        rows, messages = finished(run)
        assert outcomes_of(rows) == [(7, 9027, outcome), (7, 17017, "skipped"), (8, 9027, "answered"), (8, 17017, "answered")]
        assert far.asked() == [9027, 9027, 17017], "what was asked"
        messages = [line for line in messages if "connect" not in line and "not answered well" not in line]
        assert len(messages) == 1 and re.fullmatch(f"geocom: commands skipped since {STAMP}: 1", messages[0]), f"{messages} was told"


@pytest.mark.title("the wrong prism, an answer behind a close, width {width}")
@pytest.mark.parametrize("width", [1, 7])
def test_answer_behind_a_close(program, width):
    """A good answer that comes over a later connection is booked, and the command after it isn't sent."""
    held = []

    def keeps(request):
        held.append(good(request))
        return CLOSES

    def says(connection):
        return [(0.6, held[0])] if connection == 2 else []

    with standing(first(9027, keeps), says) as far:
        with measuring(program, far.port, f"--deadline 2000 --settle 300 --width {width}", PRISMS) as run:
            rows, _ = finished(run)
            assert outcomes_of(rows) == [(7, 9027, "answered"), (7, 17017, "skipped"), (8, 9027, "answered"), (8, 17017, "answered")]
            assert far.asked() == [9027, 9027, 17017], "what was asked"


@pytest.mark.title("the wrong prism, the next cycle")
def test_next_cycle(program):
    """What was skipped in a cycle is asked in the next."""
    with standing(first(9027, loses)) as far, measuring(program, far.port, f"{SHORT} --cycles 2", PRISMS) as run:
        rows, _ = finished(run)
        ends = [row["outcome"] for row in rows]
        assert ends == ["lost", "skipped"] + 6 * ["answered"], "the outcomes"
        assert far.asked() == [9027, 9027, 17017] + 2 * [9027, 17017], "what was asked"


# How chains are taken away: the words of the station, and its text.
UNCHAINED = {
    "--unchained, width 1": ("--unchained --width 1", PRISMS),
    "--unchained, width 7": ("--unchained --width 7", PRISMS),
    "unchained by the text": ("--width 1", b"unchained\n" + PRISMS),
}


@pytest.mark.title("the wrong prism, {how}")
@pytest.mark.parametrize("how", UNCHAINED)
def test_unchained(program, how):
    """Where commands are not chained each is sent by itself."""
    words, text = UNCHAINED[how]
    with standing(first(9027, loses)) as far:
        with measuring(program, far.port, f"{SHORT} {words}", text) as run:
            rows, _ = finished(run)
            assert outcomes_of(rows) == [(7, 9027, "lost"), (7, 17017, "answered"), (8, 9027, "answered"), (8, 17017, "answered")]
            assert far.asked() == [9027, 17017, 9027, 17017], "what was asked"


@pytest.mark.title("chains, what a row is")
def test_what_a_row_is(program):
    """A row is what stands for one target, one line after the other, with no line of chains between."""
    text = b"7 2107 0\n8 2011\n7 2011\n\n# still its row\ndeadline 300\n7 2026\nchained\n7 2107 0\nunchained\n7 2011\n7 2026\n"
    with standing(lambda request: request.reply(b"1285" if request.rpc else b"0")) as far:
        with measuring(program, far.port, SHORT, text) as run:
            rows, _ = finished(run)
            ends = ["answered", "answered", "answered", "skipped", "answered", "answered", "answered"]
            assert [row["outcome"] for row in rows] == ends, "the outcomes"
            assert [row["rc"] for row in rows] == [end and "1285" * (end == "answered") for end in ends], "the codes"


# What comes in place of two angles, after the colon, with the outcome, the fault and the values of its row.
ANGLES = [
    (b"0,2.25,1.6?", "unreadable", "11", "2.25,1.6?"),
    (b"0,2.25,1.6\xff", "unreadable", "11", "2.25,1.6\\xff"),
    (b"0,2.25", "unreadable", "15", "2.25"),
    (b"0,2.25,1.6,0", "unreadable", "15", "2.25,1.6,0"),
    (b'0,2.25,"1.6', "unreadable", "13", '2.25,"1.6'),
    (b"0,2.25,1e14", "unreadable", "12", "2.25,1e14"),
    (b"0", "unreadable", "15", ""),
    (b"0,2.25,1.6", "answered", "", "2.25,1.6"),
    (b"1285", "answered", "", ""),
    (b"1285,2.25", "answered", "", "2.25"),
]


@pytest.mark.title("values that don't read")
def test_values_that_do_not_read(program):
    """An answer whose values don't read says so, with the fault; one that refuses is answered."""
    given = iter(ANGLES)

    def answers(request):
        return request.reply(next(given)[0] if request.rpc else b"0")

    text = b"".join(b"%d 2107 0\n" % target for target in range(len(ANGLES)))
    with standing(answers) as far, measuring(program, far.port, SHORT, text) as run:
        rows, _ = finished(run)
        ends = [(row["outcome"], row["fault"], row["values"]) for row in rows]
        assert ends == [angle[1:] for angle in ANGLES], "the rows"


@pytest.mark.title("behind values that don't read, width {width}")
@pytest.mark.parametrize("width", [1, 7])
def test_behind_unreadable_values(program, width):
    """After an answer that doesn't read the next command of its row isn't sent."""
    text = b"7 2107 0\n7 2011\n8 2107 0\n8 2011\n"
    with standing(first(2107, lambda request: request.reply(b"0,2.25,1.6?"))) as far:
        with measuring(program, far.port, f"{SHORT} --width {width}", text) as run:
            rows, _ = finished(run)
            assert outcomes_of(rows) == [(7, 2107, "unreadable"), (7, 2011, "skipped"), (8, 2107, "answered"), (8, 2011, "answered")]
            assert far.asked() == [2107, 2107, 2011], "what was asked"


# What answers each measurement of a text that accepts 1283 and 1284 until its last row, after the colon; the quality of the row, its
# distance, and the outcome of the command after it.
ACCEPTED = [
    (b"0,2.25,1.6,110.5", "ok", "110.5", "answered"),
    (b"1283,2.25,1.6,110.5", "warning", "110.5", "answered"),
    (b"1284,2.25", "warning", "", "answered"),
    (b"1284", "warning", "", "answered"),
    (b"1285,2.25,1.6,110.5", "refused", "", "skipped"),
    (b"1283,2.25,1.6,110.5", "refused", "", "skipped"),
]


@pytest.mark.title("accepted return codes, width {width}")
@pytest.mark.parametrize("width", [1, 7])
def test_accepted(program, width):
    """After an answer with an accepted return code the next command of its row is sent, and its values are in the columns; after any
    other code it doesn't, and they don't."""
    given = iter(ACCEPTED)

    def answers(request):
        return request.reply(next(given)[0]) if request.rpc == 2108 else good(request)

    lines = [b"%d 2108 1000,1\n%d 2011\n" % (target, target) for target in range(len(ACCEPTED))]
    text = b"accept 1283 1284\n" + b"".join(lines[:-1]) + b"accept\n" + lines[-1]
    with standing(answers) as far:
        with Run([program, "station", far.port, "--columns", *SHORT.split(), "--width", width], text) as run:
            assert run.status(PATIENCE) == 0, run.messages()
            rows = list(csv.DictReader(run.output().decode().splitlines()))
    assert list(rows[0]) == COLUMNS_HEAD.decode().strip().split(","), "the columns"
    measured, behind = rows[::2], rows[1::2]
    found = [(row["quality"], row["distance_m"], after["outcome"]) for row, after in zip(measured, behind)]
    assert found == [one[1:] for one in ACCEPTED], "the rows"
    assert [row["rc"] for row in measured] == [one[0].split(b",")[0].decode() for one in ACCEPTED], "the codes"


@pytest.mark.title("an accepted answer of another place")
def test_accepted_off_target(program):
    """`near` looks at an accepted answer, too."""
    text = b"near 7 0.5 1.5 0.01\naccept 1283\n7 2107 0\n7 2107 0\n"
    given = iter([b"1283,2.5,1.5", b"1283,0.5,1.5"])
    with standing(lambda request: request.reply(next(given) if request.rpc else b"0")) as far:
        with measuring(program, far.port, f"{SHORT} --unchained", text) as run:
            rows, _ = finished(run)
            assert [(row["outcome"], row["quality"]) for row in rows] == [("off_target", ""), ("answered", "warning")], "the rows"


# What 17017 answers in both sendings of a chain, and in further ones; and the outcome, quality and distance of the rows of these answers.
ONE = b"0,0.5,1.5,25.0,2"
UNCONFIRMED = ("answered", "unconfirmed", "")
TWICE = {
    "a scatter": ([ONE, b"0,0.50001,1.49999,25.001,2"], [UNCONFIRMED, ("answered", "ok", "25.001")]),
    "the tolerances themselves": ([ONE, b"0,0.50002,1.49998,25.002,2"], [UNCONFIRMED, ("answered", "ok", "25.002")]),
    "over the circle's end": ([b"0,6.28318,1.5,25.0,2", b"0,0.00001,1.5,25.0,2"], [UNCONFIRMED, ("answered", "ok", "25.0")]),
    "a direction that is altered": ([b"0,0.9,1.5,25.0,2", ONE], [UNCONFIRMED, ("disagree", "", "")]),
    "an angle that is altered": ([ONE, b"0,0.5,1.50003,25.0,2"], [UNCONFIRMED, ("disagree", "", "")]),
    "a distance that is altered": ([ONE, b"0,0.5,1.5,26.0,2"], [UNCONFIRMED, ("disagree", "", "")]),
    "a mode that is altered": ([ONE, b"0,0.5,1.5,25.0,3"], [UNCONFIRMED, ("disagree", "", "")]),
    "a refusal at first": ([b"1285"], [("answered", "refused", "")]),
    "a refusal in the second sending": ([ONE, b"1285"], [UNCONFIRMED, ("answered", "refused", "")]),
    "a warning in the second sending": ([ONE, b"1284,0.5,1.5,25.0,2"], [UNCONFIRMED, ("answered", "warning", "25.0")]),
    "sent again": ([b"0,0.9,1.5,25.0,2", ONE, ONE, ONE], [UNCONFIRMED, ("disagree", "", ""), UNCONFIRMED, ("answered", "ok", "25.0")]),
}


@pytest.mark.title("a chain that is sent twice, {what}")
@pytest.mark.parametrize("what", TWICE)
def test_sent_twice(program, what):
    """The rows of the first sending are unconfirmed, and one of the second that is apart by more than the tolerances disagrees. No row that counts
    has a value that one altered reply made."""
    answers, wanted = TWICE[what]
    given = iter(answers)
    again = b"retry 1 disagree\n" if len(answers) > 2 else b""
    text = b"accept 1284\nagree 0.00002 0.00002 0.002\n" + again + b"7 9027 0.5,1.5,0,1,0\n7 17017 2\nagree\n8 5003\n"
    with standing(lambda request: request.reply(next(given)) if request.rpc == 17017 else good(request)) as far:
        with Run([program, "station", far.port, "--columns", *SHORT.split()], text) as run:
            assert run.status(PATIENCE) == 0, run.messages()
            rows = list(csv.DictReader(run.output().decode().splitlines()))
            disagree = sum(outcome == "disagree" for outcome, _, _ in wanted[-2:])
            assert f" disagree {disagree} retried {int(bool(again))}" in run.messages().splitlines()[-1]
    measured = [row for row in rows if row["procedure"] == "17017" and row["sent"]]
    assert [(row["outcome"], row["quality"], row["distance_m"]) for row in measured] == wanted, "the rows"
    assert [row["attempt"] for row in measured] == [str(attempt) for attempt in range(1, len(wanted) + 1)], "the attempts"
    assert (rows[-1]["procedure"], rows[-1]["quality"], rows[-1]["attempt"]) == ("5003", "ok", "1"), "the command after it"


# What a line `expect` asks for and expects, what is answered, and the outcome of its row.
EXPECTED = {
    "the value": (b"2026 = 0", b"0,0", "answered"),
    "another value": (b"2026 = 1", b"0,0", "unexpected"),
    "an equal number": (b"2011 = 1.650", b"0,1.65", "answered"),
    "any value": (b"2011 = *", b"0,1.65", "answered"),
    "a number of a range": (b"2107 0 = *,1.5..1.6", b"0,2.25,1.6", "answered"),
    "a number beyond a range": (b"2107 0 = *,-1.6..1.5", b"0,2.25,1.6", "unexpected"),
    "a text": (b'5004 = "GEOCOM SIM"', b'0,"GEOCOM SIM"', "answered"),
    "another text": (b'5004 = "GEOCOM SIM"', b'0,"GEOCOM SIN"', "unexpected"),
    "a value too few": (b"raw 2029 = *,*", b"0,1013.25", "unexpected"),
    "a value too many": (b"raw 2029 = *", b"0,1013.25,12", "unexpected"),
    "no value": (b"raw 18005 1 = 1", b"0", "unexpected"),
    "a refusal": (b"2026 = 0", b"1285", "answered"),
    "what doesn't read": (b"2026 = x", b"0,x", "unreadable"),
}


@pytest.mark.title("an answer that has to have a value: {what}")
@pytest.mark.parametrize("what", EXPECTED)
def test_expected(program, what):
    """An answer that isn't as expected is no good one: its chain ends, and the setup comes before anything else is sent."""
    asks, answer, wanted = EXPECTED[what]
    rpc = int(re.search(rb"\d+", asks).group())
    text = b"at start\n9 107 8\neach cycle\n7 expect " + asks + b"\n7 2009\n8 2010 1,2,3,4\n"
    with standing(lambda request: request.reply(answer if request.rpc == rpc else b"0,1,2,3,4" if request.rpc == 2009 else b"0")) as far:
        with measuring(program, far.port, SHORT, text) as run:
            rows, _ = finished(run)
    is_good = wanted == "answered" and rows[1]["quality"] == "ok"
    ends = [(9, 107, "answered"), (7, rpc, wanted), (7, 2009, "answered" if is_good else "skipped")]
    # The setup is sent anew.
    ends += [(9, 107, "answered")] * (wanted == "unexpected") + [(8, 2010, "answered")]
    assert sorted(outcomes_of(rows)) == sorted(ends), "the rows"
    asked = [request.rpc for request in far.requests if request.rpc]
    assert asked == [107, rpc] + [2009] * is_good + [107] * (wanted == "unexpected") + [2010], "the requests"
    assert not rows[1]["quality"] if wanted == "unexpected" else rows[1]["outcome"] == wanted


@pytest.mark.title("a number that has to be greater than before")
def test_greater(program):
    """It is compared with the answer before, expected or not, and the first one may be any."""
    numbers = iter([b"5", b"6", b"6", b"7", b"3", b"4"])
    with standing(lambda request: request.reply(b"0," + next(numbers)) if request.rpc == 5003 else good(request)) as far:
        with measuring(program, far.port, f"{SHORT} --cycles 6", b"7 expect 5003 = >\n7 2026\n") as run:
            rows, _ = finished(run)
    assert [row["outcome"] for row in rows[::2]] == ["answered", "answered", "unexpected", "answered", "unexpected", "answered"]
    assert [row["outcome"] for row in rows[1::2]] == ["answered", "answered", "skipped", "answered", "skipped", "answered"]


@pytest.mark.title("a setup whose answer isn't as expected")
def test_expected_setup(program):
    """The connection is closed, and the setup starts over on a new one; no command of a cycle is sent before it is as expected."""
    kinds = iter([b"0", b"3", b"7"])
    with standing(lambda request: request.reply(b"0," + next(kinds)) if request.rpc == 17009 else good(request)) as far:
        with measuring(program, far.port, f"{SHORT} --retries 5", b"at start\n9 expect 17009 = 7\neach cycle\n7 2026\n") as run:
            rows, _ = finished(run)
    found = [(row["cycle"], row["outcome"], row["values"]) for row in rows]
    assert found == [("0", "unexpected", "0"), ("0", "unexpected", "3"), ("0", "answered", "7"), ("1", "answered", "0")], "the rows"
    assert [request.connection for request in far.requests if request.rpc == 17009] == [1, 2, 3], "the connections"


@pytest.mark.title("the counts, one of each outcome")
def test_counts(program):
    """The last line counts the rows: one of each outcome but missed."""
    ends = {7: good, 8: answers_late, 9: loses, 10: refuses, 11: lambda request: request.reply(b"0,2.25")}
    text = b"".join(b"%d 2107 0\n" % target for target in ends) + b"11 2011\n12 expect 2026 = 1\n"
    asked = iter(ends.values())
    with standing(lambda request: next(asked, good)(request) if request.rpc else good(request)) as far:
        with measuring(program, far.port, SHORT, text) as run:
            rows, _ = finished(run)
            ends = ["answered", "late", "lost", "answered", "unreadable", "skipped", "unexpected"]
            assert [row["outcome"] for row in rows] == ends, "the outcomes"
            messages = run.messages().splitlines()[-1]
            assert messages == counts_line(answered=2, refused=1, late=1, lost=1, skipped=1, unreadable=1, unexpected=1), "the last line"
