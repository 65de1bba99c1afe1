"""The judges of false rows and of values, over logs that are made up: no program is wanted."""

from decimal import Decimal
from types import SimpleNamespace

import pytest

from altering import Arrived, Reached
from confirming import judge_values
from counting import Heard
from judging import SYNCHRONIZING, judge
from surveying import Target

ANSWERED, LOST = "answered", "lost"
TRUE, FALSE = "0.5,1.5,25.125", "0.5,1.5,26.125"


class Made:
    """A run of a station that is made up: what it sends reaches the instrument, and is executed."""

    def __init__(self):
        self.log, self.sent, self.rows = ["M - open"], 0, []
        self.line = SimpleNamespace(arrived=[], reached=[])
        self.instrument = SimpleNamespace(heard=[])
        for number in SYNCHRONIZING:
            self.send(0, number)
            self.hear(number, "0")

    def send(self, rpc, number):
        self.sent += 1
        self.log.append(f"M > %R1Q,{rpc},{number}:")
        self.line.reached.append(Reached(self.sent, None))
        self.instrument.heard.append(Heard(str(rpc), self.sent - 1))

    def hear(self, number, values, altered=None, made_on=None):
        text = f"%R1P,0,{number}:{values}"
        self.log.append(f"M < {text}")
        self.line.arrived.append(Arrived(1, text.encode() + b"\r", altered and ("down", altered), made_on or self.sent))

    def row(self, outcome, values="", **others):
        code = "0" if outcome == ANSWERED else ""
        self.rows.append({"sent": "M", "outcome": outcome, "rc_com": code, "rc": code, "values": values, **others})

    def measure(self, first, second, *altered):
        """A target is measured by two sendings, in which these values arrive. `altered` are the sendings whose reply was altered."""
        for attempt, values in enumerate((first, second), 1):
            self.send(2108, self.sent % 8)
            self.hear((self.sent - 1) % 8, f"0,{values}", altered=self.sent if attempt in altered else None)
            quality = "unconfirmed" if attempt == 1 else "ok"
            self.row(ANSWERED, values, cycle="1", target="1", attempt=str(attempt), procedure="2108", quality=quality)
        targets, log = {1: Target(Decimal("0.5"), Decimal("1.5"), Decimal("25.125"))}, "\n".join(self.log)
        verdict = judge_values(self.rows, log, self.line, targets, [Decimal("0.001")] * 3)
        assert not verdict.faults and verdict.good == 1
        return verdict

    def verdict(self):
        return judge(self.rows, "\n".join(self.log), self.line, self.instrument)


def displaced(is_by_two):
    """Requests 9 to 13 are executed as 9 to 13; the reply to one gets the id of the last, the next five go out, and a reply to one of the
    first five is taken for one of those. Before it, where it is by two, a reply to the first has another digit in its value."""
    run = Made()
    if is_by_two:
        run.send(5003, 0)
        run.hear(0, "0,1", altered=9)
        run.row(ANSWERED, "1")
    first = run.sent + 1
    ids = [number % 8 for number in range(first - 9, first + 1)]
    for number in ids[:5]:
        run.send(5003, number)
    run.hear(ids[4], f"0,{first}", altered=first)
    for number in ids[5:]:
        run.send(5003, number)
    run.hear(ids[1], f"0,{first + 1}")
    for outcome, values in [(LOST, "")] * 4 + [(ANSWERED, str(first))] + [(LOST, "")] * 4 + [(ANSWERED, str(first + 1))]:
        run.row(outcome, values)
    return run


@pytest.mark.title("judge: a reply that is displaced by one damaged line is a fault")
def test_displaced():
    verdict = displaced(is_by_two=False).verdict()
    assert verdict.false == {("down", 9): 1} and verdict.displaced == 0 and len(verdict.faults) == 1
    assert "was altered nowhere" in verdict.faults[0]


@pytest.mark.title("judge: one that follows two damaged lines in a row is counted apart")
def test_displaced_by_two():
    verdict = displaced(is_by_two=True).verdict()
    assert verdict.false == {("down", 9): 1, ("down", 10): 1} and verdict.displaced == 1 and not verdict.faults


@pytest.mark.title("judge: right rows, and a station that says something else than its line")
def test_right():
    run = Made()
    for number in range(3):
        run.send(5003, number)
    for number in range(3):
        run.hear(number, f"0,{9 + number}")
        run.row(ANSWERED, str(9 + number))
    verdict = run.verdict()
    assert not verdict.false and not verdict.faults and verdict.damaged == 0
    run.rows[1]["values"] = "11"
    assert len(run.verdict().faults) == 1


@pytest.mark.title("judge: a synchronization forgets what was displaced")
def test_synchronized():
    run = displaced(is_by_two=True)
    for number in SYNCHRONIZING:
        run.send(0, number)
        run.hear(number, "0")
    # A null procedure of the new client's own comes first.
    run.send(0, 0)
    run.hear(0, "0")
    run.send(5003, 1)
    run.hear(1, "0,10")
    run.row(ANSWERED, "10")
    verdict = run.verdict()
    assert verdict.displaced == 1 and len(verdict.faults) == 1


@pytest.mark.title("judge: a false value that two sendings confirm has two damaged lines behind it, or is by fewer")
def test_values():
    assert Made().measure(TRUE, TRUE).false == Made().measure(TRUE, "0.5,1.5,25.126", 2).false == 0
    by_two, by_one, by_none = Made().measure(FALSE, FALSE, 1, 2), Made().measure(TRUE, FALSE, 2), Made().measure(FALSE, FALSE)
    assert by_two.false == 1 and not by_two.by_fewer
    assert by_one.false == len(by_one.by_fewer) == by_none.false == len(by_none.by_fewer) == 1
