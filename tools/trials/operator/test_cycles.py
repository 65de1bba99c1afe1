"""Cycles: when they begin, also by the clock and when somebody asks for one, what is missed, and when a run has no end."""

import re
import signal
import threading
import time

import pytest

from far_end import LOSES, good, standing
from measuring import STAMP, Processors, expect_each_once, finished, measuring, utc_of
from programs import until
from records import moment

TWO = b"7 5003\n8 5004\n"
AWAY, AGAIN = f"geocom: no connection since {STAMP}(?:: .+)?", "geocom: connected again"


def starts_of(far, commands=2):
    """When the first request of each cycle came."""
    return [request.moment for request in far.commands()[::commands]]


@pytest.mark.title("--every 1, each cycle in time")
def test_in_time(program, note):
    """Cycles rest on a grid: each begins when it is due, however many were before."""
    cycles = 20
    with standing() as far:
        processors = Processors()
        with measuring(program, far.port, f"--every 1 --cycles {cycles} --settle 100 --deadline 100", TWO) as run:
            rows, messages = finished(run, patience=cycles + 5)
        share = processors.share()
        expect_each_once(rows, 2, cycles)
        assert (messages, {row["outcome"] for row in rows}) == ([], {"answered"}), "what was told, and the outcomes"
        late = [begin - n for n, begin in enumerate(starts_of(far))]
        worst = 1000 * (max(late) - min(late))
        most = 20 if share < 0.3 else 500
        note(f"the worst of {cycles} begins {worst:.1f} ms, at {100 * share:.0f} % of the processors")
        if most > 20:
            note(f"the machine isn't idle, so {most} ms are let pass")
        assert worst <= most


@pytest.mark.title("--every 2 --at {at}, by the clock")
@pytest.mark.parametrize("at", [0, 1])
def test_by_the_clock(program, note, at):
    """Each cycle begins so many seconds after a whole multiple of the period, UTC: the first one, too."""
    with standing() as far:
        with measuring(program, far.port, f"--every 2 --at {at} --cycles 3 --settle 100 --deadline 100", TWO) as run:
            rows, messages = finished(run, patience=15)
        expect_each_once(rows, 2, 3)
        assert (messages, {row["outcome"] for row in rows}) == ([], {"answered"}), "what was told, and the outcomes"
        begins = [request.utc for request in far.commands()[::2]]
        off = [(begin - at + 1) % 2 - 1 for begin in begins]
        note(f"the worst of {len(off)} begins {1000 * max(map(abs, off)):.1f} ms")
        assert max(map(abs, off)) < 0.2, f"cycles began {off} s off the clock"
        assert abs(begins[-1] - begins[0] - 4) < 0.2, "a cycle was left out"


@pytest.mark.title("--now, between two cycles")
def test_asked_for(program, tmp_path):
    """A change of the file begins a cycle, and the next one stays due when it was. A file that is there at the start asks for none."""
    path = tmp_path / "now"
    path.touch()
    with standing() as far:
        words = f"--every 4 --cycles 4 --settle 100 --deadline 100 --now {path}"
        with measuring(program, far.port, words, TWO) as run:
            until(lambda: len(far.asked()) == 2, "no cycle began")
            time.sleep(1)
            path.touch()
            rows, messages = finished(run, patience=20)
        expect_each_once(rows, 2, 4)
        assert (messages, {row["outcome"] for row in rows}) == ([], {"answered"}), "what was told, and the outcomes"
        begins = [begin - starts_of(far)[0] for begin in starts_of(far)]
        assert 0.9 < begins[1] < 2.3, f"the cycle that was asked for began after {begins[1]:.2f} s"
        assert abs(begins[2] - 4) < 0.2 and abs(begins[3] - 8) < 0.2, f"cycles began after {begins} s"


@pytest.mark.title("--now, while a cycle goes on")
def test_asked_for_meanwhile(program, tmp_path):
    """Changes of the file while a cycle goes on begin one more once it is done."""
    path = tmp_path / "now"

    def answers(request):
        if len(far.asked()) in (1, 2):
            path.write_text(f"{len(far.asked())}\n", encoding="utf-8")
            time.sleep(0.05)
        return good(request)

    with standing(answers) as far:
        words = f"--every 3 --cycles 3 --settle 100 --deadline 1000 --now {path}"
        with measuring(program, far.port, words, TWO) as run:
            rows, _ = finished(run, patience=20)
        expect_each_once(rows, 2, 3)
        begins = [begin - starts_of(far)[0] for begin in starts_of(far)]
        assert begins[1] < 1.5 and abs(begins[2] - 3) < 0.2, f"cycles began after {begins} s"


def expect_missed_when_due(rows, began, why):
    """The rows of missed cycles have the moments at which these were due, where the first one began then. How many cycles."""
    missed = [row for row in rows if row["outcome"] == "missed"]
    for row in missed:
        off = utc_of(row) - began - (int(row["cycle"]) - 1)
        assert abs(off) < 0.05, f"{why}: a missed row is {1000 * off:.0f} ms off its due moment: {row}"
    cycles = {row["cycle"] for row in missed}
    assert len(missed) == 2 * len(cycles), f"{why}: a missed cycle has other rows: {missed}"
    return len(cycles)


@pytest.mark.title("an outage of several cycles, width {width}")
@pytest.mark.parametrize("width", [1, 7])
def test_outage(program, note, width):
    """After an outage of several cycles each command of each has its row, and the cycles after it stand where they stood."""
    cycles = 9
    pulling = []

    def answers(request):
        if len(far.asked()) == 5 and not pulling:
            pulling.append(threading.Thread(target=pull))
            pulling[0].start()
            return LOSES
        return good(request)

    def pull():
        far.pull()
        time.sleep(2.7)
        far.plug()

    with standing(answers) as far:
        words = f"--every 1 --cycles {cycles} --settle 100 --deadline 300 --retries 50 --width {width}"
        with measuring(program, far.port, words, TWO) as run:
            rows, _ = finished(run, patience=cycles + 8)
        began = far.commands()[0].utc
        expect_each_once(rows, 2, cycles)
        many = expect_missed_when_due(rows, began, "the line was pulled")
        assert 2 <= many <= 3, f"{many} cycles were missed"
        ends = [row["outcome"] for row in rows]
        assert ends[:5] == 4 * ["answered"] + ["lost"], "the first outcomes"
        assert ends[-2:] == 2 * ["answered"], "the last outcomes"
        off = far.commands()[-2].utc - began - (cycles - 1)
        assert abs(off) < 0.1, f"the last cycle began {1000 * off:.0f} ms off"
        sent = [int(row["procedure"]) for row in rows if row["outcome"] != "missed"]
        assert far.asked() in (sent, sent[:5] + sent[6:]), f"{far.asked()} were asked"
        note(f"{many} cycles missed")


@pytest.mark.title("the program is stopped for cycles")
def test_stopped(program):
    """A program that was stopped says of each cycle that it missed when that was due."""
    cycles = 7
    with standing() as far:
        words = f"--every 1 --cycles {cycles} --settle 100 --deadline 300"
        with measuring(program, far.port, words, TWO) as run:
            until(lambda: len(far.asked()) == 4, "no second cycle began")
            time.sleep(0.3)
            with run.stopped():
                time.sleep(3)
            rows, _ = finished(run, patience=cycles + 5)
        expect_each_once(rows, 2, cycles)
        many = expect_missed_when_due(rows, far.commands()[0].utc, "it was stopped")
        assert many == 2, "how many cycles were missed"
        ends = [row["outcome"] for row in rows]
        assert ends == 4 * ["answered"] + 4 * ["missed"] + 6 * ["answered"], "the outcomes"
        off = starts_of(far)[-1] - starts_of(far)[0] - (cycles - 1)
        assert abs(off) < 0.1, f"the last cycle began {1000 * off:.0f} ms off"


@pytest.mark.title("the program is stopped, without --every")
def test_stopped_without_every(program):
    """Where each cycle begins once the one before it is done, none is missed."""
    with standing() as far, measuring(program, far.port, "--cycles 3 --settle 100 --deadline 300", TWO) as run:
        until(far.asked, "nothing was asked")
        with run.stopped():
            time.sleep(1)
        rows, _ = finished(run)
        expect_each_once(rows, 2, 3)
        assert "missed" not in {row["outcome"] for row in rows}, "a cycle was missed"


@pytest.mark.title("--cycles unlimited")
def test_no_end(program):
    """Then it measures without end."""
    with standing() as far:
        with measuring(program, far.port, "--cycles unlimited --settle 100 --deadline 100", TWO) as run:
            until(lambda: len(far.asked()) > 400, "it doesn't run on")
            assert run.is_running(), "it ended"
            run.send_signal(signal.SIGTERM)
            assert run.status() == -signal.SIGTERM, "the status"


@pytest.mark.title("--retries always")
def test_connects_on(program):
    """With --retries always it connects again until it is ended; with ten it gives up."""
    with standing() as far:
        far.pull()
        began = time.time()
        with measuring(program, far.port, "--retries 10 --settle 1 --deadline 500", TWO) as bounded:
            with measuring(program, far.port, "--retries always --settle 1 --deadline 500", TWO) as run:
                rows, messages = finished(bounded, status=1)
                assert (rows, messages[-2]) == ([], "geocom: fault 54"), "the rows and the fault of ten tries"
                assert messages[-1].startswith(f"geocom: 127.0.0.1:{far.port}: Connection refused"), f"{messages} was told"
                assert run.is_running(), f"it ended: {run.messages()!r}"
                far.plug()
                rows, messages = finished(run, patience=15)
                expect_each_once(rows, 2, 1)
                assert len(messages) == 2 and re.fullmatch(AWAY, messages[0]) and messages[1] == AGAIN
                since = moment(re.search(STAMP, messages[0])[0]).timestamp()
                assert began - 0.1 <= since <= began + 0.5, f"{messages[0]!r} was told, and it began at {began:.3f}"
                assert {row["outcome"] for row in rows} == {"answered"}, "the outcomes"
