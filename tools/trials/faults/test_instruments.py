"""What is reported of an instrument that answers, and doesn't measure: prisms that are gone, a setup that is refused, an instrument that
refuses all."""

import threading

import pytest

from far_end import good, standing
from test_lines import ROWS, expect_end_of_silence, expect_silence
from watched import DEADLINE, EVERY, MEASURED, SILENCE, STAMP, TEXT

# How long `--stale` waits for a command that is answered well.
STALE = 4
# The commands of a cycle, as messages have them: on a busy machine the first one may be that which was lost in the cycle before.
PRISM, ANY = r"[78] \((pier 4|crest)\), 17017", r"(7 \(pier 4\), 17017|8 \(crest\), 17017|9, 5003)"
# The instrument finds no target; it refuses what it is asked.
NOT_FOUND, REFUSES = b"8710", b"3081"
SETUP = b"at start\n9 2011\neach cycle\n" + TEXT


class Failing:
    """An instrument that refuses some commands once it fails."""

    def __init__(self, refuses, code):
        self.refuses, self.code, self.fails = refuses, code, threading.Event()

    def answer(self, request):
        return request.reply(self.code) if self.fails.is_set() and self.refuses(request) else good(request)


def expect_refused(site, command):
    site.expect("journal", rf"^geocom: commands not answered well since {STAMP}: 1; the last: target {command}$", EVERY + DEADLINE)


def expect_stale(site, command):
    """The run ends, and says which command it was, and since when."""
    site.expect("journal", rf"^geocom: target {command}: no answer with quality ok or warning since {STAMP}$", STALE + EVERY, least=STALE - 2 * EVERY)
    site.expect("journal", "^geocom: fault 48$", STALE + EVERY)
    site.expect("journal", "^status 1$", STALE + EVERY)


@pytest.mark.title("prisms are gone")
def test_prisms_are_gone(watched):
    """The instrument answers all else, and its rows come in time."""
    one = Failing(lambda request: request.rpc == 17017, NOT_FOUND)
    with standing(one.answer) as far:
        site = watched(far.port)
        site.well()
        site.breaks()
        one.fails.set()
        expect_refused(site, f"{PRISM}: refused 8710")
        expect_silence(site, cycle=3 * EVERY)
        site.expect_rows_in_time("answered")
        one.fails.clear()
        expect_end_of_silence(site)


@pytest.mark.title("prisms are gone, with --stale")
def test_prisms_are_gone_stale(watched):
    """The run ends, though a serial number is answered well in each cycle."""
    one = Failing(lambda request: request.rpc == 17017, NOT_FOUND)
    with standing(one.answer) as far:
        site = watched(far.port, f"--retries always --stale {STALE}")
        site.well()
        site.breaks()
        one.fails.set()
        expect_stale(site, PRISM)


@pytest.mark.title("one prism is gone")
def test_one_prism_is_gone(watched):
    """It is named, and what is measured goes on."""
    one = Failing(lambda request: request.params == b"1", NOT_FOUND)
    with standing(one.answer) as far:
        site = watched(far.port, text=TEXT.replace(b"8 17017 2", b"8 17017 1"))
        site.well()
        site.breaks()
        one.fails.set()
        expect_refused(site, r"8 \(crest\), 17017: refused 8710")
        site.expect("alarm", rf"target 8 \(crest\): no good row for {SILENCE} s; ", SILENCE)
        site.expect("alive", rf"^WARNING: 1 of 2 not measured within {MEASURED} s; targets: 2, oldest measurement: 8 \(crest\), ", MEASURED)
        site.expect("broker", r"good 2 measured \['pier 4'\] unmeasured \['crest'\]", 3 * EVERY)
        site.expect_none("alarm", "station")
        site.expect_rows_in_time("answered")


@pytest.mark.title("the setup is refused")
def test_setup_is_refused(watched, note):
    """After a reconnection: each cycle is missed, and each try of the setup has its rows."""
    one = Failing(lambda request: request.rpc == 2011, REFUSES)
    with standing(one.answer) as far:
        site = watched(far.port, text=SETUP)
        site.well()
        site.breaks()
        one.fails.set()
        far.pull()
        far.plug()
        site.expect("journal", f"^geocom: setup not done since {STAMP}$", 2 * EVERY)
        expect_silence(site)
        note(f"the latest row {site.expect_rows_in_time('lost', 'skipped', 'missed'):.1f} s after its cycle was due")
        assert [row["rc"] for row in site.rows() if row["cycle"] == "0"][1:3] == ["3081", "3081"], "the rows of the setup"


@pytest.mark.title("the setup is refused, with --retries 2")
def test_setup_is_refused_with_retries(watched):
    """The run ends once the tries are used up, with rests of a quiet time and twice that."""
    one = Failing(lambda request: request.rpc == 2011, REFUSES)
    one.fails.set()
    with standing(one.answer) as far:
        site = watched(far.port, "--retries 2", text=SETUP)
        site.expect("journal", "^geocom: fault 49$", 5 * 0.1 + ROWS)
        site.expect("journal", "^status 1$", 5 * 0.1 + ROWS)


@pytest.mark.title("the instrument answers, and refuses all")
def test_refuses_all(watched):
    """Each row says so, with its return code; and with `--stale` the run ends."""
    one = Failing(lambda request: request.rpc != 0, REFUSES)
    with standing(one.answer) as far:
        site = watched(far.port, f"--retries always --stale {STALE}")
        site.well()
        site.breaks()
        one.fails.set()
        expect_refused(site, f"{ANY}: refused 3081")
        expect_silence(site, cycle=3 * EVERY)
        site.expect_rows_in_time("answered")
        expect_stale(site, ANY)
