"""What is reported where the line or the instrument is gone: by the station, in its file of rows, by the alarm, by `alive`, and at the broker."""

import threading

import pytest

from far_end import LOSES, good, standing
from programs import ended, free_port
from records import counts_line
from watched import COMMANDS, DEADLINE, EVERY, MEASURED, PATIENCE, SILENCE, STAMP, TEXT

# In how many seconds a cycle that was due is in the file, and the next one is; and what an outage's rows end as.
ROWS = 2 * EVERY + DEADLINE
NO_ROWS = "lost", "skipped", "missed"


def expect_silence(site, targets=2, cycle=2 * EVERY + ROWS):
    """Each who watches reports that nothing is measured any more."""
    site.expect("alarm", rf"station: no good row for {SILENCE} s; ", SILENCE)
    site.expect("alive", rf"^CRITICAL: {targets} of {targets} not measured within {MEASURED} s; ", MEASURED)
    site.expect("broker", r"good \d measured \[\] unmeasured \['pier 4', 'crest'\]", cycle)


def expect_end_of_silence(site):
    """Each of them reports that all is well again."""
    site.breaks()
    site.expect("alarm", "a good row again; all is well", 3 * EVERY)
    site.expect("alive", "^OK: ", 3 * EVERY)
    site.expect("broker", r"measured \['pier 4', 'crest'\] unmeasured \[\]", 4 * EVERY)


@pytest.mark.title("the instrument is off")
def test_instrument_is_off(watched, note):
    """Behind a port or a device that is there: the station says so within a minute, all others within their limits."""
    is_off = threading.Event()
    with standing(lambda request: LOSES if is_off.is_set() else good(request)) as far:
        site = watched(far.port)
        site.well()
        site.breaks()
        is_off.set()
        expect_silence(site)
        site.expect("journal", f"^geocom: no answer since {STAMP}$", 60 + EVERY + DEADLINE, least=50)
        note(f"the latest row {site.expect_rows_in_time(*NO_ROWS):.1f} s after its cycle was due")


@pytest.mark.title("the line is dead from the start")
def test_line_is_dead_from_the_start(watched, note):
    """The reason is reported at once, and the first cycle is due one period after the start."""
    site = watched(free_port())
    site.expect("journal", rf"^geocom: no connection since {STAMP}: Connection refused \(os error 111\)$", 0)
    site.expect("alive", "^WARNING: .* has no row of a cycle yet", 0)
    site.expect("alarm", rf"station: no good row for {SILENCE} s; none since {STAMP}", SILENCE)
    site.expect("alive", rf"^CRITICAL: 2 of 2 not measured within {MEASURED} s; .* never in this file", EVERY + ROWS + MEASURED)
    site.expect("broker", r"cycle 1 good 0 measured \[\] unmeasured \['pier 4', 'crest'\]", 2 * EVERY + ROWS)
    note(f"the latest row {site.expect_rows_in_time('missed'):.1f} s after its cycle was due")


@pytest.mark.title("the line is dead, for three cycles")
def test_line_is_dead_for_three_cycles(program):
    """A run of few cycles comes to its end: its status is 0, and the counts say that nothing was measured."""
    words = f"--every {EVERY} --cycles 3 --retries always --deadline 200 --settle 100 --csv".split()
    found = ended([program, "station", free_port(), *words], TEXT, patience=4 * EVERY + PATIENCE)
    assert (found.status, found.messages.splitlines()[-1]) == (0, counts_line(missed=3 * COMMANDS)), found
    assert found.output.count(b",missed,") == 3 * COMMANDS


@pytest.mark.title("the line is dead later, and comes back")
def test_line_is_dead_later(watched, note):
    """While it is down: not only after it came back."""
    with standing() as far:
        site = watched(far.port)
        site.well()
        site.breaks()
        far.pull()
        site.expect("journal", rf"^geocom: no connection since {STAMP}(: Connection refused \(os error 111\))?$", EVERY)
        expect_silence(site)
        late = site.expect_rows_in_time(*NO_ROWS)
        far.plug()
        expect_end_of_silence(site)
        site.expect("journal", "^geocom: connected again$", 3 * EVERY)
        note(f"the latest row {late:.1f} s after its cycle was due")


@pytest.mark.title("the line is never quiet")
def test_line_is_never_quiet(watched, note):
    """Noise on each new connection: nothing is sent, and the station says why after a minute."""
    is_over = threading.Event()

    def hum():
        while not is_over.wait(0.03):
            near = far.near
            if near and len(far.came) > 1:
                far.say(near, len(far.came), b"~")

    with standing() as far:
        site = watched(far.port, quiet=1)
        site.well()
        noise = threading.Thread(target=hum, daemon=True)
        noise.start()
        site.breaks()
        far.pull()
        far.plug()
        expect_silence(site)
        site.expect("journal", f"^geocom: line not quiet since {STAMP}$", 60 + EVERY, least=50)
        note(f"the latest row {site.expect_rows_in_time(*NO_ROWS):.1f} s after its cycle was due")
        is_over.set()
        noise.join()
