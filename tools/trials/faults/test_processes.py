"""What is reported where the station is stopped or killed, and where the clock is wrong."""

import datetime
import re
import signal

import pytest

import freshness
from far_end import standing
from programs import Run, until
from records import MOMENT, moment, moment_text
from test_files import expect_no_rows
from watched import EVERY, TOOLS, WITHIN

AN_HOUR = 3600


@pytest.mark.title("the station is stopped (SIGSTOP)")
def test_station_is_stopped(watched):
    """It says nothing itself. Once it goes on, its cycles are missed."""
    with standing() as far:
        site = watched(far.port)
        site.well()
        site.breaks()
        site.station.send_signal(signal.SIGSTOP)
        expect_no_rows(site)
        site.expect_none("journal")
        site.breaks()
        site.station.send_signal(signal.SIGCONT)
        site.expect("journal", rf"^geocom: \d+ cycles missed, from \d+ to \d+: \d+ rows written$", EVERY)
        site.expect("alarm", "a good row again; all is well", 3 * EVERY)
        site.expect("alive", "^OK: ", 3 * EVERY)


@pytest.mark.title("the station is killed")
def test_station_is_killed(watched):
    """The next start, which systemd makes after five seconds, says that it was."""
    with standing() as far:
        site = watched(far.port)
        site.well()
        site.breaks()
        site.station.kill()
        site.expect("journal", "^status -9$", 0)
        expect_no_rows(site)
        count = len(site.rows())
        with Run(*site.command) as again:
            line = f"geocom: the last run was killed, or a sync failed: {count} rows were copied to a new file and synced\n"
            until(lambda: line in again.messages(), f"it says {again.messages()!r}", 5)
            site.expect("alarm", "a good row again; all is well", 30)


@pytest.mark.title("the clock is an hour slow after a boot")
def test_clock_is_slow(program, watched, folder):
    """The rows of before are ahead of the clock: nobody can say how old they are until a row comes. The station itself says nothing."""
    path = folder / "rows.csv"
    with standing() as far:
        with Run([program, "station", far.port, "--every", 1, "--cycles", 2, "--append", path], b"7 17017 2\n") as before:
            assert before.status(10) == 0
        ahead = datetime.timedelta(seconds=AN_HOUR)
        text = path.read_text(encoding="ascii")
        path.write_text(re.sub(MOMENT.pattern, lambda found: moment_text(moment(found[0]) + ahead), text), encoding="ascii")
        with Run([TOOLS / "alive", path, "--within", WITHIN]) as look:
            assert look.status() == freshness.UNKNOWN
            said = look.output().decode()
        line = r"UNKNOWN: the clock is 3[56]\d\d s before the last row: it was set back, or the row's is ahead\n"
        assert re.fullmatch(line, said), f"alive says {said!r}"
        site = watched(far.port, path=path)
        site.expect("alive", "^OK: ", 2 * EVERY)
        site.expect_none("journal", "^(?!geocom: 3 commands for)")
