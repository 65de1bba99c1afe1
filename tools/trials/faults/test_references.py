"""What is reported where the reference prisms are hidden: a reduction has no coordinates then, and an alarm over it knows."""

from contextlib import ExitStack

import pytest

from far_end import standing
from programs import Run, until
from test_instruments import NOT_FOUND, Failing
from watched import EVERY, SILENCE, TEXT, TOOLS

# Crest, whose readings have another parameter, is the reference.
SITE = "station 1000 2000 100 1.65\nreference 8 1005 2100 98\nfaces at least 1\nreferences at least 1\nflat\n"
LIMITS = f"target,column,reference,tolerance,outside,of\n7,target_easting_m,0,100000,1,1\n7,silence,,,,{SILENCE}s\n"


@pytest.mark.title("the reference prisms are hidden")
def test_references_are_hidden(watched, folder):
    """The target itself is measured all the time: its rows of reductions say why there are no coordinates, and its silence is reported."""
    one = Failing(lambda request: request.params == b"1", NOT_FOUND)
    (folder / "site").write_text(SITE, encoding="ascii")
    (folder / "coordinates").write_text(LIMITS, encoding="ascii")
    table = folder / "reduced.csv"
    with standing(one.answer) as far, ExitStack() as stack:
        site = watched(far.port, text=TEXT.replace(b"8 17017 2", b"8 17017 1"))
        site.well()
        stack.enter_context(Run([TOOLS / "reduce", site.path, folder / "site", "--append", table, "--rest", "0.05"]))
        alarm = stack.enter_context(Run([TOOLS / "alarm", table, folder / "coordinates", folder / "other", "--rest", "0.05"]))
        until(lambda: table.exists() and table.read_bytes().count(b"pier 4") >= 2, "no coordinates", 10)
        site.breaks()
        one.fails.set()
        until(lambda: b"no good row for" in alarm.output(), f"nothing is reported: {alarm.messages()}", SILENCE + 3 * EVERY + 5)
        assert f"target 7 (pier 4): no good row for {SILENCE} s; the last was at" in alarm.output().decode()
        last = [line for line in table.read_text(encoding="ascii").split("\n") if "pier 4" in line][-1]
        assert "0 of at least 1 references" in last and ",warning," in last, last
        one.fails.clear()
        until(lambda: b"pier 4): a good row again; all is well" in alarm.output(), "no end of it", 4 * EVERY + 5)
