"""One reply whose id is altered, of an instrument that answers as many requests at once as the station's width lets it ask."""

from contextlib import closing

import pytest

from counting import Counting
from measuring import finished, measuring
from programs import ended

COMMANDS = 40
# Where the id is in a reply.
AT = len(b"%R1P,0,")
# A station may hold back a seventh request.
WIDTHS, MOST = range(1, 8), 6


@pytest.mark.title("one reply's id altered, width {width}, {place}")
@pytest.mark.parametrize("place", [1, 12])
@pytest.mark.parametrize("width", WIDTHS)
def test_one_reply(program, folder, width, place, note):
    """The reply at a place gets the id of the last request that waits. Nothing else is altered, lost or repeated; one row is false at most. The
    log shows it, if replies to requests before that one follow: they are impossible."""
    log = folder / "log"
    made, others_then = [], []

    def change(reply, others):
        value = reply.rstrip().partition(b":0,")[2].decode()
        if value:
            made.append(value)
            if len(made) == place:
                others_then.append(others)
                return reply[:AT] + b"%d" % ((int(reply[AT : AT + 1]) + others) % 8) + reply[AT + 1 :]
        return reply

    text = b"unchained\n" + b"".join(b"%d 5003\n" % target for target in range(1, COMMANDS + 1))
    with closing(Counting(min(width, MOST), changed=change, pause=0.3)) as instrument:
        with measuring(program, instrument.port, f"--width {width} --deadline 1500 --settle 100 --log {log}", text) as station:
            rows, _ = finished(station, patience=60)
    assert len(rows) == COMMANDS and len(others_then) == 1
    # Commands are asked, executed and answered in order.
    own = dict(zip((row["step"] for row in rows), made))
    false = [row for row in rows if row["outcome"] == "answered" and row["values"] != own.get(row["step"])]
    kinds = [row["outcome"] for row in rows]
    _, verdicts, _ = ended([program, "check", "--log"], log.read_bytes())
    impossible = verdicts.count(b" impossible\n")
    note(f"{others_then[0] + 1} in flight; {len(false)} false of {kinds.count('answered')} answered; {impossible} impossible replies")
    assert (impossible > 0) == (others_then[0] > 1)
    assert len(false) <= 1, "\n".join(f"{row['step']}: {row['values']}" for row in false)
