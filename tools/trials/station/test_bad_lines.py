"""Stations over bad lines, by several seeds, widths and times; with rests between cycles, with cycles that are missed, with chains, at
127.0.0.2 and localhost in place of a port alone, and at a device, which is a pseudo terminal; one that is stopped for a while; one of
which a request is held back over a close; and one over a device that goes away again and again. All of them run side by side, since all
that they do is wait."""

from functools import partial

import pytest

from devices import pull
from held import hold
from lines import BadLine, measure
from side import Side
from stopped import stop

LINES = [
    # Idle connections are closed later than a new one is drained.
    BadLine("rests", "--width 3", "--seed 7 --kill --idle 900", cycles=40, is_tagged=True, quiet=100, every=2),
    BadLine("good", "--width 7", "--seed 0 --bad 0", cycles=20),
    BadLine("one", "--width 1", "--seed 1 --kill", host="localhost"),
    # With a short quiet time and a long deadline replies that were held back are answers still.
    BadLine("one_long", "--width 1", "--seed 2 --kill", is_tagged=True, deadline=800, quiet=120),
    BadLine("three", "--width 3", "--seed 3 --kill", is_tagged=True, address="127.0.0.2", host="127.0.0.2"),
    BadLine("seven", "--width 7", "--seed 4 --kill"),
    BadLine("seven_long", "--width 7", "--seed 5 --kill", is_tagged=True, deadline=800, quiet=120),
    # Cycles that are so near to one another that some are missed.
    BadLine("pressed", "--width 3", "--seed 9 --kill", cycles=60, is_tagged=True, every=1),
    BadLine("chains", "--width 3", "--seed 8 --kill", is_tagged=True, is_chained=True),
    BadLine("terminals", "--width 2", "--seed 6", is_tagged=True, is_device=True),
    # Procedures that aren't in the table, of an instrument that answers them, some with warnings.
    BadLine("raw", "--width 1", "--seed 10 --kill", cycles=500, is_tagged=True, is_raw=True),
]


def runs_of(program, options):
    """What runs under each name."""
    return {
        **{line.name: partial(measure, line, program, options.cycles) for line in LINES},
        "stopped": partial(stop, program),
        "held": partial(hold, program),
        "devices": partial(pull, program, options.device_cycles),
    }


@pytest.fixture(scope="module")
def runs(request, program):
    """The runs of the trials that were chosen, all of which are running."""
    names = [item.callspec.params["name"] for item in request.session.items if "runs" in item.fixturenames]
    known = runs_of(program, request.config.option)
    started = {name: Side(known[name]) for name in names}
    yield started
    for run in started.values():
        run.stop()


@pytest.mark.title("{name}")
@pytest.mark.parametrize("name", [*(line.name for line in LINES), "stopped", "held", "devices"])
def test_side_by_side(runs, name, note):
    note(runs[name].result())
