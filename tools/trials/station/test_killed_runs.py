"""Runs that are killed at any moment and begun again at once, over a line that outlives them; and the same with stations that begin in
right and wrong ways, which have to be told from one another. They follow the trials over bad lines, since they keep the machine
busy."""

import sys
from pathlib import Path

import pytest

from killed import kill

SEED = 49
PRETENDING = Path(__file__).resolve().parent / "pretending.py"


@pytest.mark.title("killed")
def test_killed(program, pytestconfig, note):
    """Each answer's number was made on executing that row's request, of that run."""
    told, faults, said = kill([program], pytestconfig.option.runs, SEED)
    note(said)
    assert not faults
    assert told["answered"] >= told["runs"], "next to nothing was shown"


@pytest.mark.title("killed, a station that begins with {kind}")
@pytest.mark.parametrize("kind, is_right", [("word", True), ("nothing", False), ("any", False), ("zero", False)])
def test_stations_that_pretend(kind, is_right, note):
    """A judge that finds nothing in real stations finds something where they begin in wrong ways."""
    _, faults, said = kill([sys.executable, PRETENDING, kind], 400, SEED)
    note(said)
    assert is_right != bool(faults)
