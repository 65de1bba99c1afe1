"""Stations at an instrument that restarts within chains, or is turned, while its connection stays up: with `near` no row with another
prism's direction is answered, and without it some are."""

import pytest

from far_end import standing
from pointing import point

HOW = {"anew": "starts anew", "turned": "is turned"}


@pytest.mark.title("pointing, an instrument that {moves}, near {is_near}")
@pytest.mark.parametrize("moves", HOW)
@pytest.mark.parametrize("is_near", [True, False])
def test_pointing(program, pytestconfig, moves, is_near, note):
    cycles = pytestconfig.option.cycles
    moved, measured, wrong, told = point(program, standing, moves, is_near, cycles)
    note(f"{cycles} cycles of an instrument that {HOW[moves]}, {moved} times, {'with' if is_near else 'without'} `near`: "
         f"{measured} directions, {told} told as off target, {wrong} of another place answered")
    assert (wrong == 0) == is_near, "rows of another place that are answered"
    assert (told > 0) == is_near, "rows that are off target"
