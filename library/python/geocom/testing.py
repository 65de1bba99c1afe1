"""A fixture for pytest. In a `conftest.py`:

    pytest_plugins = ["geocom.testing"]

A test then asks for `instrument`, and gives it a scene's text:

    def test_a_vanished_prism(instrument):
        truck = instrument("target 0.5 1.5 10\\nblocked 1 2 3\\n")
        with geocom.Station(truck) as station:
            ..

Each call makes an instrument of its own, within the process. All are closed after the test. The
words of a scene are those of `docs/SIMULATOR.md`, "Rules of a scene".
"""

from __future__ import annotations

from collections.abc import Callable, Iterator
from typing import Union

import pytest

from .instrument import SIMULATOR, Instrument

#: What the fixture gives: a call that makes an instrument of a scene's text.
Makes = Callable[..., Instrument]


@pytest.fixture
def instrument() -> Iterator[Makes]:
    """Makes instruments of scenes, and closes them after the test."""
    made: list[Instrument] = []

    def make(scene: Union[str, bytes] = SIMULATOR, *, timeout: float = 1.0) -> Instrument:
        made.append(Instrument(scene, timeout=timeout))
        return made[-1]

    yield make
    for each in made:
        each.close()
