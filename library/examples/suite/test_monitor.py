"""The monitor at instruments that fail: `pytest` in this folder."""

from geocom.testing import Makes

from monitor import Monitor

PRISMS = "target 0.25 1.5 12.5\ntarget 4.0 1.5 48.25\n"
NEAR, FAR = (0.25, 1.5), (4.0, 1.5)
GONE = "return code 1285"


def test_distances(instrument: Makes) -> None:
    monitor = Monitor(instrument(PRISMS))
    assert [monitor.distance(*NEAR), monitor.distance(*FAR)] == [12.5, 48.25]


def test_a_vanished_prism(instrument: Makes) -> None:
    """A truck is in front of the near prism at its second and third measurement: there is no
    distance then, and no old one."""
    monitor = Monitor(instrument(PRISMS + "blocked 1 2 3\n"))
    assert [monitor.distance(*NEAR) for _ in range(4)] == [12.5, GONE, GONE, 12.5]


def test_a_slow_pointing(instrument: Makes) -> None:
    """It takes longer than the software waits. Its reply isn't taken for that of the next prism."""
    monitor = Monitor(instrument(PRISMS + "delay 9027 300\n"), patience=0.2)
    assert monitor.distance(*NEAR) == "no reply in time"
    monitor.station.timeout = 5.0
    assert monitor.distance(*FAR) == 48.25


def test_two_instruments(instrument: Makes) -> None:
    """Each has a scene of its own."""
    east, west = Monitor(instrument("target 1 1.5 10\n")), Monitor(instrument("target 1 1.5 20\n"))
    assert [east.distance(1, 1.5), west.distance(1, 1.5), east.distance(1, 1.5)] == [10, 20, 10]
