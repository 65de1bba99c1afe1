"""Tests of a client against a simulator, with scenes and bad lines: `pytest` in this folder. They want `geocom` and `geocom-bad-line`."""

import socket
import subprocess
import time

import pytest

from monitor import Monitor

PRISMS = "target 0.25 1.5 12.5\ntarget 4.0 1.5 48.25\n"
NEAR, FAR = (0.25, 1.5), (4.0, 1.5)


def free_port():
    with socket.create_server(("127.0.0.1", 0)) as probe:
        return probe.getsockname()[1]


def is_there(port):
    try:
        socket.create_connection(("127.0.0.1", port)).close()
        return True
    except ConnectionRefusedError:
        return False


@pytest.fixture
def site(tmp_path):
    """Starts an instrument, and gives the software's connection to it."""
    running = []

    def start(words, port):
        running.append(subprocess.Popen(words))
        while not is_there(port):
            assert running[-1].poll() is None, "it doesn't start"
            time.sleep(0.05)
        return port

    def begin(scene, patience=2.0, line=None):
        (tmp_path / "site.scene").write_text(PRISMS + scene)
        port = free_port()
        start(["geocom", "serve", str(port), "--keep", "--scene", tmp_path / "site.scene"], port)
        if line:
            (tmp_path / "bad.line").write_text(line)
            far, port = port, free_port()
            start(["geocom-bad-line", str(port), str(far), "--line", tmp_path / "bad.line", "--seed", "7"], port)
        return Monitor(port, patience)

    yield begin
    for one in running:
        one.kill()
        one.wait()


def test_a_distance(site):
    monitor = site("")
    assert [monitor.distance(*NEAR), monitor.distance(*FAR)] == [12.5, 48.25]


def test_a_vanished_prism(site):
    """A truck is in front of the near prism at its second and third measurement: there is no distance then, and no old one."""
    monitor = site("blocked 1 2 3\n")
    gone = "return code 1285"
    assert [monitor.distance(*NEAR) for _ in range(4)] == [12.5, gone, gone, 12.5]


def test_a_slow_pointing(site):
    """Its reply, the first one, takes longer than the software waits. It isn't taken for that of the next prism."""
    monitor = site("", 1.0, "down 1 delay 1500\n")
    assert monitor.distance(*NEAR) == "no reply in time"
    monitor.patience = 5.0
    assert monitor.distance(*FAR) == 48.25


def test_a_bad_line(site):
    """Each distance is the prism's own, or there is none."""
    monitor = site("", 0.3, "delay 0 20\nlose 5\nrepeat 20\nlate 3 200 600\n")
    found = [(prism, monitor.distance(*prism)) for prism in [NEAR, FAR] * 15]
    assert all(distance in ({NEAR: 12.5, FAR: 48.25}[prism], "no reply in time") for prism, distance in found)
    assert sum(distance != "no reply in time" for _, distance in found) >= 10
