"""What the trials of faults share: a broker, and a station that is watched."""

import shutil
import subprocess
import sys

import pytest

from watched import Watched, broker


@pytest.fixture(scope="session")
def broker_port():
    if not shutil.which("mosquitto", path="/usr/sbin:/usr/bin"):
        pytest.skip("Debian's package mosquitto is missing")
    if subprocess.run([sys.executable, "-c", "import paho.mqtt.client"], stderr=subprocess.DEVNULL, check=False).returncode:
        pytest.skip("Debian's package python3-paho-mqtt is missing")
    with broker() as port:
        yield port


@pytest.fixture
def watched(program, folder, broker_port):
    """Begins such a station at a place; all of it is gone in the end."""
    begun = []

    def begin(where, words="--retries always", **more):
        begun.append(Watched(program, where, folder, broker_port, words, **more))
        return begun[-1]

    yield begin
    for each in begun:
        each.__exit__()
