"""The units: each one that runs for long fails for good in the end, and somebody is called then. systemd's own check has nothing to say."""

import re
import shutil
import subprocess

import pytest
from sinks import TOOLS

UNITS = TOOLS.parent / "packaging/systemd"
# Those that restart by themselves.
LASTING = ["geocom-station@", "geocom-alarm@", "geocom-reduce@", "geocom-to-mqtt", "geocom-to-postgres", "geocom-to-sqlite", "geocom-page"]


def settings(name):
    """The settings of a unit, each with its values."""
    found = {}
    for line in (UNITS / name).read_text(encoding="utf-8").splitlines():
        key, sign, value = line.partition("=")
        if sign and not line.startswith("#"):
            found.setdefault(key, []).append(value)
    return found


@pytest.mark.parametrize("name", LASTING)
def test_a_fault_that_stays_calls_somebody(name):
    """A unit that will be restarted calls nobody: so its restarts have an end, which they reach where each run ends at once."""
    unit = settings(f"{name}.service")
    burst, interval, rest = (int(unit[key][0]) for key in ("StartLimitBurst", "StartLimitIntervalSec", "RestartSec"))
    assert 2 <= burst and burst * (rest + 10) < interval
    # What is away for some minutes, as a device that another program holds after a boot, is bridged.
    assert (burst - 1) * rest >= 240
    assert unit["OnFailure"] == ["geocom-failed@%n.service"] and unit["RestartPreventExitStatus"] == ["2"] and unit["Restart"] == ["on-failure"]


def test_who_is_called_begins_the_unit_again():
    """Later than the interval in which starts are counted, so that it isn't refused."""
    waits = [int(each.split()[1]) for each in settings("geocom-failed@.service")["ExecStart"] if each.startswith("/bin/sleep ")]
    assert waits == [900] and all(waits[0] >= int(settings(f"{name}.service")["StartLimitIntervalSec"][0]) for name in LASTING)
    assert settings("geocom-alive@.service")["OnFailure"] == ["geocom-failed@%n.service"]


def test_a_station_is_the_main_process():
    """The watcher is another process of its unit, which may write to systemd; where it fails the station measures."""
    unit = settings("geocom-station@.service")
    assert unit["Type"] == ["exec"] and unit["NotifyAccess"] == ["all"] and "AF_UNIX" in unit["RestrictAddressFamilies"][0].split()
    assert len(unit["ExecStart"]) == 1 and " @BIN@/geocom station " in unit["ExecStart"][0] and len(unit["ExecStartPost"]) == 1
    assert unit["ExecStartPost"][0].startswith("-/bin/sh ") and "geocom-alive" in unit["ExecStartPost"][0] and "WatchdogSec" not in unit
    assert any("--check" in each for each in unit["ExecStartPre"])
    for name in "geocom-station@", "geocom-alarm@", "geocom-page":
        assert "time-sync.target" in settings(f"{name}.service")["After"][-1].split()
    assert "After" not in settings("geocom-alive@.service"), "a clock that isn't set has to be noticed"


def test_systemd_understands_them(folder):
    if not shutil.which("systemd-analyze"):
        pytest.skip("no systemd-analyze")
    for programs in ("bin", "libexec"):
        (folder / programs).mkdir()
    paths = []
    for unit in sorted(UNITS.glob("geocom-*")):
        text = unit.read_text(encoding="utf-8").replace("@BIN@", str(folder / "bin")).replace("@LIBEXEC@", str(folder / "libexec")).replace("@HARDENING@", (UNITS / "hardening").read_text(encoding="utf-8"))
        for program in re.findall(rf"{re.escape(str(folder))}/(?:bin|libexec)/[\w-]+", text):
            shutil.copy("/bin/true", program)
        paths.append(folder / unit.name)
        # Its pages are installed with the package.
        paths[-1].write_text(re.sub(r"^Documentation=.*\n", "", text, flags=re.M), encoding="utf-8")
    paths = [path for path in paths if "bridge" not in path.name]
    made = subprocess.run(["systemd-analyze", "verify", "--recursive-errors=no", *paths], capture_output=True, text=True, timeout=60, check=False)
    assert (made.returncode, made.stdout + made.stderr) == (0, "")
