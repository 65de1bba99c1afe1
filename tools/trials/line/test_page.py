"""The test suite of docs/SIMULATOR.md, "Your own test suite", as it is there."""

import os
import shutil
import sys
from pathlib import Path

import pytest

from lining import BAD_LINE
from programs import Run, ended, free_port

SUITE = Path(__file__).resolve().parents[3] / "packaging" / "suite"
# A word of a scene for each test that wants one.
WANTED = {"a_distance": "", "a_vanished_prism": "blocked 1 2 3\n", "a_slow_pointing": "", "a_bad_line": ""}


@pytest.fixture
def suite(program, folder):
    """A folder with the suite's files, and the programs beside them."""
    for name in ("monitor.py", "test_monitor.py"):
        shutil.copy(SUITE / name, folder)
    (folder / "geocom").symlink_to(program)
    (folder / "geocom-bad-line").symlink_to(BAD_LINE)
    return folder


@pytest.mark.title("the page's suite, {test}")
@pytest.mark.parametrize("test", WANTED)
def test_suite(program, suite, test):
    (suite / "site.scene").write_text("target 0.25 1.5 12.5\n" + WANTED[test])
    with Run([program, "serve", free_port(), "--scene", suite / "site.scene"]) as serve:
        if serve.ends_within(0.5):
            pytest.skip("this program knows no such scene")
    words = [sys.executable, "-m", "pytest", "-q", "-p", "no:cacheprovider", "-k", f"test_{test}", suite / "test_monitor.py"]
    found = ended(words, patience=60, cwd=suite, env={**os.environ, "PATH": f"{suite}:{os.environ['PATH']}"})
    assert found.status == 0 and b"1 passed" in found.output, found.output.decode()
