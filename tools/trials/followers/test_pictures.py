"""Pictures of rows of both faces: what is drawn, and what is reported where that can't be."""

import math
import os
import pwd
import subprocess

import drawn
import pytest
from programs import ended
from records import HEAD
from sinks import messages_of, tool
from two_faces import SITE, Month


def test_faces_are_apart_and_joined(folder):
    """Face II is turned over, so both are within a few microradians, and a direction that goes over the circle's end goes on."""
    month = Month(cycles=200, targets={7: ("pier 4", (1000 + 100 * math.sin(0.5), 2000 + 100 * math.cos(0.5), 102.0))}, moves=7, from_day=0,
                  a_week=0.1, noise=1e-6)
    path = folder / "values.csv"
    path.write_bytes(month.table())
    target, = drawn.read(path)
    assert set(target.series) == {"hz_rad", "v_rad", "distance_m"}
    for name in "hz_rad", "v_rad":
        faces = target.series[name]
        assert [len(faces[face].values) for face in (1, 2)] == [200, 200]
        both = faces[1].values + faces[2].values
        # A movement of 119 mm at 100 m, and 40 µrad between the faces.
        assert max(both) - min(both) < 0.0014, name
    # The first direction is just below a whole turn, and the last ones are above it.
    assert min(target.series["hz_rad"][1].values) < math.tau + 1e-4 and max(target.series["hz_rad"][1].values) > math.tau + 5e-4


def test_lanes_and_dates(folder):
    """A page of all targets, a lane for each outcome, and dates at the ticks; of reduced rows the coordinates, too."""
    month = Month(cycles=60, every=7200, noise=2e-6, bad={9: (range(20, 30), "lost"), 7: (range(5, 6), "late"), 8: (range(50, 52), "refused")})
    path, site = folder / "values.csv", folder / "site"
    path.write_bytes(month.table())
    site.write_text(SITE, encoding="utf-8")
    (folder / "reduced.csv").write_bytes(ended(tool("reduce", path, site), patience=60).output)
    for name, words in ("values", ["face II, turned over", "slope distance"]), ("reduced", ["easting", "northing", "height", "mm from"]):
        status, output, messages = ended(tool("plot", folder / f"{name}.csv", folder / name), patience=600)
        assert (status, messages) == (0, "")
        assert len(output.splitlines()) == 8
        text = (folder / name / "target-9.svg").read_text(encoding="utf-8")
        for word in [*words, "lost (", "2026-11-0", "µrad from"]:
            assert word in text, word
        page = (folder / name / "site.svg").read_text(encoding="utf-8")
        for word in "pier 4", "dam crest", "rock", "lost", "late", "refused", "2026-11-0", "3 targets":
            assert word in page, word


def test_the_last_attempt_is_drawn(folder):
    """Of several attempts of a command in a cycle the last one is drawn, and none of the set-up."""
    for name, table in zip(("both", "last"), Month(cycles=20, noise=2e-6).tables_of_attempts()):
        (folder / name).write_bytes(table)
    both, last = (drawn.read(folder / name) for name in ("both", "last"))
    assert both == last
    assert [len(target.series["hz_rad"][1].values) for target in both] == [20, 20, 20]


def test_tells_a_folder_that_cant_be_written(folder):
    """The folder is named, and not the file of rows."""
    path, place = folder / "values.csv", folder / "file"
    path.write_bytes(Month(cycles=2).table())
    place.write_text("", encoding="utf-8")
    assert messages_of(tool("plot", path, place), 1) == f"plot: the folder {place} can't be written: File exists\n"
    assert messages_of(tool("plot", folder / "nothing.csv", folder), 1) == f"plot: {folder}/nothing.csv: No such file or directory\n"
    if os.geteuid() != 0:
        pytest.skip("only root can hand its folder to another user")
    os.chmod(folder, 0o755)
    nobody = {"user": "nobody", "group": pwd.getpwnam("nobody").pw_gid, "extra_groups": []}
    run = subprocess.run(tool("plot", path, folder / "mine"), capture_output=True, text=True, check=False,
                         env={**os.environ, "MPLCONFIGDIR": "/tmp"}, **nobody)
    assert (run.returncode, run.stderr) == (1, f"plot: the folder {folder}/mine can't be written: Permission denied\n")


def test_draws_nothing_of_no_rows(folder):
    """A file with its names alone has no picture."""
    (folder / "values.csv").write_bytes(HEAD)
    assert ended(tool("plot", folder / "values.csv", folder / "drawn"), patience=60) == (0, b"", "")
