"""A month of a station for trials of its page and for its picture: a prism creeps, a reference is hidden twice, and the
station falls silent in the end. Rows are those of `surveyed`, reduced by the command.
"""

import datetime
import random
import subprocess
import sys
from pathlib import Path

from surveyed import BEGIN, Survey

TOOLS = Path(__file__).resolve().parents[1]
NAMES = {1: "rock north", 2: "rock west", 3: "bridge", 11: "pier 3", 12: "pier 4", 13: "dam crest"}
PRISMS = {1: (1150.0, 2080.0, 103.0), 2: (880.0, 2110.0, 108.0), 3: (960.0, 1860.0, 96.0), 11: (1080.0, 1900.0, 103.0), 12: (1110.0, 1925.0, 103.2),
          13: (1150.0, 1850.0, 112.0)}
# The cycles, one an hour: the last one, and the hour of the page.
LAST, NOW = 713, 718.5
CREEPS, BEGINS, BY_CYCLE = 12, 240, 0.000016
HIDDEN = (range(336, 408), range(699, 703))
LIMITS = """\
target,column,reference,tolerance,outside,of,level,warnings
11,moved_easting_m,0,0.003,2,3,attention,count
11,moved_easting_m,0,0.006,2,3,alarm,ignore
12,moved_easting_m,0,0.003,2,3,attention,count
12,moved_easting_m,0,0.006,2,3,alarm,ignore
12,moved_northing_m,0,0.003,2,3,attention,count
13,moved_easting_m,0,0.003,2,3,attention,count
13,velocity_easting_m_per_day,0,0.0006,2,3,attention,count
*,silence,,,,7200s,attention,
*,silence,,,,10800s,alarm,
"""


def moved(cycle):
    return {CREEPS: (BY_CYCLE * max(0, cycle - BEGINS), 0.0, 0.0)}


def lay(folder, name="north", seed=7, names=None):
    """Lays a station's files into the folders `rows`, `rows/reduced` and `limits` of a folder; gives when its page is written, in seconds."""
    survey = Survey(PRISMS, hz_noise=2e-6, v_noise=2e-6, distance_noise=0.0003, chance=random.Random(seed))
    cycles = [{"moved": moved(cycle), "hidden": (3,) if any(cycle in each for each in HIDDEN) else ()} for cycle in range(1, LAST + 1)]
    table = survey.table(cycles)
    for number, called in {**NAMES, **(names or {})}.items():
        table = table.replace(f",P{number},".encode(), f",{called},".encode())
    for each in "rows/reduced", "limits":
        (folder / each).mkdir(parents=True, exist_ok=True)
    (folder / f"rows/{name}.csv").write_bytes(table)
    begin, end = (BEGIN + datetime.timedelta(days=days) for days in (0, 3))
    lines = [survey.line("reference", 1, 2, 3), "references at least 2 within 0.00003 0.003", "flat",
             f"epoch {begin.isoformat()} {end.isoformat()}", "velocity 3"]
    (folder / f"limits/{name}.site").write_text(survey.text(*lines), encoding="ascii")
    (folder / f"limits/{name}.limits").write_text(LIMITS, encoding="ascii")
    with open(folder / f"rows/reduced/{name}.csv", "wb") as file:
        subprocess.run([sys.executable, TOOLS / "reduce", folder / f"rows/{name}.csv", folder / f"limits/{name}.site"], stdout=file, check=True)
    return (BEGIN + datetime.timedelta(hours=NOW)).timestamp()
