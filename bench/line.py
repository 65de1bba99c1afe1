"""Measures a station's starts, its cycles, and its commands over a bad line, each as a line `NAME: FIGURES`.

    line.py GEOCOM

The simulator and the station run on this machine. *starts* is how long ten stations took from their start to the time in their first row,
over loopback; *distant start* is the same over half a second of round trip. *grid* is how late the latest of twenty cycles, one second
apart, began. *bad line* is how the commands of four stations of widths 1, 2, 3 and 7 ended over lines that lose, repeat, delay and close,
and how many of their answers have another target's value.
"""

import os
import sys

sys.dont_write_bytecode = True
# The parts of the scripts in tools/.
sys.path[:0] = [os.path.join(os.path.dirname(os.path.realpath(__file__)), "../tools")]

import collections
import csv
import subprocess
import tempfile
import threading
import time
from contextlib import contextmanager
from pathlib import Path

from programs import free_port, is_listening, until
from records import moment

BAD_LINE = os.path.join(sys.path[0], "bad-line")
# Each target's command, and the value that the simulator has for it.
VALUES = {"11": ("5003", "123456"), "12": ("5004", '"GEOCOM SIM"'), "13": ("110", "1,0,0"), "14": ("5034", "1,2,0"), "15": ("5011", "21.0"),
          "16": ("2009", "0.0,0.0,0.0,0.0"), "17": ("108", "15"), "18": ("2107 0", "0.0,0.0")}
TEXT = "".join(f"{target} {command}\n" for target, (command, _) in VALUES.items())
ROUGH = "delay 1 40\nlose 3\nrepeat 3\nlate 2 200 900\nclose 0.4\nrefuse 50 300\nkeep 30 50 400\n"
WIDTHS, CYCLES = (1, 2, 3, 7), 150


@contextmanager
def simulator(line=None, seed=0):
    """The port of a simulator, behind a bad line if one is given."""
    quiet = {"stdout": subprocess.DEVNULL, "stderr": subprocess.DEVNULL}
    port, running = free_port(), []
    with tempfile.TemporaryDirectory() as folder:
        try:
            running.append(subprocess.Popen([sys.argv[1], "serve", str(port), "--keep"], **quiet))
            until(lambda: is_listening(port), "the simulator doesn't listen", 30)
            if line:
                far, port = port, free_port()
                Path(folder, "line").write_text(line, encoding="ascii")
                running.append(subprocess.Popen([BAD_LINE, str(port), str(far), "--line", f"{folder}/line", "--seed", str(seed)], **quiet))
                until(lambda: is_listening(port), "the line doesn't listen", 30)
            yield port
        finally:
            for each in running:
                each.kill()
                each.wait()


def rows_of(port, words, text=TEXT):
    """The rows of a station's run."""
    run = subprocess.run([sys.argv[1], "station", str(port), "--csv", "--silent", *words.split()], input=text, capture_output=True, text=True, check=False)
    return list(csv.DictReader(run.stdout.splitlines()))


def first_row(port):
    """How many seconds after its start a station's first row has its time."""
    began = time.time()
    return moment(rows_of(port, "--cycles 1 --deadline 8000", "7 5003\n")[0]["time"]).timestamp() - began


def starts():
    with simulator() as port:
        took = [first_row(port) for _ in range(10)]
    print(f"starts: {1000 * min(took):.0f} to {1000 * max(took):.0f} ms")


def distant_start():
    with simulator("delay 250 250\n") as port:
        print(f"distant start: {first_row(port):.2f} s")


def grid():
    with simulator() as port:
        sent = [moment(row["sent"]).timestamp() for row in rows_of(port, "--every 1 --cycles 20", "7 5003\n")]
    late = max(at - sent[0] - place for place, at in enumerate(sent))
    print(f"grid: {1000 * late:.0f} ms in {len(sent)} cycles")


def bad_line(width, found):
    with simulator(ROUGH, width) as port:
        for row in rows_of(port, f"--width {width} --unchained --cycles {CYCLES} --deadline 300 --settle 100 --retries always"):
            found[row["outcome"]] += 1
            found["of another"] += row["outcome"] == "answered" and row["values"] != VALUES[row["target"]][1]


def bad_lines():
    found = collections.Counter()
    lines = [threading.Thread(target=bad_line, args=(width, found)) for width in WIDTHS]
    began = time.monotonic()
    for each in lines:
        each.start()
    for each in lines:
        each.join()
    counts = ", ".join(f"{name} {found[name]}" for name in ("answered", "late", "lost", "missed", "skipped", "unreadable", "of another"))
    print(f"bad line: {len(WIDTHS) * CYCLES} cycles in {time.monotonic() - began:.0f} s: {counts}")


def main():
    for measure in (starts, grid, distant_start, bad_lines):
        measure()


main()
