"""Trials of a rehearsal: what a seed rehearses, and how it is played. `soak` plays `trial_of`, `bite` plays `harsh_trial_of`."""

import collections
import pathlib
import random
import re
import subprocess
import tempfile
from typing import NamedTuple

SCENE = """target 0.5 1.5 25.125
target 2.25 1.625 110.0625
target 4.0 1.5 48.5
noise 0.0001 0.0001 0.01 {seed}
"""
CHAIN = """{target} 9027 {hz},{v},0,0,0
{target} 2008 1,1
{target} 2108 5000,1
"""
PLACES = [("0.5", "1.5"), ("2.25", "1.625"), ("4.0", "1.5")]
COUNTS = ("rows", "killed", "closes", "holds", "restarts", "repeated", "lost", "refusals", "requests", "late", "altered", "false")


class Trial(NamedTuple):
    """What a seed rehearses."""

    seed: int
    line: str
    scene: str
    commands: str
    options: list[str]


def line_of(by: random.Random) -> str:
    """The text of a line."""
    least = by.choice([0, 20, 400])
    words = [f"delay {least} {least + by.choice([0, 5, 300, 4000])}"]
    words += [f"lose {by.choice([0, 0.5, 2, 10])}", f"repeat {by.choice([0, 1, 5, 20])}"]
    words += [f"hold {by.choice([0, 0.1, 1])} {by.choice([3000, 30000, 120000])}"]
    words += [f"close {by.choice([0, 0.1, 1, 3])}", f"refuse {by.choice([0, 10, 50])} {by.choice([1000, 60000])}"]
    words += [f"restart {by.choice([0, 0.01, 0.5])}", f"kill {by.choice([0, 1, 3, 8])}"]
    return "".join(f"{word}\n" for word in words)


def alter_of(seed: int) -> str:
    """What a third of the lines have, too: bytes that are altered. Its draws are its own, so that the others of a seed stay."""
    by = random.Random(f"alter {seed}")
    return f"alter {by.choice(['0.01', '0.05', '0.2', '1'])}\n" if by.random() < 1 / 3 else ""


def commands_of(by: random.Random) -> str:
    """A station's text."""
    lines = [by.choice(["", "at start\n1 5003\neach cycle\n"]), by.choice(["", "retry 2 1285 late lost\n"])]
    for target in range(1, by.choice([3, 8, 20]) + 1):
        hz, v = PLACES[target % 3]
        lines.append(CHAIN.format(target=target, hz=hz, v=v))
        lines.append(by.choice(["", f"deadline {by.choice([1500, 5000, 12000])}\n", f"{target} 5003\n", f"{target} 2107 1\n"]))
    return "".join(lines)


def trial_of(seed: int, nights: int) -> Trial:
    """The trial of a seed."""
    by = random.Random(seed)
    options = ["--nights", str(nights), "--every", str(by.choice([60, 300])), "--seed", str(seed)]
    options += ["--width", str(by.choice([1, 1, 2, 7])), "--deadline", str(by.choice([1000, 3000, 10000]))]
    options += ["--settle", str(by.choice([100, 2000])), "--retries", by.choice(["always", "3", "10"])]
    options += by.choice([[], ["--unchained"], ["--json"], ["--columns"]])
    return Trial(seed, line_of(by) + alter_of(seed), SCENE.format(seed=seed % 1000), commands_of(by), options)


def harsh_line_of(by: random.Random) -> str:
    """The text of a line with many faults."""
    least = by.choice([0, 20, 400, 2000])
    words = [f"delay {least} {least + by.choice([0, 5, 300, 4000, 9000])}"]
    words += [f"lose {by.choice([0, 0.5, 2, 10, 30])}", f"repeat {by.choice([0, 1, 5, 20, 50])}"]
    words += [f"hold {by.choice([0, 0.5, 2, 10])} {by.choice([3000, 30000, 120000])}"]
    words += [f"close {by.choice([0, 0.5, 2, 10])}", f"refuse {by.choice([0, 10, 50])} {by.choice([1000, 60000])}"]
    words += [f"restart {by.choice([0, 0.01, 0.5, 5])}", f"kill {by.choice([0, 3, 20])}"]
    return "".join(f"{word}\n" for word in words)


def harsh_commands_of(by: random.Random) -> str:
    """A station's text of chains, single readings and raw commands, some with as many raw commands in a row as there are ids."""
    lines = [by.choice(["", "at start\n1 5003\neach cycle\n"]), by.choice(["", "retry 2 1285 late lost\n"])]
    chained = by.choice([True, False, False])
    raws = by.choice([0, 0, 0, 0.3])
    behind = by.choice([0, 0, 7, by.randrange(5, 17)])
    for target in range(1, by.choice([3, 8, 20]) + 1):
        if by.random() < raws:
            lines.append(f"{target} raw {by.choice([18005, 17003])} {target}\n")
            continue
        hz, v = PLACES[target % 3]
        if chained or by.random() < 0.3:
            lines.append(CHAIN.format(target=target, hz=hz, v=v))
        lines.append(by.choice([f"{target} 5003\n", f"{target} 2107 1\n", f"{target} 2108 5000,1\n", f"{target} 5003\n{target} 5004\n"]))
        lines.extend(f"{target} raw 18005 {number}\n" for number in range(behind))
        if by.random() < 0.1:
            lines.append(f"deadline {by.choice([1500, 5000, 12000])}\n")
    return "".join(lines)


def harsh_trial_of(seed: int) -> Trial:
    """The trial of a seed for a program with a mutant: a short night with many faults."""
    by = random.Random(f"harsh {seed}")
    line = harsh_line_of(by)
    commands = harsh_commands_of(by)
    options = ["--nights", "1", "--cycles", str(by.choice([10, 30])), "--every", str(by.choice([60, 300])), "--seed", str(seed)]
    options += ["--width", str(by.choice([1, 2, 7, 7])), "--deadline", str(by.choice([300, 1000, 3000, 10000]))]
    options += ["--settle", str(by.choice([1, 100, 2000])), "--retries", by.choice(["always", "3", "10"])]
    options += by.choice([[], ["--unchained"], ["--unchained"]])
    return Trial(seed, line, SCENE.format(seed=seed % 1000), commands, options)


def write_texts(trial: Trial, folder: pathlib.Path) -> list[str]:
    """Writes the texts of a trial. Returns the options that name them, with the others."""
    for name, text in [("line", trial.line), ("scene", trial.scene), ("commands", trial.commands)]:
        (folder / name).write_text(text)
    return ["rehearse", *trial.options, "--line", str(folder / "line"), "--scene", str(folder / "scene")]


def play(trial: Trial, program: list[str], seconds: float | None = None) -> tuple[Trial, int | None, str]:
    """Plays a trial: its status, and what it said. The status is None if it was stopped after so many seconds."""
    with tempfile.TemporaryDirectory() as folder:
        words = write_texts(trial, pathlib.Path(folder))
        with open(pathlib.Path(folder) / "commands", "rb") as commands:
            try:
                done = subprocess.run([*program, *words], stdin=commands, stdout=subprocess.DEVNULL, stderr=subprocess.PIPE, check=False, timeout=seconds)
            except subprocess.TimeoutExpired:
                return trial, None, ""
    return trial, done.returncode, done.stderr.decode("utf-8", "replace")


def counted(said: str) -> collections.Counter[str]:
    """The counts of a summary: those of its first two lines, of the line's own and of altered lines."""
    counts: collections.Counter[str] = collections.Counter()
    for line in said.splitlines():
        if line.startswith("target "):
            continue
        if altered := re.match(r"altered lines ([0-9]+):", line):
            counts["altered"] += int(altered[1])
            continue
        for word, number in re.findall(r"([a-z]+) ([0-9]+)\b", line):
            if word in COUNTS and (word != "lost" or line.startswith("line:")):
                counts[word] += int(number)
    return counts
