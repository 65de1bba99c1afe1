#!/usr/bin/python3
"""Measures many instruments on one machine.

many.py stations GEOCOM [PAIRS] [SECONDS]   so many stations and as many simulators at once, 50 and 60 where nothing is said. Each asks
                                            three commands every two seconds. With a program that knows --append, to a file each
many.py files [FILES] [SECONDS] [WHERE]     one follower for so many files, 1000 and 60: each gets three rows every ten seconds. It is
                                            to-sqlite, and to-postgres where a database is named as libpq has it

It tells what was answered, how much of a processor all of them took, and their memory, in which shared pages are counted once.
"""

import os
import resource
import sys

sys.dont_write_bytecode = True
TOOLS = os.path.join(os.path.dirname(os.path.realpath(__file__)), "../tools")
# The parts of the scripts in tools/.
sys.path[:1] = [TOOLS, f"{TOOLS}/trials"]

import csv
import random
import sqlite3
import subprocess
import tempfile
import time
from contextlib import closing
from pathlib import Path

import growing
from programs import free_ports, processor_seconds
from records import HEAD

COMMANDS = b"7 5003\n8 2011\n9 2107 0\n"
EVERY = 2
FILES_EVERY = 10


def ended_seconds():
    """How long the processes that have ended kept a processor busy."""
    used = resource.getrusage(resource.RUSAGE_CHILDREN)
    return used.ru_utime + used.ru_stime


def memory_of(pid):
    """The kB of a process, its share of the shared pages counted."""
    lines = Path(f"/proc/{pid}/smaps_rollup").read_text(encoding="ascii").splitlines()
    return next(int(line.split()[1]) for line in lines if line.startswith("Pss:"))


def of_all(runs, count):
    return sum(count(run.pid) for run in runs)


def stations(program, pairs, seconds):
    """The pairs, measured from their beginning to their end."""
    help_text = subprocess.run([program, "station", "--help"], capture_output=True, text=True, check=False)
    appends = "--append" in help_text.stdout + help_text.stderr
    cycles = seconds // EVERY
    words = f"--every {EVERY} --cycles {cycles} --settle 200 --deadline 1000 --silent".split()
    with tempfile.TemporaryDirectory() as folder:
        commands = Path(folder, "commands")
        commands.write_bytes(COMMANDS)
        ports = free_ports(pairs)
        begin, ended_before = time.monotonic(), ended_seconds()
        instruments = [subprocess.Popen([program, "serve", str(port)], stderr=subprocess.DEVNULL) for port in ports]
        time.sleep(1)
        clients, paths = [], []
        for port in ports:
            path = Path(folder, f"{port}.csv")
            paths.append(path)
            rows = ["--append", str(path)] if appends else ["--csv"]
            with commands.open("rb") as given, open(os.devnull if appends else path, "wb") as taken:
                clients.append(subprocess.Popen(
                    [program, "station", str(port), *words, *rows], stdin=given, stdout=taken, stderr=subprocess.DEVNULL))
        time.sleep(max(1, seconds - 4))
        memory = of_all(clients + instruments, memory_of)
        statuses = [run.wait(60) for run in clients] + [run.wait(60) for run in instruments]
        # A process takes less than a tick of /proc, so what counts is what the system adds up of those that ended.
        took, wall = ended_seconds() - ended_before, time.monotonic() - begin
        answered = total = 0
        for path in paths:
            with path.open(newline="", encoding="latin-1") as file:
                outcomes = [row["outcome"] for row in csv.DictReader(file)]
            total += len(outcomes)
            answered += outcomes.count("answered")
        print(f"{pairs} stations and {pairs} simulators, {'--append' if appends else '--csv'}: {answered} of {pairs * cycles * 3} answered, "
              f"{total} rows, {sum(map(bool, statuses))} with another status than 0; "
              f"{100 * took / wall:.1f} % of a processor over {wall:.0f} s, {memory / 1000:.0f} MB together")


def taken(name, words):
    """How many rows the sink has of this run."""
    if name == "to-sqlite":
        with closing(sqlite3.connect(words[0])) as base:
            return base.execute("SELECT sum(rows) FROM followed").fetchone()[0]
    query = f"SELECT sum(rows) FROM followed WHERE source LIKE '{words[2]}/%'"
    return int(subprocess.run(["psql", "-AtX", words[0], "-c", query], capture_output=True, check=True).stdout)


def files(count, seconds, where):
    """One follower of a folder of so many files."""
    chance = random.Random(count)
    with tempfile.TemporaryDirectory() as folder:
        rows = Path(folder, "rows")
        rows.mkdir()
        paths = [rows / f"s{number:04}.csv" for number in range(count)]
        for path in paths:
            path.write_bytes(HEAD)
        runs = {"to-sqlite": [Path(folder, "values.db")], **({"to-postgres": [where, "--as", f"many {time.time()}"]} if where else {})}
        followers = {name: subprocess.Popen(list(map(str, [Path(TOOLS, name), rows, *words]))) for name, words in runs.items()}
        time.sleep(5)
        before = {name: processor_seconds(run.pid) for name, run in followers.items()}
        begin, added = time.monotonic(), 0
        while time.monotonic() - begin < seconds:
            # A tenth of the files each second, as stations that began at different moments.
            turn = int(time.monotonic() - begin)
            for path in paths[turn % FILES_EVERY :: FILES_EVERY]:
                with path.open("ab") as file:
                    file.write(b"".join(growing.row(chance, added + place) for place in range(3)))
                added += 3
            time.sleep(max(0, begin + turn + 1 - time.monotonic()))
        wall = time.monotonic() - begin
        for name, run in followers.items():
            took, memory = processor_seconds(run.pid) - before[name], memory_of(run.pid)
            told = run.poll()
            run.kill()
            run.wait()
            left = subprocess.run(list(map(str, [Path(TOOLS, name), rows, *runs[name], "--once"])), check=False).returncode
            rows_taken = f"{taken(name, runs[name])} of {added} rows in {wall:.0f} s"
            print(f"{name}, {count} files, {rows_taken}: {100 * took / wall:.1f} % of a processor, {memory / 1000:.0f} MB"
                  + (f"; it ended with {told}" if told is not None else "") + (f"; at the end {left}" if left else ""))


def main():
    words = dict(enumerate(sys.argv[1:]))
    if words.get(0) == "stations" and 1 in words:
        stations(os.path.abspath(words[1]), int(words.get(2, 50)), int(words.get(3, 60)))
    elif words.get(0) == "files":
        files(int(words.get(1, 1000)), int(words.get(2, 60)), words.get(3))
    else:
        sys.exit(__doc__)


main()
