"""Files that are cut, edited, replaced or taken away, at a start of a follower and while it follows."""

import os
import shutil
import signal
import sqlite3
import time
from contextlib import closing

import pytest

from followed import Followed, Place, Refused
from growing import first_rows
from programs import Run, until
from records import HEAD
from sinks import followers, messages_of

# The followers by their places in `followers`.
NAMES = ["to-sqlite", "to-postgres", "to-mqtt"]


def replace(path, data):
    """Puts another file in the place of one."""
    other = path.with_suffix(".new")
    other.write_bytes(data)
    other.rename(path)


def append(path, data):
    with path.open("ab") as file:
        file.write(data)


ROWS = first_rows(40)
WHOLE = HEAD + b"".join(ROWS)
CHANGES = {
    "cut": lambda path: os.truncate(path, len(HEAD + ROWS[0])),
    "cut to nothing": lambda path: os.truncate(path, 0),
    "cut and grown": lambda path: path.write_bytes(HEAD + b"".join(first_rows(60, 6))),
    "last row edited": lambda path: path.write_bytes(WHOLE[:-30] + b"9" + WHOLE[-29:] + ROWS[1]),
    "replaced": lambda path: replace(path, HEAD + b"".join(first_rows(60, 7))),
}
AT_START = {**CHANGES, "front edited": lambda path: path.write_bytes(WHOLE.replace(b"pier 4", b"pier 5", 1) + ROWS[1])}
WHILE_RUNNING = {**CHANGES, "taken away": lambda path: path.unlink()}


def test_refuses_what_was_changed(servers, folder, note):
    """A file that was cut, edited, replaced or taken away is refused, at a start and while it is followed, and nothing is taken."""
    count = 0
    for kind, cases in ("start", AT_START), ("running", WHILE_RUNNING):
        for what, change in cases.items():
            for name in NAMES:
                path = folder / f"{kind}-{what}-{name}.csv".replace(" ", "-")
                path.write_bytes(WHOLE)
                follower = followers(servers, path.with_suffix(".db"), "changed")[NAMES.index(name)]
                messages = messages_of_a_change(follower, path, change, kind == "running")
                assert messages.count("\n") == 1 and str(path) in messages, f"{kind}, {what}, {name}"
                assert follower.taken(path) == 40, f"{kind}, {what}, {name}: the rows behind it"
                count += 1
    note(f"{count} changes refused, each in one line")


def messages_of_a_change(follower, path, change, is_running):
    """What a follower of a file that is changed says at its end, whose status is 1."""
    command = follower.command(path, "--rest", "0.02")
    if not is_running:
        messages_of([*command, "--once"])
        change(path)
        return messages_of([*command, "--once"], 1)
    with Run(command) as run:
        until(lambda: follower.taken(path) == 40, f"{follower.name} doesn't take the rows", 20)
        change(path)
        assert run.status(20) == 1, run.messages()
        return run.messages()


def test_goes_on_in_a_copy(servers, folder):
    """A file in whose place a station put a copy of its whole rows is followed on, after a torn row too; a copy that lacks a row that
    wasn't taken yet is refused."""
    for name in NAMES:
        path = folder / f"copied-{name}.csv"
        path.write_bytes(WHOLE)
        follower = followers(servers, path.with_suffix(".db"), "copied")[NAMES.index(name)]
        with Run(follower.command(path, "--rest", "0.02")) as run:
            until(lambda: follower.taken(path) == 40, f"{name} doesn't take the rows", 20)
            append(path, ROWS[1][:30])
            time.sleep(0.1)
            replace(path, WHOLE)
            append(path, ROWS[2])
            until(lambda: follower.taken(path) == 41, f"{name} doesn't go on in the copy", 20)
            assert run.messages() == "", name


def test_misses_no_row_in_a_copy(folder):
    """A file that begins with what was taken, and lacks a whole row after it, is no copy."""
    path = folder / "rows.csv"
    for behind, is_copy in (ROWS[1] + ROWS[2], True), (ROWS[1], True), (ROWS[2], False), (b"", False):
        path.write_bytes(WHOLE)
        file = Followed(path, Place())
        file.took(file.next()[1])
        append(path, ROWS[1] + ROWS[2][:30])
        replace(path, WHOLE + behind)
        if is_copy:
            assert file.next()[1][0].bytes == len(WHOLE + behind)
        else:
            with pytest.raises(Refused, match="lacks rows"):
                file.next()
        file.close()


@pytest.mark.title("tells_what_was_changed_in_a_folder")
def test_changed_in_a_folder(servers, folder, note):
    """A file of a folder that is cut, replaced or taken away while it is followed is reported once, and nothing is taken from it; the others
    go on. One that comes back as it was is followed again, and one that was moved is taken to its end by `--as`."""
    wrong = [fault for follower in followers(servers, folder / "changed.db", "folders") for fault in faults_in_a_folder(follower, folder)]
    assert not wrong
    note(f"{3 * len(FOLDER_CHANGES)} changes, each told once")


GROWN = HEAD + b"".join(first_rows(90, 6))
LATER = first_rows(80)
# Each with what is reported of it.
FOLDER_CHANGES = {
    "copied and cut": (lambda path: (shutil.copy(path, path.with_suffix(".1")), os.truncate(path, 0)), "is shorter"),
    "cut and begun anew": (lambda path: path.write_bytes(HEAD + LATER[41]), "is shorter"),
    "cut and grown": (lambda path: path.write_bytes(GROWN), "has other bytes"),
    "moved, and another in its place": (lambda path: (path.rename(path.with_suffix(".1")), path.write_bytes(GROWN)), "was replaced"),
    "moved": (lambda path: path.rename(path.with_suffix(".1")), "was taken away"),
}


def faults_in_a_folder(follower, folder):
    """What is wrong where a follower goes round a folder in which files are changed."""
    place = folder / f"of {follower.name}"
    place.mkdir()
    paths = {what: place / f"{what}.csv" for what in FOLDER_CHANGES}
    other = place / "~.csv"
    for path in [*paths.values(), other]:
        path.write_bytes(WHOLE)

    def taken(path):
        return follower.taken(f"{place.name}/{path.name}")

    with Run(follower.command(place, "--as", place.name, "--rest", "0.02")) as run:
        try:
            until(lambda: all(taken(path) == 40 for path in [*paths.values(), other]), f"{follower.name} doesn't take the rows", 20)
            change_in_a_folder(paths, other, taken)
        except AssertionError as why:
            yield str(why)
        status, messages = run.terminate(), run.messages().splitlines()
    for what, (_, says) in FOLDER_CHANGES.items():
        lines = [line for line in messages if f"{paths[what]} {says}" in line]
        if len(lines) != 1 + (what == "moved"):
            yield f"{follower.name}, {what}: {len(lines)} lines tell it"
    if len(messages) != len(FOLDER_CHANGES) + 1 or status != -signal.SIGTERM:
        yield f"{follower.name} told {len(messages)} lines, and its status was {status}"
    for what, path in paths.items():
        if taken(path) != 40 + (what == "moved"):
            yield f"{follower.name}, {what}: {taken(path)} rows"
    # What follows the place of a file that was moved: its name is reported.
    moved = paths["moved"].with_suffix(".1")
    if moved.exists():
        append(moved, LATER[52])
        messages_of(follower.command(moved, "--as", f"{place.name}/{paths['moved'].name}", "--once"))
        if taken(paths["moved"]) != 42:
            yield f"{follower.name}: {taken(paths['moved'])} rows of the file that was moved"


def change_in_a_folder(paths, other, taken):
    """Changes the files, of which the other one goes on, and has one come back for a while."""
    for what, (change, _) in FOLDER_CHANGES.items():
        change(paths[what])
    time.sleep(0.5)
    for path in [*paths.values(), other]:
        if path.exists():
            append(path, LATER[50])
    until(lambda: taken(other) == 41, "it doesn't go on", 20)
    # What comes back as it was is followed again.
    back = paths["moved"]
    moved = back.with_suffix(".1")
    moved.rename(back)
    append(back, LATER[51])
    until(lambda: taken(back) == 41, "it doesn't go on in a file that came back", 20)
    back.rename(moved)
    time.sleep(0.5)


@pytest.mark.title("tells_what_was_taken_away_meanwhile")
def test_taken_away_meanwhile(servers, folder):
    """A file of a folder that is taken away while the sink is away is reported, too."""
    place, base = folder / "rows", folder / "values.db"
    place.mkdir()
    follower = followers(servers, base)[0]
    paths = [place / "a.csv", place / "b.csv"]
    for path in paths:
        path.write_bytes(HEAD + b"".join(first_rows(20)))
    with Run(follower.command(place, "--rest", "0.02")) as run:
        until(lambda: all(follower.taken(path) == 20 for path in paths), "it doesn't take the rows", 20)
        with closing(sqlite3.connect(base, isolation_level=None, timeout=10)) as other:
            # Another writer holds it for longer than the follower waits.
            other.execute("BEGIN IMMEDIATE")
            append(paths[1], first_rows(21)[-1])
            time.sleep(5.5)
            paths[0].rename(place / "a.1")
            time.sleep(1)
            other.execute("ROLLBACK")
        until(lambda: follower.taken(paths[1]) == 21, "it doesn't go on", 20)
        time.sleep(0.5)
        run.terminate()
        messages = run.messages()
    assert messages.count(f"{paths[0]} was taken away") == 1 and messages.count("\n") == 3
