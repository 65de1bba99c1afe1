"""Stations that are killed while they append."""

import random
import time

from records import HEAD
from stations import appending, copied_line, instrument, mark_of, numbers, split, torn_line


def test_kills(program, folder, note, pytestconfig):
    """Kills the station at random moments, and tears its file now and then as a crash of the machine would: no row is double or of no
    answer, and none is missing after which the instrument saw the next command."""
    kills = pytestconfig.option.kills or 500
    random.seed(kills)
    path = folder / "killed.csv"
    with instrument() as far:
        rows, torn, reported, copied = [], b"", 0, 0
        for kill in range(kills):
            copy = copied_line(len(rows) if mark_of(path).exists() else 0)
            with appending(program, far, path, "--fsync") as run:
                # Nine null procedures are answered before the first row.
                time.sleep(random.choice([random.uniform(0, 0.1), random.uniform(0.05, 0.3)]))
                run.kill()
                messages = run.messages()
            line = copy + torn_line(len(torn))
            assert line.startswith(messages), f"kill {kill}, of {len(rows)} rows and {len(torn)} torn bytes: {messages!r}"
            reported += bool(torn and messages == line)
            copied += bool(copy and messages.startswith(copy))
            data = path.read_bytes() if path.exists() else b""
            rows, torn = split(data)
            found = numbers(rows)
            missing = far.followed - set(found)
            assert not missing, f"kill {kill}: rows are lost behind which the next command came"
            assert not found or found[-1] <= far.answered, f"kill {kill}: a row of no answer"
            # What a crash may leave of a row that was appended, and not yet on the disk.
            if not torn and random.random() < 0.2 and data.startswith(HEAD):
                torn = b"2026-11-24T00:00:00.000Z,2026"[: random.randint(1, 29)]
                with path.open("ab") as file:
                    file.write(torn)
        note(f"{kills} kills: {len(found)} rows, none double, none of {len(far.followed)} lost behind which the next command came; "
             f"{reported} torn rows cut off, {copied} copies")
        assert found and far.followed and reported and copied, "nothing was tried"
