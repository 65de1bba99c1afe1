"""Kills followers at random moments over a file that grows, and looks that no row is missing or double."""

import json
import random
from concurrent.futures import ThreadPoolExecutor
from functools import partial

from programs import Run, until
from records import COLUMNS
from servers import Listening
from sinks import TOP, expect_postgres, expect_retained, expect_sqlite, followers, messages_of, rows_of


def kill_again_and_again(kills, seed, command):
    """Starts a follower again until it was killed so often."""
    chance = random.Random(seed)
    for kill in range(kills):
        with Run(command) as run:
            # It takes about a third of a second to begin.
            assert not run.ends_within(chance.uniform(0.05, 0.9)), f"{command[0]} ended before kill {kill}: {run.messages()!r}"


def kill_side_by_side(kills, commands):
    """Kills several followers so often, each in its own time."""
    with ThreadPoolExecutor(len(commands)) as pool:
        list(pool.map(partial(kill_again_and_again, kills), range(len(commands)), commands))


def key(fields):
    """What distinguishes a row from each other one: its own columns."""
    return json.dumps({name: field for name, field in fields.items() if name in COLUMNS}, sort_keys=True)


def kill_followers(servers, folder, kills, path, end_growth, top=TOP):
    """Kills the three followers over a file that grows until its growth is ended; gives what is to be said of it. Below `top` nothing
    else was published."""
    base = folder / "values.db"
    commands = [one.command(path, "--rest", "0.02") for one in followers(servers, base, top)]
    with Listening(servers.broker_port, [f"{top}/target/+/+/row"]) as listening:
        try:
            kill_side_by_side(kills, commands)
        finally:
            said = end_growth()
        for command in commands:
            messages_of([*command, "--once"])
        expect_sqlite(base, path)
        expect_postgres(servers, path)
        topics = expect_retained(servers.broker_port, path, top)
        # The same fields may be in one row alone, since each has its own moment or place.
        wanted = [key(row.fields) for row in rows_of(path)]
        until(lambda: listening.came and key(json.loads(listening.came[-1][1])) == wanted[-1], "the last row isn't published", 10)
    came = [key(json.loads(text)) for _, text in listening.came]
    assert set(wanted) <= set(came), f"{len(set(wanted) - set(came))} rows were never published"
    assert set(came) <= set(wanted), f"{len(set(came) - set(wanted))} messages are of no row"
    return (f"{kills} kills of each follower, {len(wanted)} rows{said}: none missing or double in SQLite and PostgreSQL; "
            f"MQTT: none missing, {len(came) - len(set(wanted))} published again, {topics} retained messages right")
