"""Measures what `docs/BENCHMARKS.md` says of a slow line: how long twenty commands take where lines are lost, and how long sixty
plain readings take by the width, from the first command's request to the last row.

    station.py GEOCOM

Lines take a constant time each way. The runs, twenty of the first kind with seeds of their own, are beside one another, since
all that they do is wait.
"""

import os
import sys

sys.dont_write_bytecode = True
# The parts of the scripts in tools/.
sys.path[0] = os.path.join(os.path.dirname(os.path.realpath(__file__)), "../tools")

import asyncio
import csv
import random
import time

from programs import free_port
from records import moment

COMMAND = b"%R1Q,5003,"


async def carry(reader, writer, delay, lost):
    """Hands each line over so much later, or loses it."""
    due = asyncio.Queue()

    async def hand_over():
        while True:
            at, line = await due.get()
            await asyncio.sleep(at - time.monotonic())
            writer.write(line)

    handing = asyncio.create_task(hand_over())
    try:
        while line := await reader.readline():
            if not lost(line):
                due.put_nowait((time.monotonic() + delay, line))
    except OSError:
        pass
    handing.cancel()
    writer.close()


async def reach(instrument):
    """A connection to the instrument, once it listens."""
    while True:
        try:
            return await asyncio.open_connection("127.0.0.1", instrument)
        except ConnectionRefusedError:
            await asyncio.sleep(0.01)


async def run(instrument, commands, words, delay, per_cent, seed):
    """How many seconds it took, and how many lines were lost."""
    chance = random.Random(seed)
    first, count = [], []

    def lost(line):
        if line.startswith(COMMAND):
            first.append(time.time())
        if first and line != b"\n" and chance.random() * 100 < per_cent:
            count.append(line)
            return True
        return False

    async def connection(reader, writer):
        there = await reach(instrument)
        await asyncio.gather(carry(reader, there[1], delay, lost), carry(there[0], writer, delay, lost))

    server = await asyncio.start_server(connection, "127.0.0.1", 0)
    port = server.sockets[0].getsockname()[1]
    station = await asyncio.create_subprocess_exec(
        sys.argv[1], "station", str(port), "--csv", *words.split(),
        stdin=asyncio.subprocess.PIPE, stdout=asyncio.subprocess.PIPE, stderr=asyncio.subprocess.DEVNULL)
    written, _ = await station.communicate("".join(f"{target} 5003\n" for target in range(commands)).encode())
    server.close()
    last = list(csv.DictReader(written.decode().splitlines()))[-1]["time"]
    return moment(last).timestamp() - first[0], len(count)


async def served(*given):
    """A run against an instrument of its own."""
    port = free_port()
    serve = await asyncio.create_subprocess_exec(
        sys.argv[1], "serve", str(port), "--connections", "1000", stderr=asyncio.subprocess.DEVNULL)
    try:
        return await run(port, *given)
    finally:
        serve.kill()


async def main():
    lossy = [served(20, "--deadline 8000 --settle 5000", 0.5, 2, seed) for seed in range(20)]
    wide = [served(60, f"--deadline 8000 --settle 2000 --width {width}", 0.25, 0, 0) for width in range(1, 8)]
    seconds = await asyncio.gather(*lossy, *wide)
    took, lost = zip(*seconds[:20])
    print(f"twenty commands: {sum(took) / 20:.1f} s on average, {min(took):.1f} to {max(took):.1f}, with {sum(lost) / 20:.2f} lines lost")
    print("sixty targets by width:", *(f"{took:.1f}" for took, _ in seconds[20:]))


asyncio.run(main())
