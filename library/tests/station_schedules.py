"""Random schedules through `geocom.Station` and `geocom.aio.Station`, over a line in memory: station_schedules.py COUNT SEED [WAY].

WAY is `sync` or `aio`; both where none is said. The clock is the trial's own, so that no schedule waits. The line delays, loses whole
lines, repeats one directly behind it, cuts them anywhere, adds noise, ends connections and refuses new ones, and outlives the runs: a
second station begins while it holds requests and replies of the first. The instrument takes its time, starts anew, and keeps its reply
in one of three ways. Each request has a number of its own, which its answer has: so an answer that is another request's is seen. What
has to hold: each call that asks ends once and by its deadline; an answer is its own request's, which was executed once; a request that
was not sent was never executed; and commands of a chain were executed in order, with nothing else between.
"""

import asyncio
import collections
import dataclasses
import random
import sys

import geocom
import geocom.aio
from station_judge import Judge
from station_line import ASKED, RAW, Line
from station_ports import Clock, Loop, Port, Wire

TIMEOUT = 10.0


def timeouts(chance):
    """Those of a run: of any length, or mostly too short."""
    return chance.choice([[0.5, 5.0, 10.0, 30.0], [0.5, 0.5, 0.5, 10.0]])


def commands(judge, chance):
    numbers = [next(judge.numbers) for _ in range(3)]
    return numbers, [(chance.choice([ASKED, ASKED, RAW]), number) for number in numbers]


def play_sync(chance, totals):
    line, clock = Line(chance), Clock()
    judge = Judge(line, totals)
    for _ in range(chance.choice([1, 2, 3])):
        station = geocom.Station(lambda: Port(line, clock), timeout=TIMEOUT, settle=chance.choice([0.5, 2.0]), clock=clock, sleep=clock.sleep)
        if chance.random() < 0.5:
            try:
                station.synchronize()
            except OSError:
                totals["not synchronized"] += 1
        raws, limits = chance.choice([0.1, 0.9]), timeouts(chance)
        for _ in range(chance.randrange(1, 40)):
            if chance.random() < 0.1:
                clock.sleep(chance.choice([1.0, 30.0, 500.0]))
            if chance.random() < 0.1:
                numbers, given = commands(judge, chance)
                rows = station.measure(geocom.Chain.of(numbers[0], *given, timeout=TIMEOUT))
                judge.chain(numbers, [retarget(row, number) for row, number in zip(rows, numbers)])
                continue
            number, timeout, begun = next(judge.numbers), chance.choice(limits), clock.now
            ask = station.raw if chance.random() < raws else station.ask
            procedure = RAW if ask == station.raw else ASKED
            try:
                judge.ended(number, ask(procedure, number, target=number, timeout=timeout), clock.now, begun + 2 * timeout)
            except geocom.NotReady:
                judge.skipped(number)
        if chance.random() < 0.7:
            station.close()
    judge.close()


def retarget(row, number):
    """The row with its command's number for a target: those of a chain have one target."""
    return dataclasses.replace(row, settlement=row.settlement and dataclasses.replace(row.settlement, target=number))


async def play_aio(chance, totals):
    loop = asyncio.get_running_loop()
    line = Line(chance)
    judge = Judge(line, totals)

    async def connect():
        await asyncio.sleep(chance.choice([0.0, 0.1, 3.0]))
        wire = Wire(line, loop)
        return wire.reader, wire

    async def ask(station, raws, limits):
        await asyncio.sleep(chance.choice([0.0, 0.0, 1.0, 20.0]))
        if chance.random() < 0.1:
            numbers, given = commands(judge, chance)
            rows = await station.measure(geocom.Chain.of(numbers[0], *given, timeout=TIMEOUT))
            judge.chain(numbers, [retarget(row, number) for row, number in zip(rows, numbers)])
            return
        number, timeout = next(judge.numbers), chance.choice(limits)
        call, procedure = (station.raw, RAW) if chance.random() < raws else (station.ask, ASKED)
        asking = asyncio.ensure_future(call(procedure, number, target=number, timeout=timeout))
        if chance.random() < 0.15:
            await asyncio.sleep(chance.choice([0.0, 0.2, 4.0]))
            asking.cancel()
        try:
            judge.ended(number, await asking, 0.0, 0.0)
        except geocom.NotReady:
            judge.skipped(number)
        except asyncio.CancelledError:
            totals["cancelled"] += 1

    for _ in range(chance.choice([1, 2, 3])):
        station = geocom.aio.Station(connect, timeout=TIMEOUT, settle=chance.choice([0.5, 2.0]), width=chance.choice([1, 1, 3, 7]))
        if chance.random() < 0.5:
            try:
                await station.synchronize()
            except OSError:
                totals["not synchronized"] += 1
        raws, limits = chance.choice([0.1, 0.9]), timeouts(chance)
        count, together = chance.randrange(1, 40), chance.choice([1, 1, 4, 20])
        for at in range(0, count, together):
            await asyncio.gather(*(ask(station, raws, limits) for _ in range(min(together, count - at))))
        await station.close()
    judge.close()


def main():
    count, seed, ways = int(sys.argv[1]), sys.argv[2], sys.argv[3:] or ["sync", "aio"]
    failed = False
    for way in ways:
        totals = collections.Counter()
        for place in range(count):
            chance = random.Random(f"{seed} {place} {way}")
            before = totals["wrong"]
            if way == "sync":
                play_sync(chance, totals)
            else:
                loop = Loop()
                loop.run_until_complete(play_aio(chance, totals))
                loop.close()
            if totals["wrong"] > before:
                print(f"station schedules: number {place} of {way}", file=sys.stderr)
        told = ", ".join(f"{totals[name]} {name}" for name in ["answered", "accepted", "late", "lost", "not sent", "cancelled", "chains", "not synchronized"])
        print(f"station schedules, {way}: {count}: {told}; {totals['wrong']} wrong")
        failed |= bool(totals["wrong"]) or not totals["answered"]
    sys.exit(failed)


main()
