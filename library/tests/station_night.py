"""A night of 500 cycles through `geocom.Station` and `geocom.aio.Station`: station_night.py SEED [WAY].

WAY is `sync` or `aio`; both where none is said. Two targets are measured every 300 s of the trial's own clock, over a line that loses,
delays and repeats lines, and ends connections; at its end is the library's instrument, which refuses some requests, and is switched off and on
once. What has to hold: a cycle that isn't missed has a row for each command; the rows of commands that were sent are the requests that were written, in
order; an answer is the instrument's reply to that very request; and a reply that was late was made, too.
"""

import asyncio
import collections
import random
import sys

import geocom
import geocom.aio
from geocom import Outcome
from station_line import REQUEST, Line
from station_ports import Clock, Loop, Port, Wire

SCENE = """target 0.5 1.5 10.0
target 2.25 1.625 110.0
noise 0.0 0.0 0.05 7
fault 2108 1285 after 100 for 5
fault 9027 restart after 700 for 1
"""
CHAINS = [geocom.Chain.measuring(1, "0.5", "1.5"), geocom.Chain.measuring(2, "2.25", "1.625")]
CYCLES = 500


class Night(Line):
    """The line of a night. It keeps which requests were written, and what was replied to each."""

    def __init__(self, chance):
        super().__init__(chance)
        self.quality, self.slow, self.instrument = 0.02, 1.0, geocom.Instrument(SCENE)
        self.requests, self.replies = [], {}

    def note(self, data):
        """A station writes this, be it cut, or lost with its connection."""
        if found := REQUEST.fullmatch(data[:-2]):
            self.requests.append(int(found[1]))

    def write(self, data, now):
        self.cut += data
        while b"\n" in self.cut:
            line, self.cut = self.cut.split(b"\n", 1)
            if line.endswith(b"\r") and not self.odd():
                self.pass_on(self.up, (len(self.requests) - 1, line + b"\n"), now)

    def pass_on(self, way, line, now):
        super().pass_on(way, line, now + (50.0 if self.odd() else 0.0))

    def reply(self, line):
        place, request = line
        told = self.instrument.feed(request)[:-2]
        self.replies.setdefault(place, told.decode("latin-1"))
        return told


class NightPort(Port):
    def write(self, data):
        self.line.note(data)
        super().write(data)


class NightWire(Wire):
    def write(self, data):
        self.line.note(data)
        super().write(data)


def judged(way, line, cycles):
    """Whether all is right, and what came of it."""
    totals, faults = collections.Counter(), []
    written = ((place, procedure) for place, procedure in enumerate(line.requests) if procedure)
    for cycle in cycles:
        commands = [(chain.target, procedure) for chain in CHAINS for procedure, _ in chain.commands]
        if [(row.target, row.procedure) for row in cycle.rows] != ([] if cycle.is_missed else commands):
            faults.append(f"cycle {cycle.number} has {cycle.rows}")
        totals["missed cycles"] += cycle.is_missed
        for row in cycle.rows:
            totals[row.outcome] += 1
            totals["good"] += row.is_good
            if not row.settlement:
                continue
            place, procedure = next(written, (None, None))
            reply = line.replies.get(place)
            if procedure != row.procedure:
                faults.append(f"cycle {cycle.number}: {row} is of request {place}")
            elif row.settlement.outcome == Outcome.ANSWERED and row.settlement.line != reply:
                faults.append(f"cycle {cycle.number}: {row} has an answer that isn't {reply}")
            elif row.settlement.outcome == Outcome.LATE and reply is None:
                faults.append(f"cycle {cycle.number}: {row} was never answered")
    faults += [f"request {place}, {procedure}, has no row" for place, procedure in written]
    for fault in faults[:5]:
        print(f"a night: {fault}", file=sys.stderr)
    told = ", ".join(f"{totals[name]} {name}" for name in ["answered", "good", "late", "lost", "skipped", "missed cycles"])
    print(f"a night, {way}: {len(cycles)} cycles, {len(line.requests)} requests: {told}; {len(faults)} wrong")
    return not faults and len(cycles) == CYCLES and totals["good"] > 4 * CYCLES


def play_sync(line):
    clock = Clock()
    station = geocom.Station(lambda: NightPort(line, clock), timeout=10, clock=clock, sleep=clock.sleep)
    return list(station.cycles(CHAINS, every=300, count=CYCLES))


async def play_aio(line):
    loop = asyncio.get_running_loop()

    async def connect():
        wire = NightWire(line, loop)
        return wire.reader, wire

    station = geocom.aio.Station(connect, timeout=10)
    cycles = [cycle async for cycle in station.cycles(CHAINS, every=300, count=CYCLES)]
    await station.close()
    return cycles


def main():
    seed, ways = sys.argv[1], sys.argv[2:] or ["sync", "aio"]
    is_right = True
    for way in ways:
        line = Night(random.Random(f"{seed} {way}"))
        if way == "sync":
            cycles = play_sync(line)
        else:
            loop = Loop()
            cycles = loop.run_until_complete(play_aio(line))
            loop.close()
        is_right &= judged(way, line, cycles)
    sys.exit(not is_right)


main()
