"""A hostile link under `geocom.Station` and `geocom.aio.Station`: station_hostile.py COUNT SEED [WAY].

WAY is `sync` or `aio`; both where none is said. The link changes its mood every few calls: it gives a byte at a time, noise without end,
half replies, lines with a sign-on in them, or nothing; it closes, and refuses connections; or whatever is called of it raises, an OSError or
something else, before or after it was done. What has to hold: each call ends by its deadline, as a call of the library ends, or with
what the link raised; an answer is its own request's; what is said not to be sent wasn't; a line feed is the first that is written on a
connection, each line is whole, and none follows a write that failed; a connection is closed before the next one is made, and by `close`; and
once the link is honest again, a request is answered. The clock is the trial's own.
"""

import asyncio
import collections
import contextlib
import random
import sys

import geocom
import geocom.aio
from geocom import Outcome, Reading
from station_judge import Judge
from station_line import ASKED, REQUEST, Line
from station_ports import Clock, Loop, Port, Wire

TIMEOUT = 10.0
MOODS = ["honest", "bytes", "noise", "halves", "sign-ons", "mute", "closes", "raises"]
SIGN_ON = b"%N1,0,255,,0%T0,0,0,:"
NOISE = [b"noise\r\n", b"%R1P,0:0\r\n", b"\n" * 50, b"\0" * 100, b"A" * 5000, b"%R1P,0,", b"\r", b"%R1Q,0,6:\r\n", b"\xff\xfe\r\n" * 9]


class Odd(Exception):
    """What a link raises that isn't an OSError."""


class Interrupt(BaseException):
    """What a signal's handler raises during a call of the link."""


class Looking(Judge):
    """Looks at values alone: other answers may be of lines that were cut."""

    def ended(self, number, settlement, now, end):
        self.ends[number] += 1
        self.totals[str(settlement.outcome)] += 1
        if now > end + 0.002 or settlement.target != number:
            self.wrong(f"request {number}, mood {self.line.mood}: {settlement} at {now - end} s behind its end")
        if settlement.outcome == Outcome.ANSWERED:
            self.answered.append(number)
            if settlement.reading == Reading.VALUE and float(settlement.items[0]) != number:
                self.wrong(f"request {number} has the answer of {settlement.items[0]}")


class Hostile(Line):
    """A line with a mood. Its instrument answers each request once, and keeps its reply."""

    def __init__(self, chance, kinds, closing):
        super().__init__(chance)
        self.kinds, self.closing, self.mood, self.noisy = kinds, closing, "honest", 0.0
        self.quality, self.way, self.slow, self.faults, self.made = 0.0, "own", 0.1, [], []

    def strike(self, share=0.1):
        """What is called of the link may raise."""
        if self.mood == "raises" and self.chance.random() < share:
            raise self.chance.choice(self.kinds)("struck")

    def made_of(self, wire):
        """A connection that is made: those before it are closed."""
        self.look_closed()
        self.made.append(wire)
        return wire

    def look_closed(self):
        self.faults += [(self.mood, wire, "is open") for wire in self.made if not wire.is_closed]

    def odd(self, share=1.0):
        return self.mood == "closes" and self.chance.random() < share

    @contextlib.contextmanager
    def writing(self, wire, data):
        """Looks at what is written on a connection: `wire.state` is None before a line feed, and then whether a write failed."""
        if wire.state or (wire.state is None and data != b"\n") or not (data == b"\n" or REQUEST.fullmatch(data[:-2])):
            self.faults.append((self.mood, wire.state, data))
        try:
            self.strike()
            yield
            self.strike()
            wire.state = False
        except BaseException as failure:
            wire.state = True if isinstance(failure, self.closing) else None
            raise

    def pass_on(self, way, line, now):
        if way is self.down and self.mood == "mute":
            return
        if way is self.down and self.mood == "halves":
            line = line[: self.chance.randrange(len(line) - 1)]
        if way is self.down and self.mood == "sign-ons" and self.chance.random() < 0.5:
            line = line[: self.chance.randrange(len(line) - 1)] + SIGN_ON + b"\r\n" + self.chance.choice([b"", line])
        super().pass_on(way, line, now)

    def next_at(self, now):
        at = super().next_at(now)
        noisy = max(self.noisy, now) if self.mood == "noise" else at
        return noisy if at is None else min(at, noisy)

    def take(self, now):
        if self.mood == "noise" and now >= self.noisy:
            self.noisy = now + 0.05
            self.half += self.chance.choice(NOISE + [self.chance.randbytes(self.chance.randrange(600))])
        data = super().take(now)
        if self.mood == "bytes":
            data, self.half = data[:1], data[1:] + self.half
        return data


class HostilePort(Port):
    state, is_closed = None, False

    def write(self, data):
        with self.line.writing(self, data):
            super().write(data)

    def read(self, size=1):
        self.line.strike()
        data = super().read(size)
        self.line.strike()
        return data

    def close(self):
        self.is_closed = True
        self.line.strike()


class HostileWire(Wire):
    state, is_closed = None, False

    def pump(self):
        try:
            self.line.strike(0.03)
        except Exception as failure:
            self.end(failure)
        super().pump()

    def write(self, data):
        with self.line.writing(self, data):
            super().write(data)

    def close(self):
        super().close()
        self.is_closed = True
        self.line.strike()


def play_sync(chance, totals):
    line, clock = Hostile(chance, [OSError, Odd, Interrupt], OSError), Clock()
    judge = Looking(line, totals)

    def connect():
        line.strike(0.3)
        return line.made_of(HostilePort(line, clock))

    def sleep(seconds):
        line.strike()
        clock.sleep(seconds)

    station = geocom.Station(connect, timeout=TIMEOUT, settle=chance.choice([0.5, 2.0]), clock=clock, sleep=sleep)
    for line.mood in [*chance.choices(MOODS, k=6), "honest"]:
        for _ in range(chance.randrange(1, 6)):
            number, timeout, begun = next(judge.numbers), chance.choice([0.5, 5.0, 10.0, 30.0]), clock.now
            try:
                if chance.random() < 0.1:
                    chance.choice([station.close, station.synchronize])()
                begun = clock.now
                judge.ended(number, station.ask(ASKED, number, target=number, timeout=timeout), clock.now, begun + 2 * timeout)
            except geocom.NotReady:
                judge.skipped(number)
            except (OSError, Odd, Interrupt):
                totals["raised"] += 1
            if clock.now > begun + 100:  # a synchronization has thrice its own timeout, and a pause
                judge.wrong(f"calls took {clock.now - begun} s, mood {line.mood}")
    for _ in range(3):
        with contextlib.suppress(geocom.NotReady):
            if station.ask(ASKED, 0, timeout=300).outcome == Outcome.ANSWERED:
                break
    else:
        judge.wrong("over an honest link nothing is answered any more")
    if station._session.outstanding:
        judge.wrong(f"{station._session.outstanding} wait behind an answer")
    station.close()
    line.look_closed()
    for fault in line.faults:
        judge.wrong(f"mood, connection or whether a write failed, and what was written: {fault}")
    judge.close()


async def play_aio(chance, totals):
    loop = asyncio.get_running_loop()
    line = Hostile(chance, [OSError, Odd], Exception)
    judge = Looking(line, totals)

    async def connect():
        await asyncio.sleep(chance.choice([0.0, 0.1, 3.0]))
        line.strike(0.3)
        wire = line.made_of(HostileWire(line, loop))
        return wire.reader, wire

    async def ask(number, timeout):
        begun = loop.time()
        try:
            judge.ended(number, await station.ask(ASKED, number, target=number, timeout=timeout), loop.time(), begun + 2 * timeout)
        except geocom.NotReady:
            judge.skipped(number)
        if loop.time() > begun + 2 * timeout + 0.002:
            judge.wrong(f"a call took {loop.time() - begun} s, mood {line.mood}")

    station = geocom.aio.Station(connect, timeout=TIMEOUT, settle=chance.choice([0.5, 2.0]), width=chance.choice([1, 3, 7]))
    for line.mood in [*chance.choices(MOODS, k=6), "honest"]:
        if chance.random() < 0.2:
            with contextlib.suppress(OSError, Odd):
                await chance.choice([station.close, station.synchronize])()
        count = chance.choice([1, 4, 9])
        await asyncio.gather(*(ask(next(judge.numbers), chance.choice([0.5, 5.0, 10.0, 30.0])) for _ in range(count)))
    for _ in range(3):
        with contextlib.suppress(geocom.NotReady):
            if (await station.ask(ASKED, 0, timeout=300)).outcome == Outcome.ANSWERED:
                break
    else:
        judge.wrong("over an honest link nothing is answered any more")
    if station._session.outstanding:
        judge.wrong(f"{station._session.outstanding} wait behind an answer")
    await station.close()
    line.look_closed()
    for fault in line.faults:
        judge.wrong(f"mood, connection or whether a write failed, and what was written: {fault}")
    judge.close()


def main():
    count, seed, ways = int(sys.argv[1]), sys.argv[2], sys.argv[3:] or ["sync", "aio"]
    failed = False
    for way in ways:
        totals = collections.Counter()
        for place in range(count):
            chance = random.Random(f"{seed} {place} {way}")
            before = totals["wrong"]
            if way == "sync":
                play_sync(chance, totals)
            else:
                loop = Loop()
                loop.run_until_complete(play_aio(chance, totals))
                loop.close()
            if totals["wrong"] > before:
                print(f"hostile link: number {place} of {way}", file=sys.stderr)
        told = ", ".join(f"{totals[name]} {name}" for name in ["answered", "late", "lost", "not sent", "raised"])
        print(f"hostile link, {way}: {count}: {told}; {totals['wrong']} wrong")
        failed |= bool(totals["wrong"]) or not totals["answered"]
    sys.exit(failed)


main()
