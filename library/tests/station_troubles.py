"""Cases of the Python package in trouble: odd numbers, refused calls, exceptions at any place, forks, second connections. `station_cases.py`
runs them."""

import asyncio
import contextlib
import copy
import functools
import logging
import multiprocessing
import os
import pickle
import signal
import socket
import sys
import threading
import time
import types
from decimal import Decimal
from fractions import Fraction
from pathlib import Path

import geocom
import geocom.aio
from geocom import RC, Face, Outcome
from station_ports import Clock
from station_scripted import raised, scripted

try:
    import numpy
except ImportError:  # then the stand-ins alone
    numpy = None


class Single:
    """A number as numpy's `float32` is one: it is a float to `float`, and `int` cuts it."""

    def __init__(self, value):
        self.value = value

    def __float__(self):
        return self.value

    def __int__(self):
        return int(self.value)


class Whole:
    """A number as numpy's `int64` is one."""

    def __init__(self, value):
        self.value = value

    def __index__(self):
        return self.value


def numbers_by_their_value():
    kinds = [Single, Fraction, Decimal, str, float]
    if numpy:
        kinds += [numpy.float16, numpy.float32, numpy.float64, numpy.longdouble, numpy.array]
    for kind in kinds:
        for aims in (turned, chained):
            assert aims(kind(2.25), kind(1.625)) == (Decimal("2.25"), Decimal("1.625")), kind
    whole = [Whole(1), True, Face(1)] + ([numpy.int64(1), numpy.uint8(1), numpy.array(1)] if numpy else [])
    port, station = scripted({2107: b"0,1.5,0.5"})
    for one in whole:
        assert station.tmc.get_angle(one).hz_rad == Decimal("1.5") and station.ask(Whole(2107), one).code == 0
        assert station.raw(2167, one, Fraction(1, 2)).code == 0
    for flag in [True, False, 0, 1] + ([numpy.True_, numpy.False_] if numpy else []):
        station.aut.make_positioning(1, 1, 0, 0, flag)
    refused = [None, b"2.25", 1j, object(), [2.25], Exception] + ([numpy.array([2.25, 1.0]), numpy.complex64(2 + 1j), numpy.array(2 + 1j)] if numpy else [])
    written = len(port.written)
    with __import__("warnings").catch_warnings():
        __import__("warnings").simplefilter("ignore")
        for odd in refused:
            raised((TypeError, ValueError), station.aut.make_positioning, odd, 1, 0, 0)
    for odd in [2.5, Single(1.5), Fraction(3, 2), Decimal("1.5")]:  # a Long is whole
        raised(geocom.BadParameters, station.tmc.get_angle, odd)
        raised((TypeError, geocom.Fault), station.ask, odd, 1)
    raised(TypeError, geocom.Chain.of, 7, (9027.5, "1", "1", 0, 1, False))
    assert len(port.written) == written


def turned(hz_rad, v_rad):
    with geocom.Station(geocom.Instrument()) as station:
        station.aut.make_positioning(hz_rad, v_rad, 0, 1)
        return tuple(station.tmc.get_angle(1))


def chained(hz_rad, v_rad):
    with geocom.Station(geocom.Instrument()) as station:
        return tuple(station.measure(geocom.Chain.measuring(1, hz_rad, v_rad))[2].value[:2])


def refused_calls_return_at_once():
    port, station = scripted(timeout=6)
    _, unreachable = scripted(timeout=6)
    unreachable._open = lambda: raised(AssertionError, lambda: 0)  # it isn't asked for a connection
    station.synchronize()
    for each in (station, unreachable):
        clock = each._clock
        for kind, call, words in [(geocom.BadParameters, each.ask, (2012, "x")), (geocom.UnknownProcedure, each.ask, (5002,)),
                                  (ValueError, each.ask, (99999,)), (geocom.BadParameters, each.raw, (2167, "1\n")),
                                  (geocom.BadParameters, each.aut.make_positioning, ("12,5", "1.5", 0, 1))]:
            before = clock()
            with held_elsewhere(each._lock):  # no lock is asked for
                raised(kind, call, *words)
            assert clock() == before, (call, words)

    async def trial():
        async with geocom.aio.Station(geocom.Instrument("delay 5003 50\n").connect, timeout=3) as station:
            calls = [station.ask(5003), *(station.ask(2012, "x") for _ in range(3000)), station.ask(5004)]
            begun = time.monotonic()
            first, *refused, last = await asyncio.gather(*calls, return_exceptions=True)
            assert time.monotonic() - begun < 3 and first.outcome is last.outcome is Outcome.ANSWERED
            assert {type(each) for each in refused} == {geocom.BadParameters}

    asyncio.run(trial())


@contextlib.contextmanager
def held_elsewhere(lock):
    """Another thread has the lock."""
    taken, done = threading.Event(), threading.Event()

    def hold():
        with lock:
            taken.set()
            done.wait()

    thread = threading.Thread(target=hold)
    thread.start()
    taken.wait()
    try:
        yield
    finally:
        done.set()
        thread.join()


class Echo:
    """A port whose instrument answers 2107 with the request's own number, and keeps its reply; its bytes come in two pieces."""

    def __init__(self, clock):
        self.clock, self.timeout, self.cut, self.came, self.kept, self.is_open = clock, 0.0, b"", b"", None, True

    def write(self, data):
        self.cut += data
        while b"\n" in self.cut:
            line, self.cut = self.cut.split(b"\n", 1)
            if line[:5] == b"%R1Q," and line.endswith(b"\r"):
                head, _, params = line[5:-1].partition(b":")
                procedure, id = head.split(b",")
                if not self.kept or self.kept[0] != id:
                    self.kept = id, b"%%R1P,0,%s:0%s\r\n" % (id, b",%s.0,0.5" % params if procedure == b"2107" else b"")
                self.came += self.kept[1]

    @property
    def in_waiting(self):
        return len(self.came) // 2

    def read(self, size=1):
        if not self.is_open:
            raise OSError("closed")
        data, self.came = self.came[:size], self.came[size:]
        if not data:
            self.clock.now += self.timeout
        return data

    def open(self):
        if self.is_open:
            raise OSError("open already")
        self.is_open, self.kept, self.came = True, None, b""

    def close(self):
        self.is_open = False


class Interrupt(BaseException):
    """What a signal's handler raises, as KeyboardInterrupt is one."""


PACKAGE = str(Path(geocom.__file__).parent)


def interrupted(call, at, each="line"):
    """Calls it, and raises behind so many lines (or opcodes) of the package. Whether there were as many."""
    left = at

    def trace(frame, event, _):
        nonlocal left
        if not frame.f_code.co_filename.startswith(PACKAGE):
            return None
        frame.f_trace_opcodes = each == "opcode"
        if event == each:
            left -= 1
            if left == 0:
                sys.settrace(None)
                raise Interrupt
        return trace

    sys.settrace(trace)
    try:
        call()
    except Interrupt:
        pass
    finally:
        sys.settrace(None)
    return left <= 0


def asks_well(station, numbers):
    """Whether each of these is answered, with its own number."""
    for number in numbers:
        settlement = station.ask(2107, number, target=number, timeout=60)
        assert (settlement.target, settlement.items[:1]) == (number, (f"{number}.0",)), settlement
    rows = station.measure(geocom.Chain.of(9, (2107, 9), (2107, 10), timeout=60))
    assert [row.value.hz_rad for row in rows] == [9, 10] and not station._session.outstanding


def exceptions_at_any_place(each="line", stride=7):
    """A signal's handler raises at each line of a call, and again at one of the next call: the station is whole."""

    def made(is_synchronized):
        clock = Clock()
        station = geocom.Station(Echo(clock), clock=clock, sleep=clock.sleep, timeout=5)
        if is_synchronized:
            station.synchronize()
        return station

    def calls(station):
        yield lambda: station.ask(2107, 1, target=1)
        yield lambda: [station.raw(2167, 1) for _ in range(8)]
        yield lambda: station.measure(geocom.Chain.of(1, (2107, 1), (2107, 2)))
        yield lambda: (station.close(), station.synchronize())

    count = 0
    for is_synchronized, step in [(True, stride), (False, 13 * stride)]:
        for which in range(4):
            at, is_more = 1, True
            while is_more:
                station = made(is_synchronized)
                is_more = interrupted(list(calls(station))[which], at, each)
                if at % 3 == 0:
                    interrupted(lambda: station.ask(2107, 5), 1 + at // 3 % 300, each)
                asks_well(station, [2, 3])
                at, count = at + step, count + 1
    return count


def exceptions_of_signals():
    """A real signal, at random moments."""

    class Alarm(Exception):
        pass

    def ring(*_):
        raise Alarm

    def asks(seconds):
        signal.setitimer(signal.ITIMER_REAL, seconds)
        for number in range(20, 40):
            assert station.ask(2107, number, target=number).items[0] == f"{number}.0"
        time.sleep(0.001)

    before = signal.signal(signal.SIGALRM, ring)
    clock = Clock()
    station = geocom.Station(Echo(clock), clock=clock, sleep=clock.sleep, timeout=5)
    try:
        for place in range(600):
            with contextlib.suppress(Alarm):
                asks(1e-6 + place % 100 * 1e-5)
            asks_well(station, [2])
    finally:
        signal.setitimer(signal.ITIMER_REAL, 0)
        signal.signal(signal.SIGALRM, before)


class Raising(logging.Filter):
    """Raises at the record of this number."""

    def __init__(self, at):
        super().__init__()
        self.at = at

    def filter(self, record):
        self.at -= 1
        if self.at == 0:
            raise RuntimeError("a filter")
        return False


class Broken:
    """A writer that raises at the write of this number, and at each one after it for so many."""

    def __init__(self, writer, at):
        self.writer, self.at = writer, at

    def write(self, data):
        self.at[0] -= 1
        if self.at[0] <= 0 < self.at[0] + self.at[1]:
            raise RuntimeError("the handler is closed")
        self.writer.write(data)

    def close(self):
        self.writer.close()


async def all_end(station, patience):
    """Whether calls of a station end in time, whatever they end as, and later ones are answered."""
    calls = [station.ask(5003, timeout=patience) for _ in range(9)] + [station.measure(geocom.Chain.of(1, (5003,), (5004,), timeout=patience))]
    await asyncio.wait_for(asyncio.gather(*calls, return_exceptions=True), 3 * len(calls) * patience)
    for attempt in range(20):
        with contextlib.suppress(OSError):
            settlement = await asyncio.wait_for(station.ask(5003, timeout=patience), 3 * patience)
            if settlement.items == ("123456",):
                return
    raise AssertionError("no later call was answered")


def aio_calls_always_end():
    async def trial(width, writes, record):
        instrument = geocom.Instrument()

        async def connect():
            reader, writer = await instrument.connect()
            return reader, Broken(writer, writes)

        station = geocom.aio.Station(connect, timeout=0.2, settle=0.01, width=width)
        logger, raising = logging.getLogger("geocom"), Raising(record)
        logger.addFilter(raising)
        try:
            await all_end(station, 0.2)
        finally:
            logger.removeFilter(raising)
        await station.close()

    logger = logging.getLogger("geocom")
    level = logger.level
    logger.setLevel(logging.DEBUG)
    try:
        for width in (1, 7):
            for at in (1, 2, 9, 10, 11, 14):
                asyncio.run(trial(width, [at, 1], 0))
            asyncio.run(trial(width, [10, 5], 0))
            for record in range(1, 45):
                asyncio.run(trial(width, [0, 0], record))
    finally:
        logger.setLevel(level)


def aio_calls_end_with_what_breaks_off():
    """What is in flight is lost at once, and not only at its deadline."""

    async def trial():
        async with geocom.aio.Station(geocom.Instrument("delay 5003 60000\n").connect, timeout=30, settle=0.01) as station:
            asked = asyncio.create_task(station.ask(5003))
            await asyncio.sleep(0.1)
            station._turns._turn(functools.partial(raised, AssertionError, lambda: 0))
            assert (await asyncio.wait_for(asked, 5)).outcome is Outcome.LOST and not station._session.outstanding

    asyncio.run(trial())


def aio_over_a_second_loop():
    station = geocom.aio.Station(geocom.Instrument().connect, timeout=5, settle=0.01)

    async def ask(closes):
        serial = (await station.csv.get_instrument_no()).serial
        if closes:
            await station.close()
        return serial

    assert [asyncio.run(ask(closes)) for closes in (True, False, False)] == [123456] * 3
    asyncio.run(station.close())


def pickles_and_copies():
    port, station = scripted({2107: b"1283,1.5,0.5", 2026: b"0,7", 5004: b"0,7,8", 5003: [None]}, timeout=5)
    whys = [raised(geocom.Refused, station.tmc.get_angle, 1), raised(geocom.Unreadable, station.csv.get_instrument_name),
            raised(geocom.Lost, station.csv.get_instrument_no), raised(geocom.BadParameters, station.ask, 2107, "x"),
            raised(geocom.BadScene, geocom.Instrument, "serial 1\nblocked 1 2\n"), geocom.NotReady("x"), geocom.Late(station.ask(2107, 1))]
    for why in whys:
        for again in (pickle.loads(pickle.dumps(why)), copy.copy(why), copy.deepcopy(why)):
            assert type(again) is type(why) and str(again) == str(why) and again.args == why.args
            for name in ("settlement", "code", "number", "line"):
                assert getattr(again, name, None) == getattr(why, name, None), name
    for number in [RC(9999), RC.GRC_NA, Face(7), Face.TURNED, Outcome.LATE, geocom.Reading.VALUE, geocom.Kind.MORE, geocom.PositioningMode(9)]:
        for protocol in range(pickle.HIGHEST_PROTOCOL + 1):
            again = pickle.loads(pickle.dumps(number, protocol))
            assert type(again) is type(number) and again == number and str(again) == str(number)
        assert copy.deepcopy(number) == number
    assert pickle.loads(pickle.dumps(station.tmc.get_face())).face.name == "UNKNOWN_7"
    with multiprocessing.get_context("spawn").Pool(1) as pool:
        told = raised(geocom.Lost, pool.apply_async(lost_elsewhere).get, 60)
        assert told.settlement.outcome is Outcome.LOST


def lost_elsewhere():
    """A call of another process that raises."""
    _, station = scripted({5003: [None]}, timeout=5)
    return station.csv.get_instrument_no()


def timeouts_that_are_refused():
    port, station = scripted()
    station.synchronize()
    written = len(port.written)
    for odd in [0, -1, float("nan"), float("inf"), 1 << 31, (1 << 31) / 1000]:
        raised(ValueError, station.ask, 5003, timeout=odd)
        raised(ValueError, station.measure, geocom.Chain.of(1, (5003,), timeout=odd))
        for kind in (geocom.Station, geocom.aio.Station):
            raised(ValueError, kind, "4001", timeout=odd)
    raised(ValueError, geocom.Station, "4001", settle=-1)
    raised(TypeError, station.ask, 5003, timeout="5")
    for odd in [float("nan"), float("inf"), -1, 0]:
        raised(ValueError, next, station.cycles([geocom.Chain.of(1, (5003,))], every=odd))
    for odd in [0, -1]:
        raised(ValueError, next, station.cycles([geocom.Chain.of(1, (5003,))], count=odd))
    assert len(port.written) == written
    with socket.create_connection(("127.0.0.1", 4001)) as connection, geocom.Station(connection, timeout=600000) as longest:
        assert longest.ask(5003, timeout=((1 << 31) - 1) / 1000).items == ("123456",)


def a_second_with():
    for timeout in (10, 1):
        port, station = scripted({5003: b"0,1"}, timeout=timeout)
        for waits in (0, 4, 4):
            before = port.clock.now
            with station:
                assert station.csv.get_instrument_no().serial == 1 and port.clock.now - before == waits, port.clock.now - before


def ports_that_are_none():
    begun = time.monotonic()
    for kind in (geocom.Station, geocom.aio.Station):
        for odd in [("127.0.0.1", 4001), None, 0, 70000, True, "tcp://127.0.0.1:4001", " 127.0.0.1:4001", "127.0.0.1 :4001", 1.5, b"4001"]:
            raised((TypeError, ValueError), kind, odd)
    for port in (4001, "4001", "127.0.0.1:4001"):
        with geocom.Station(port, timeout=5) as station:
            assert station.csv.get_instrument_no().serial == 123456
    assert time.monotonic() - begun < 5

    async def trial():
        async with geocom.aio.Station(4001) as station:
            assert (await station.csv.get_instrument_no()).serial == 123456

    asyncio.run(trial())


def what_is_not_ready_says_why():
    with socket.create_server(("127.0.0.1", 0)) as probe:
        free = probe.getsockname()[1]
    assert "refused" in str(raised(geocom.NotReady, geocom.Station(free, settle=0.05).ask, 5003, timeout=0.2))


def two_lost_replies():
    """After two lost replies a connection is closed before the next command is sent, and the command goes out over the next one."""
    port, station = scripted({2107: [None, None, b"0,1.5,0.5"], 5003: b"0,1"}, timeout=5)
    station.synchronize()
    closes, close = [], port.close
    port.close = lambda: (closes.append(len(port.written)), close())
    assert [station.ask(2107, 1).outcome for _ in range(2)] == [Outcome.LOST] * 2
    assert station.ask(2107, 1).items == ("1.5", "0.5")
    assert closes and set(closes) == {11}, (closes, port.written)  # the third is the twelfth: nine null procedures came first

    async def trial():
        """Nothing is closed while a request may be answered in time."""
        instrument = geocom.Instrument("delay 5003 700\n")
        async with geocom.aio.Station(instrument.connect, timeout=0.3, settle=0.01, width=7) as station:
            lost = [asyncio.create_task(station.ask(2107, 1, timeout=0.1)), asyncio.create_task(station.ask(5003, timeout=3))]
            assert (await lost[1]).items == ("123456",)

    asyncio.run(trial())


def the_first_example_goes_on():
    """LIBRARY's first example goes on with the next target if an instrument isn't ready, and if a value is missing."""
    text = (Path(__file__).parents[2] / "docs" / "LIBRARY.md").read_text(encoding="utf-8")
    example = text.split("```python\n", 2)[1].split("```")[0]
    ends = {1: geocom.NotReady("no"), 2: geocom.Lost(geocom.Settlement(2, 9027, Outcome.LOST, geocom.Reading.NONE, 0, None, ()))}
    told = []

    class Played(geocom.Station):
        def value_of(self, number, parameters, target=0, timeout=None):
            if number == 9027 and target in ends:
                raise ends[target]
            return super().value_of(number, parameters, target, timeout)

    played = types.SimpleNamespace(**{**vars(geocom), "Station": Played})
    exec(compile(example.replace("import geocom\n", ""), "LIBRARY.md", "exec"), {"geocom": played, "print": lambda *words: told.append(words)})
    assert [str(words[0])[:9] for words in told] == ["no", "target 2,", "3"], told


def a_fork():
    """A station isn't used in a forked process, also while a thread of the first one asks: it neither answers nor hangs."""
    slow = geocom.Station(geocom.Instrument("delay 5003 1000\n"), timeout=5)
    slow.synchronize()
    asking = threading.Thread(target=slow.csv.get_instrument_no)
    asking.start()
    time.sleep(0.2)
    child = os.fork()
    if not child:
        signal.alarm(5)
        status = 1
        try:
            for call in (lambda: slow.ask(5003), slow.synchronize, lambda: slow.measure(geocom.Chain.of(1, (5003,)))):
                raised(RuntimeError, call)
            slow.close()
            status = 0
        finally:
            os._exit(status)
    assert os.waitpid(child, 0)[1] == 0
    asking.join()
    assert slow.csv.get_instrument_no().serial == 123456

    async def trial():
        async with geocom.aio.Station(geocom.Instrument().connect, timeout=5) as station:
            child = os.fork()
            if not child:
                status = 1
                try:
                    try:
                        await station.ask(5003)
                    except RuntimeError:
                        status = 0
                finally:
                    os._exit(status)
            assert os.waitpid(child, 0)[1] == 0 and (await station.csv.get_instrument_no()).serial == 123456

    asyncio.run(trial())


def gon_and_degrees():
    assert geocom.gon_to_rad(200) == geocom.degrees_to_rad("180") == Decimal("3.141592653590")
    for angle in ["0", "143.2394", "399.9999", "-17.25", "1e-3", 12.5, Fraction(25, 2), Decimal("360.0")]:
        for there, back in [(geocom.gon_to_rad, geocom.rad_to_gon), (geocom.degrees_to_rad, geocom.rad_to_degrees)]:
            assert abs(back(there(angle)) - Decimal(str(float(angle)))) < Decimal("1e-10"), angle
    for odd in ["x", "12,5", "1 2"]:
        raised(ValueError, geocom.gon_to_rad, odd)
    with geocom.Station(geocom.Instrument("target 2.249999233723 1.625 10\n")) as station:
        chain = geocom.Chain.measuring(1, geocom.gon_to_rad("143.2394"), "1.625")
        assert station.measure(chain)[2].value.distance_m == 10


def modes_by_their_names():
    with geocom.Station(geocom.Instrument()) as station:
        station.aut.make_positioning("2.25", "1.625", geocom.PositioningMode.NORMAL, geocom.RecognitionMode.TARGET)
        station.tmc.do_measure(geocom.MeasureCommand.DISTANCE, geocom.InclinationMode.AUTOMATIC)
        assert station.tmc.get_simple_mea(5000, geocom.InclinationMode.AUTOMATIC).distance_m == Decimal("110.0625")
        assert station.bap.meas_distance_angle(geocom.DistanceMode.DISTANCE).mode == geocom.DistanceMode.DISTANCE
    assert "PositioningMode" in type(station.aut).make_positioning.__doc__


HELPERS = {"turned", "chained", "held_elsewhere", "interrupted", "asks_well", "all_end", "lost_elsewhere", "raised", "scripted"}
CASES = [it for name, it in list(globals().items()) if isinstance(it, types.FunctionType) and name not in HELPERS]
if __name__ == "__main__":
    # station_troubles.py [line] [opcode]: each case with its time; and the exceptions behind each line, or each opcode.
    for case in CASES:
        begun = time.monotonic()
        case()
        print(f"{case.__name__}: {time.monotonic() - begun:.1f} s", flush=True)
    for each in sys.argv[1:]:
        print(f"{exceptions_at_any_place(each, 1)} interruptions hold")
