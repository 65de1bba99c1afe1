"""Cases of the Python package, each a function: station_cases.py, with `geocom` on the path and port 4001 served."""

import asyncio
import contextlib
import datetime
import os
import pydoc
import socket
import subprocess
import sys
import threading
import types
from decimal import Decimal

import geocom
import geocom.aio
import station_described
import station_starts
import station_troubles
from geocom import RC, Face, Outcome, PrismType
from geocom._library import OWN
from geocom.errors import NotItsTurn, OwnTarget
from geocom.session import NEVER, Act, Session, Want
from station_scripted import raised, scripted


def each_procedure_by_its_name():
    with geocom.Station(geocom.Instrument(), timeout=5) as station:
        com, csv, tmc, bap, aut = station.com, station.csv, station.tmc, station.bap, station.aut
        assert com.null_proc() is None and com.set_double_precision(4) is None
        assert com.get_double_precision().places == 4 and com.get_sw_version() == (1, 0, 0)
        assert csv.get_instrument_no().serial == 123456 and csv.get_instrument_name().instrument == "GEOCOM SIM"
        moment = datetime.datetime(2026, 11, 26, 22, 5, 59)
        assert csv.set_date_time(moment) is None and csv.get_date_time().moment == moment
        assert csv.get_int_temp().temperature_c == Decimal("21.0") and csv.get_sw_version().version == 2
        assert tmc.set_station(Decimal("1.5"), 2, "3.25", 1.625) is None
        assert tmc.get_station() == (Decimal("1.5"), 2, Decimal("3.25"), Decimal("1.625"))
        assert tmc.set_height("1.65") is None and tmc.get_height().reflector_height_m == Decimal("1.65")
        assert aut.make_positioning("2.25", Decimal("1.625"), 0, 1) is None and tmc.do_measure(1, 1) is None
        point = tmc.get_simple_mea(5000, 1)
        assert (point.hz_rad, point.v_rad, point.distance_m) == (Decimal("2.25"), Decimal("1.625"), Decimal("110.0625"))
        assert tmc.get_angle(1) == point[:2] and tmc.quick_dist() == point and bap.meas_distance_angle(2)[:3] == point
        assert tmc.get_face().face is Face.NORMAL and aut.change_face(0, 0) is None and tmc.get_face().face is Face.TURNED
        assert bap.set_prism_type(PrismType.MINI) is None and bap.get_prism_type().prism_type is PrismType.MINI
        assert bap.set_prism_type(77) is None and bap.get_prism_type().prism_type.name == "UNKNOWN_77"
        aut.make_positioning("1.0", "1.0", 0, 0)
        assert raised(geocom.Refused, aut.fine_adjust, "0.01", "0.01").code is RC.GRC_AUT_NO_TARGET


def what_is_refused():
    port, station = scripted({2107: b"1283,1.5,0.5", 2108: b"1285,1.5,0.5", 5003: b"3081|0", 5004: b"0,7,8", 5008: b"0,0,'00','00','00','00','00'"})
    refused = station.ask(2107, 1, target=7)
    assert (refused.target, refused.outcome, refused.rc, refused.rc.is_warning) == (7, Outcome.ANSWERED, 1283, True)
    assert raised(geocom.Refused, refused.value).code is RC.GRC_TMC_NO_FULL_CORRECTION
    assert refused.value(accept=[1283]) == (Decimal("1.5"), Decimal("0.5"))
    raised(geocom.Unreadable, station.ask(2108, 5000, 1).value, accept=[1285])
    assert raised(geocom.Refused, station.csv.get_instrument_no).code is RC.GRC_COM_PROC_UNAVAIL
    raised(geocom.Unreadable, station.csv.get_instrument_name)
    raised(geocom.Unreadable, station.csv.get_date_time)
    _, accepting = scripted({2107: b"1283,1.5,0.5"}, accept=[RC.GRC_TMC_NO_FULL_CORRECTION])
    assert accepting.tmc.get_angle(1).hz_rad == Decimal("1.5")
    written = len(port.written)
    for kind, call, words in [(geocom.BadParameters, station.ask, (2107, "x")), (geocom.BadParameters, station.ask, (2107,)),
                              (geocom.UnknownProcedure, station.ask, (5002,)), (geocom.InTable, station.raw, (2107, 1)),
                              (geocom.LineTooLong, station.raw, (2167, "x" * 600)), (ValueError, station.ask, (70000,))]:
        raised(kind, call, *words)
    assert len(port.written) == written


def what_is_late_or_lost():
    port, station = scripted({2107: [None]}, timeout=5)
    station.synchronize()
    begun = port.clock.now
    lost = station.ask(2107, 1, timeout=3)
    assert lost.outcome is Outcome.LOST and port.clock.now == begun + 3 and lost.rc is None
    raised(geocom.Lost, lost.value)
    port.came, port.clock.now = b"%R1P,0,1:0,9.5,9.5\r\n", port.clock.now + 60
    port.answers[2107] = b"0,1.5,0.5"
    assert station.tmc.get_angle(1).hz_rad == Decimal("1.5")


def idle_time_counts_for_no_dead_line():
    port, station = scripted({2107: [None, b"0,1.5,0.5"]}, timeout=5)
    station.synchronize()
    port.open = port.close = lambda: raised(AssertionError, lambda: 0)  # the connection stays
    assert station.ask(2107, 1).outcome is Outcome.LOST
    port.clock.now += 3600
    assert station.ask(2107, 1).outcome is Outcome.ANSWERED


def a_null_procedure_comes_first():
    """After each synchronization, with id 0; and again with the next id, until a reply has ended one."""
    port, station = scripted({5003: b"0,1"}, timeout=5)
    station.synchronize()
    assert port.written == [0] * 8
    assert station.csv.get_instrument_no().serial == station.csv.get_instrument_no().serial == 1
    assert (port.written[8:], port.ids[8:]) == ([0, 5003, 5003], [0, 1, 2])

    port, station = scripted({0: [b"0"] * 8 + [None] + [b"0"] * 10, 5003: [b"0,1", b"0,7"]}, timeout=5)
    assert station.ask(5003, timeout=60).items == ("1",)
    assert (port.written[8:], port.ids[8:]) == ([0, 0, 5003], [0, 1, 2])
    station._is_under_way = True  # as behind an exception
    assert station.ask(5003, timeout=5).items == ("7",)
    assert (port.written[11:], port.ids[11:]) == ([0] * 9 + [5003], [6, 5, 4, 3, 2, 1, 0, 7, 0, 1])

    port, station = scripted({0: [b"0"] * 8 + [None], 5003: b"0,1"}, timeout=5)
    raised(geocom.NotReady, station.ask, 5003)
    port.came = b"%R1P,0,0:0\r\n"  # late: it ends the null procedure, too
    assert station.csv.get_instrument_no().serial == 1 and (port.written[8:], port.ids[8:]) == ([0, 5003], [0, 1])


def six_that_are_given_up():
    """No seventh goes out: the station resynchronizes, with a null procedure after it."""
    port, station = scripted({2107: [None] * 6 + [b"0,1.5,0.5"]}, timeout=100)
    station.synchronize()
    for _ in range(6):
        assert station.ask(2107, 1, timeout=1).outcome is Outcome.LOST
    assert port.written[8:] == [0] + [2107] * 6
    assert station.ask(2107, 1, timeout=1).items == ("1.5", "0.5") and port.written[15:] == [0] * 9 + [2107]


def what_a_line_ended():
    """Those that wait, and those that the last line ended, are together fewer than seven when a request goes out."""
    port, station = scripted({2107: [None] * 4 + [b"0,1.5,0.5"] + [None] * 2 + [b"0,2.5,0.5"]}, timeout=100)
    station.synchronize()
    assert [station.ask(2107, 1, timeout=1).outcome for _ in range(4)] == [Outcome.LOST] * 4
    assert station.ask(2107, 1, timeout=1).items == ("1.5", "0.5")  # it ends five
    assert [station.ask(2107, 1, timeout=1).outcome for _ in range(2)] == [Outcome.LOST] * 2
    assert port.written[8:] == [0] + [2107] * 7
    assert station.ask(2107, 1, timeout=1).items == ("2.5", "0.5") and port.written[16:] == [0] * 9 + [2107]


def raw_requests_with_null_procedures_between():
    port, station = scripted({2167: b'0, 1 ,"a,b"'})
    for _ in range(16):
        assert station.raw(2167, 2, 1).value() == ("1", '"a,b"')
    assert port.written[8:] == [0] + [2167] * 7 + [0] + [2167] * 7 + [0] + [2167] * 2


def a_chain():
    port, station = scripted({2008: [b"0", b"1285"], 2108: b"0,1.5,0.5,10.0"})
    chain = geocom.Chain.measuring(7, "1.5", "0.5")
    rows = station.measure(chain)
    assert [row.outcome for row in rows] == ["answered"] * 3 and rows[2].value.distance_m == 10 and rows[0].sent <= rows[0].time
    rows = station.measure(chain)
    assert [(row.outcome, row.is_good) for row in rows] == [("answered", True), ("answered", False), ("skipped", False)]
    before = len(port.written)
    raised(geocom.BadParameters, station.measure, geocom.Chain.of(7, (5003,), (2107, "x")))
    assert len(port.written) == before
    port.answers[2008], accepting = [b"1285"], geocom.Chain.measuring(7, "1.5", "0.5", accept=[1285])
    assert [row.is_good for row in station.measure(accepting)] == [True] * 3


def cycles_and_missed_ones():
    port, station = scripted({9027: [b"0", None, b"0", b"0", b"0"]})
    chain, seen = geocom.Chain.of(7, (9027, "1.5", "0.5", 0, 1, False), timeout=50), []
    station.synchronize()
    begun = port.clock.now
    for cycle in station.cycles([chain], every=20, count=6):
        seen.append((cycle.number, cycle.is_missed, port.clock.now - begun))
    assert seen == [(1, False, 0), (2, False, 70), (3, True, 70), (4, False, 70), (5, False, 80), (6, False, 100)], seen


def a_connection_that_ended():
    port, station = scripted({5003: b"0,1"}, settle=2)
    assert station.csv.get_instrument_no().serial == 1
    port.is_ended, before = True, port.clock.now
    assert station.csv.get_instrument_no().serial == 1 and port.clock.now - before >= 4
    assert port.written[8:] == [0, 5003, 5003]
    port.is_ended = True
    assert isinstance(raised(geocom.NotReady, station.ask, 5003, timeout=1).__cause__, OSError)
    station.synchronize()
    assert port.written[8:] == [0, 5003, 5003]


def nobody_answers():
    _, station = scripted({0: [None] * 100}, timeout=5)
    raised(geocom.NotReady, station.synchronize)
    raised(geocom.NotReady, station.ask, 5003)
    with socket.create_server(("127.0.0.1", 0)) as probe:
        free = probe.getsockname()[1]
    raised(ConnectionRefusedError, geocom.Station(str(free)).synchronize)
    raised(geocom.NotReady, geocom.Station(str(free), settle=0.05).ask, 5003, timeout=0.2)
    raised(ConnectionRefusedError, asyncio.run, geocom.aio.Station(str(free)).synchronize())
    for wrong in ["word", "0", "host:0", "fd00::5", "tcp://host", ""]:
        with contextlib.suppress(ValueError, OSError, ImportError):
            geocom.Station(wrong).synchronize()
            raise AssertionError(wrong)


def threads_share_a_station():
    with geocom.Station("4001") as station:
        wrong = []

        def ask():
            for _ in range(100):
                if station.csv.get_instrument_no().serial != 123456:
                    wrong.append(1)

        threads = [threading.Thread(target=ask) for _ in range(4)]
        for each in threads:
            each.start()
        for each in threads:
            each.join()
        assert not wrong


def a_socket_that_is_open():
    with socket.create_connection(("127.0.0.1", 4001)) as connection, geocom.Station(connection) as station:
        assert station.csv.get_instrument_no().serial == 123456


def a_cancelled_call():
    async def trial():
        async with geocom.aio.Station("4001", width=3) as station:
            asking = asyncio.create_task(station.ask(5004, target=1))
            await asyncio.sleep(0)
            asking.cancel()
            assert (await station.csv.get_instrument_no()).serial == 123456
            told = await asyncio.gather(*(station.ask(5003, target=number) for number in range(20)))
            assert [each.target for each in told] == list(range(20)) and {each.items for each in told} == {("123456",)}
            rows = await station.measure(geocom.Chain.measuring(2, "2.25", "1.625"))
            assert rows[-1].value.distance_m == Decimal("110.0625")
            cycles = [cycle async for cycle in station.cycles([geocom.Chain.of(1, (5003,))], count=2)]
            assert [len(cycle.rows) for cycle in cycles] == [1, 1]
            assert (await station.raw(2167)).rc == 3081 and asking.cancelled()

    asyncio.run(trial())


def a_station_that_is_closed_meanwhile():
    async def trial():
        writers = []

        async def silent(reader, writer):
            writers.append(writer)  # else it is closed with its last name
            await reader.readline()
            for id in (6, 5, 4, 3, 2, 1, 0, 7, 0):
                await reader.readline()
                writer.write(b"%%R1P,0,%d:0\r\n" % id)

        server = await asyncio.start_server(silent, "127.0.0.1", 0)
        station = geocom.aio.Station(str(server.sockets[0].getsockname()[1]), timeout=60)
        await station.synchronize()
        asked = [asyncio.create_task(station.ask(5003)) for _ in range(2)]
        await asyncio.sleep(0.1)
        await station.close()
        first, second = await asyncio.gather(*asked, return_exceptions=True)
        assert first.outcome is Outcome.LOST and isinstance(second, geocom.NotReady)
        server.close()

    asyncio.run(trial())


def what_the_client_counts():
    client = geocom.Client()
    client.synchronize(b"".join(b"%%R1P,0,%d:0\r\n" % id for id in (6, 5, 4, 3, 2, 1, 0, 7)))
    for target in range(3):
        client.send(target, 10 * target, 5003)
    assert client.expire(10) == [0, 1] and (client.outstanding, client.current) == (3, 1)
    raised(ValueError, client.send, -1, 0, 5003)


def what_a_session_says():
    session = Session(1, 5000, 2000)
    assert session.next(Want.NOTHING, 1000) == (Act.WAIT, NEVER, b"", [])
    for kind, words in [(NotItsTurn, (2107, "1")), (NotItsTurn, (2167, "1\"\"", True)), (geocom.BadParameters, (2107, "x")), (geocom.InTable, (2107, "1", True)),
                        (geocom.UnknownProcedure, (2167, "1")), (ValueError, (1 << 16, "1"))]:
        raised(kind, session.ask, 7, 1000, *words)
    raised(OwnTarget, session.ask, OWN, 1000, 2107, "1")
    assert session.next(Want.SEND, 1000) == (Act.OPEN, 0, b"", [])
    session.opened(1000)
    assert session.is_up and session.next(Want.SEND, 1000).line == b"\n"
    for id in (6, 5, 4, 3, 2, 1, 0, 7, 0):
        assert session.is_ready is (id == 0 and session._state.client.answered == 8)
        assert session.next(Want.SEND, 1000) == (Act.WRITE, 0, b"%%R1Q,0,%d:\r\n" % id, [])
        assert session.next(Want.SEND, 1000) == (Act.READ, 6000, b"", [])
        settled = session.feed(1000, b"%R1P") + session.feed(1000, b",0,%d:0\r\n" % id)
    assert [each.target for each in settled] == [OWN]
    assert session.next(Want.SEND, 3000).act is Act.SEND and session.ask(7, 1000, 2107, "1") == b"%R1Q,2107,1:1\r\n"
    assert session.next(Want.ANSWERS, 3000) == (Act.READ, 4000, b"", []) and session.interruptions == 0
    assert [(each.target, each.items) for each in session.feed(3500, b"%R1P,0,1:0,1.5,0.5\r\n")] == [(7, ("1.5", "0.5"))]
    session.closed(3500)
    assert session.next(Want.SEND, 3500) == (Act.WAIT, 5500, b"", []) and session.delay(4000) == 3500 and session.interruptions == 1
    session.restart()
    assert not session.is_up and session.interruptions == 2
    raised(geocom.BadWidth, geocom.aio.Station, 4001, width=8)


def the_library_is_loaded_at_the_first_use():
    told = {**os.environ, "GEOCOM_LIBRARY": "/nowhere.so"}
    text = "import geocom\ntry: geocom.Client()\nexcept OSError: print('at the first use')"
    assert subprocess.run([sys.executable, "-c", text], env=told, capture_output=True, check=True).stdout == b"at the first use\n"


def what_is_public():
    for name in geocom.__all__:
        assert getattr(geocom, name) is not None
    for name in ["BadWidth", "InTable", "LineTooLong", "NoClient", "NoDescription", "NoReply", "NoRoom", "NotSynchronized", "UnknownProcedure", "WindowFull"]:
        assert issubclass(getattr(geocom, name), geocom.Fault)
    assert "bit_length" not in pydoc.plain(pydoc.render_doc(geocom))  # of int, which each IntEnum has
    for code in RC:
        assert code.text and RC(int(code)) is code


CASES = [it for name, it in list(globals().items()) if isinstance(it, types.FunctionType) and name not in ("scripted", "raised")]
CASES += station_described.CASES + station_starts.CASES + station_troubles.CASES
if __name__ == "__main__":  # a process that a case starts reads this file, too
    for case in CASES:
        case()
    print(f"station cases: {len(CASES)} hold")
