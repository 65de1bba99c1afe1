"""Cases of instruments that are switched on or off: behind a line with a sign-on the station resynchronizes before anything goes out, and the
caller is told. `station_cases.py` runs them."""

import asyncio
import types

import geocom
import geocom.aio
from geocom import Outcome
from station_scripted import raised, scripted

SIGN_ON = b"%N1,0,255,,0%T0,0,0,:\r\n"
# What goes out after one: a synchronization, a null procedure, and the request.
ANEW = ([0] * 9, [6, 5, 4, 3, 2, 1, 0, 7, 0])


def synchronized(answers=None, **options):
    """A station that has synchronized, and was answered once."""
    port, station = scripted({2107: b"0,1.5,0.5", **(answers or {})}, timeout=5, **options)
    station.synchronize()
    assert station.ask(2107, 1).items == ("1.5", "0.5")
    return port, station


def goes_on_anew(port, station):
    """Whether the next request is answered, after a new synchronization."""
    before = len(port.written)
    is_answered = station.ask(2107, 1).items == ("1.5", "0.5")
    return is_answered and (port.written[before:], port.ids[before:]) == (ANEW[0] + [2107], ANEW[1] + [1])


def which_lines_are_sign_ons():
    for line in ["%N1,0,255,,0%T0,0,0,:", b"%R1P,0,2:0,12%N1,", "%N1,"]:
        assert geocom.is_sign_on(line)
    for line in ["", "%N1", "%N2,0", b"%n1,0", "%R1P,0,2:0"]:
        assert not geocom.is_sign_on(line)
    port, station = synchronized()
    port.came = b"%N2,0\r\n%N1,0\n%N1," + 509 * b" " + b"\r\n" + 600 * b" " + SIGN_ON  # none of these is a line that has one
    assert station.ask(2107, 1).items == ("1.5", "0.5") and station.sign_ons == 0 and port.ids[9:] == [1, 2]
    port.came = b"%N1," + 508 * b" " + b"\r\n"
    raised(geocom.Restarted, station.ask, 2107, 1)


def between_two_requests():
    """The first request behind it isn't sent: a setup may come before it."""
    port, station = synchronized()
    port.came = SIGN_ON + SIGN_ON
    before = len(port.written)
    why = raised(geocom.Restarted, station.tmc.get_angle, 1)
    assert isinstance(why, geocom.NotReady) and len(port.written) == before and station.sign_ons == 2
    assert goes_on_anew(port, station) and station.sign_ons == 2


def in_place_of_a_reply():
    """The request is lost, at its deadline, as a reply to it might still come; what comes later is nobody's."""
    port, station = synchronized({2107: [b"0,1.5,0.5", None, b"0,1.5,0.5"]})
    write = port.write
    port.write = lambda data: (write(data), setattr(port, "came", port.came or SIGN_ON))
    end = port.clock.now + 3
    assert station.ask(2107, 1, timeout=3).outcome is Outcome.LOST and port.clock.now == end and station.sign_ons == 1
    port.write = write
    port.came = b"%R1P,0,2:0,9.5,9.5\r\n"
    assert goes_on_anew(port, station)


def in_the_line_of_a_reply_that_was_cut():
    """And in pieces: such a line settles nothing, so the request is lost, at its deadline."""
    port, station = synchronized({2107: [b"0,1.5,0.5", b"0,1.5" + SIGN_ON[:-2], b"0,1.5,0.5"]})
    assert station.ask(2107, 1).outcome is Outcome.LOST and station.sign_ons == 1
    assert goes_on_anew(port, station)
    port.answers[2107] = [None, b"0,1.5,0.5"]
    read, pieces = port.read, [b"%R1P,0,2:0,1.5%N", b"1,0:\r\n"]
    port.read = lambda size=1: pieces.pop(0) if pieces else read(size)
    port.came = b""
    assert station.ask(2107, 1).outcome is Outcome.LOST and station.sign_ons == 2
    port.came = b""
    assert goes_on_anew(port, station)


def before_the_first_request():
    """It isn't counted, as the caller's setup comes anyway; the station resynchronizes where it had synchronized."""
    port, station = scripted({2107: b"0,1.5,0.5"}, timeout=5)
    port.came = SIGN_ON
    station.synchronize()
    assert port.written == [0] * 8
    port.came = SIGN_ON
    assert goes_on_anew(port, station) and station.sign_ons == 0


def while_it_synchronizes():
    """The synchronization goes on, and the request isn't sent."""
    port, station = synchronized()
    port.came = SIGN_ON
    raised(geocom.Restarted, station.ask, 2107, 1)
    before = len(port.written)
    port.answers[0] = [b"0"] * 3 + [None] + [b"0"] * 6
    write = port.write
    port.write = lambda data: (write(data), setattr(port, "came", port.came or SIGN_ON))
    raised(geocom.Restarted, station.ask, 2107, 1)
    port.write = write
    assert port.ids[before:] == [6, 5, 4, 3] and station.sign_ons == 2
    assert station.ask(2107, 1, timeout=9).items == ("1.5", "0.5") and port.ids[before + 4 :] == [3, 2, 1, 0, 7, 0, 1]


def with_the_eighth_answer():
    """It may be behind it: so the station resynchronizes."""
    port, station = synchronized()
    port.came = SIGN_ON
    raised(geocom.Restarted, station.ask, 2107, 1)
    write = port.write
    port.write = lambda data: (write(data), setattr(port, "came", port.came + (SIGN_ON if data == b"%R1Q,0,7:\r\n" else b"")))
    raised(geocom.Restarted, station.ask, 2107, 1)
    port.write = write
    assert goes_on_anew(port, station) and station.sign_ons == 2


def over_a_new_connection():
    """While what comes is discarded."""
    port, station = synchronized()
    station.close()
    port.open()
    port.came = SIGN_ON
    raised(geocom.Restarted, station.ask, 2107, 1, timeout=30)
    assert station.sign_ons == 1 and goes_on_anew(port, station)
    port.came, port.answers[2107] = SIGN_ON[:9], [None, b"0,1.5,0.5"]  # half a line ends with its connection
    assert station.ask(2107, 1).outcome is Outcome.LOST
    station.close()
    port.open()
    port.came = SIGN_ON[9:]
    assert station.ask(2107, 1, timeout=30).items == ("1.5", "0.5") and station.sign_ons == 1


def an_exception_behind_it():
    """The station resynchronizes, once."""
    port, station = synchronized()
    port.came = SIGN_ON
    raised(geocom.Restarted, station.ask, 2107, 1)
    station._is_under_way = True
    assert goes_on_anew(port, station)


def a_synchronization_after_it():
    """`synchronize` resynchronizes, and a setup may follow."""
    port, station = synchronized()
    port.came = SIGN_ON
    raised(geocom.Restarted, station.ask, 2107, 1)
    before = len(port.written)
    station.synchronize()
    assert port.written[before:] == [0] * 8
    assert station.ask(2107, 1).items == ("1.5", "0.5") and port.written[before + 8 :] == [0, 2107]


def a_chain_and_a_cycle():
    """Their other commands are skipped."""
    port, station = synchronized({2008: [b"0\r\n" + SIGN_ON[:-2], b"0", b"0"], 5003: b"0,1"})
    chains = [geocom.Chain.of(7, (5003,)), geocom.Chain.of(8, (2008, 1, 1), (2107, 1)), geocom.Chain.of(9, (5003,))]
    first, second = station.cycles(chains, count=2)
    assert [row.outcome for row in first.rows] == ["answered", "answered", "skipped", "skipped"] and first.rows[1].is_good
    assert [row.is_good for row in second.rows] == [True] * 4 and port.written[11:] == [2008] + ANEW[0] + [5003, 2008, 2107, 5003]
    port.came = SIGN_ON
    assert [row.outcome for row in station.measure(chains[1])] == ["skipped"] * 2 and station.sign_ons == 2


def a_setup_that_is_sent_again():
    """As docs/LIBRARY.md has it: nothing is measured without the setup."""
    port, station = synchronized({2008: b"0"})
    done = None
    for number in range(6):
        if number in (2, 3, 5):
            port.came = SIGN_ON
        while True:
            try:
                while done != (count := station.sign_ons):
                    station.tmc.do_measure(1, 1)
                    done = count
                station.tmc.get_angle(1)
                break
            except geocom.Restarted:
                pass
    asked = [procedure for procedure in port.written[10:] if procedure]
    assert asked == [2008, 2107, 2107] + [2008, 2107] * 2 + [2107] + [2008, 2107] and station.sign_ons == 3


def by_asyncio():
    """The same, with calls that wait for their turn: none of them is sent."""

    async def trial():
        lines, writers, way = [], [], {"mute": False}

        async def instrument(reader, writer):
            writers.append(writer)
            while line := await reader.readline():
                if line == b"\n":
                    continue
                head = line[5:].split(b":")[0].split(b",")
                lines.append((int(head[0]), int(head[1])))
                if head[0] == b"0" or not way["mute"]:
                    told = {b"0": b"", b"2107": b",1.5,0.5"}[head[0]]
                    writer.write(b"%%R1P,0,%s:0%s\r\n" % (head[1], told))

        server = await asyncio.start_server(instrument, "127.0.0.1", 0)
        station = geocom.aio.Station(str(server.sockets[0].getsockname()[1]), timeout=5, width=2)

        async def comes(data):
            writers[0].write(data)
            await asyncio.sleep(0.1)

        async def goes_on_anew():
            del lines[:]
            is_answered = (await station.ask(2107, 1)).items == ("1.5", "0.5")
            return is_answered and lines == list(zip(*ANEW)) + [(2107, 1)]

        await station.synchronize()
        await comes(SIGN_ON)
        assert await goes_on_anew() and station.sign_ons == 0

        await comes(SIGN_ON)  # between two requests: it is seen before the next call, as `sign_ons` says
        assert station.sign_ons == 1 and await goes_on_anew()

        way["mute"], before = True, asyncio.get_running_loop().time()  # in place of a reply, while two others wait for their turn
        asked = [asyncio.create_task(station.ask(2107, 1, timeout=1)) for _ in range(4)]
        await asyncio.sleep(0.1)
        await comes(b"%R1P,0,2:0,1.5" + SIGN_ON)  # and the reply to the first was cut
        ends = await asyncio.gather(*asked, return_exceptions=True)
        assert ends[0].outcome is ends[1].outcome is Outcome.LOST
        assert [type(each) for each in ends[2:]] == [geocom.Restarted] * 2 and station.sign_ons == 2
        assert 0.9 < asyncio.get_running_loop().time() - before < 3
        way["mute"] = False
        assert await goes_on_anew()

        way["mute"] = True
        measuring = asyncio.create_task(station.measure(geocom.Chain.of(7, (2107, 1), (2107, 1), timeout=1)))
        waiting = asyncio.create_task(station.ask(2107, 1))
        await asyncio.sleep(0.1)
        await comes(b"%R1P,0,2:0,1.5,0.5\r\n" + SIGN_ON)
        assert [row.outcome for row in await measuring] == ["answered", "skipped"] and station.sign_ons == 3
        why = (await asyncio.gather(waiting, return_exceptions=True))[0]
        way["mute"] = False
        assert isinstance(why, geocom.Restarted) and await goes_on_anew()
        await comes(SIGN_ON)
        del lines[:]
        await station.synchronize()
        assert lines == list(zip(*ANEW))[:8] and (await station.ask(2107, 1)).items == ("1.5", "0.5")
        await station.close()
        await asyncio.sleep(0.1)  # the instrument's end is seen there
        server.close()

    asyncio.run(trial())


HELPERS = {"synchronized", "goes_on_anew", "raised", "scripted"}
CASES = [it for name, it in list(globals().items()) if isinstance(it, types.FunctionType) and name not in HELPERS]
if __name__ == "__main__":
    for case in CASES:
        case()
    print(f"starts of the instrument: {len(CASES)} cases hold")
