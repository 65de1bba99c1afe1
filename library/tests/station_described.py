"""Cases of procedures that aren't in the table, and that a text describes. `station_cases.py` runs them."""

import asyncio
import pickle
import types
from decimal import Decimal

import geocom
import geocom.aio
from geocom import Outcome, Reading
from station_scripted import raised, scripted

TILT = "2167 mode Long -> hz_rad Double v_rad Double"
FURTHER = f"{TILT} .."
KINDS = "11003 a Double b Byte c Boolean -> cross_rad Double counts Long level Short flags Byte is_on Boolean title String class Long"


def an_answer_by_its_columns():
    port, station = scripted({2167: b"0,0.25, 1.5", 11003: b"0,0.10,-2,3,'0C',1,\"a,b\",7"}, timeout=5)
    said = station.describe(TILT)
    assert (said.procedure, [each.name for each in said.columns], said.more) == (2167, ["hz_rad", "v_rad"], False)
    settlement = station.ask(2167, 1, target=7)
    assert (settlement.target, settlement.reading, settlement.items) == (7, Reading.VALUE, ("0.25", "1.5"))
    tilt = settlement.value()
    assert (tilt.hz_rad, tilt.v_rad) == (Decimal("0.25"), Decimal("1.5")) and tilt._asdict() == {"hz_rad": Decimal("0.25"), "v_rad": Decimal("1.5")}
    assert station.value_of(2167, (1,)) == tilt and pickle.loads(pickle.dumps(settlement)) == settlement
    station.describe(KINDS)
    value = station.ask(11003, 1, 12, True).value()
    assert value == (Decimal("0.10"), -2, 3, 12, True, "a,b", 7) and value.class_ == 7 and type(value.is_on) is bool
    station.describe("50000 ->")
    assert station.ask(50000).value() == ()
    assert port.written[9:] == [2167, 2167, 11003, 50000]


def a_description_that_is_refused():
    _, station = scripted()
    for text in ["", "2167", "2167 mode Long", "2167 mode long -> x Long", "2167 -> x Long x Long", "2167 -> time Long", "2167 -> \u03b1 Long"]:
        assert raised(geocom.errors.NoDescription, station.describe, text).number == 71
    assert isinstance(raised(geocom.InTable, station.describe, "2107 mode Long -> hz_rad Double"), geocom.Fault)
    raised(geocom.UnknownProcedure, station.ask, 2167, 1)


def parameters_that_are_refused():
    """Before anything goes out, in a chain, too. `raw` sends what it is given."""
    port, station = scripted({2167: b"0,0.25,1.5"})
    station.describe(TILT)
    for words, number in [((), 15), ((1, 2), 15), (("x",), 11), ((1 << 31,), 12), (('"',), 13)]:
        assert raised(geocom.BadParameters, station.ask, 2167, *words).number == number
    raised(geocom.BadParameters, station.measure, geocom.Chain.of(7, (2107, 1), (2167, "x")))
    raised(geocom.BadParameters, station.ask, 2167, "1\n")
    assert port.written == [] and station.raw(2167, "x").value() == ("0.25", "1.5")


def an_answer_that_cannot_be_read():
    _, station = scripted({2167: [b"0,0.25", b"0,0.25,x", b"0,0.25,1.5,7", b"1285,0.25,1.5", b"1285,0.25,1.5", b"1285", b"3081|0", None, b"0,\""]}, timeout=5)
    station.describe(TILT)
    for code in (15, 11, 15):
        settlement = station.ask(2167, 1)
        assert (settlement.outcome, settlement.reading, settlement.code, settlement.items) == (Outcome.ANSWERED, Reading.UNREADABLE, code, ())
        raised(geocom.Unreadable, settlement.value)
    refused = station.ask(2167, 1)
    assert raised(geocom.Refused, refused.value).code == 1285 and refused.value(accept=[1285]).v_rad == Decimal("1.5")
    rows = station.measure(geocom.Chain.of(7, (2167, 1), (2167, 1), accept=[1285]))
    assert [row.is_good for row in rows] == [True, False] and rows[0].value.hz_rad == Decimal("0.25")
    raised(geocom.Unreadable, rows[1].settlement.value, accept=[1285])
    assert station.ask(2167, 1).reading is Reading.COM_FAULT
    raised(geocom.Lost, station.ask(2167, 1).value)
    assert station.ask(2167, 1).code == 13


def further_items():
    _, station = scripted({2167: [b"0,0.25,1.5,7,\"a,b\"", b"0,0.25,1.5", b"0,0.25"]})
    station.describe(TILT)
    assert station.describe(FURTHER).more  # the last one counts
    settlement = station.ask(2167, 1)
    assert settlement.items == ("0.25", "1.5", "7", '"a,b"') and settlement.value() == (Decimal("0.25"), Decimal("1.5"))
    assert settlement.items[len(settlement.description.columns):] == ("7", '"a,b"')
    assert station.ask(2167, 1).value().v_rad == Decimal("1.5") and station.ask(2167, 1).reading is Reading.UNREADABLE


def behind_a_null_procedure():
    """A described request is a raw one: after six in a row a null procedure goes out."""
    port, station = scripted({2167: b"0,0.25,1.5"})
    station.describe(TILT)
    for _ in range(14):
        assert station.ask(2167, 1).value().hz_rad == Decimal("0.25")
    assert port.written[8:] == [0] + 7 * [2167] + [0] + 7 * [2167]


def by_asyncio():
    async def trial():
        async def answering(reader, writer):
            async for line in reader:
                head, _, _ = line.strip().partition(b":")
                if head:
                    procedure, id = head[5:].split(b",")
                    writer.write(b"%%R1P,0,%s:0%s\r\n" % (id, {b"2167": b",0.25,1.5", b"11003": b",x"}.get(procedure, b"")))
            writer.close()

        server = await asyncio.start_server(answering, "127.0.0.1", 0)
        async with geocom.aio.Station(str(server.sockets[0].getsockname()[1]), timeout=5) as station:
            station.describe(TILT)
            station.describe("11003 -> counts Long")
            assert (await station.ask(2167, 1)).value().v_rad == Decimal("1.5")
            assert (await station.value_of(2167, (1,))).hz_rad == Decimal("0.25")
            assert (await station.ask(11003)).reading is Reading.UNREADABLE
            rows = await station.measure(geocom.Chain.of(7, (2167, 1), (11003,), (2167, 1)))
            assert [row.outcome for row in rows] == ["answered", "answered", "skipped"]
            try:
                await station.ask(2167, "x")
            except geocom.BadParameters as why:
                assert why.number == 11
            else:
                raise AssertionError("it was sent")
        await asyncio.sleep(0.1)  # the station's end is seen there
        server.close()

    asyncio.run(trial())


HELPERS = {"raised", "scripted"}
CASES = [it for name, it in list(globals().items()) if isinstance(it, types.FunctionType) and name not in HELPERS]
if __name__ == "__main__":
    for case in CASES:
        case()
    print(f"described procedures: {len(CASES)} cases hold")
