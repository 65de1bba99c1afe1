#!/usr/bin/env python3
"""Request lines for the benchmarks, the same each time, with ids that go round from 0 to 7.

requests.py mixed BYTES       rounds of 22 of the 25 procedures, each once, of at least that many bytes
requests.py only NAME COUNT   that many requests of one kind, behind two that point at a target and measure it
requests.py names             the names that `only` takes, one a line
"""
import sys

# The kinds, by the manual's names, in the order of a round: a target is met, and is measured before it is told.
ROUND = [
    ("COM_NullProc", "0", ""),
    ("COM_SetDoublePrecision", "107", "12"),
    ("COM_GetDoublePrecision", "108", ""),
    ("COM_GetSWVersion", "110", ""),
    ("CSV_GetInstrumentNo", "5003", ""),
    ("CSV_GetInstrumentName", "5004", ""),
    ("CSV_SetDateTime", "5007", "2024,'02','1d','0a','00','3b'"),
    ("CSV_GetDateTime", "5008", ""),
    ("CSV_GetIntTemp", "5011", ""),
    ("CSV_GetSWVersion", "5034", ""),
    ("TMC_SetStation", "2010", "2600012.345,1200034.567,543.210,1.650"),
    ("TMC_GetStation", "2009", ""),
    ("TMC_SetHeight", "2012", "1.725"),
    ("TMC_GetHeight", "2011", ""),
    ("TMC_GetFace", "2026", ""),
    ("AUT_MakePositioning", "9027", "2.250000000000,1.625000000000,0,0,0"),
    ("AUT_FineAdjust", "9037", "0.034906585040,0.034906585040,0"),
    ("TMC_DoMeasure", "2008", "1,1"),
    ("TMC_GetAngle", "2107", "0"),
    ("TMC_GetSimpleMea", "2108", "5000,1"),
    ("BAP_MeasDistanceAngle", "17017", "2"),
    ("AUT_ChangeFace", "9028", "0,0,0"),
]

# What is refused.
REFUSED = [
    ("a parameter too many", "108", "1"),
    ("an unknown procedure", "4711", ""),
]


def line(place, number, params):
    return f"%R1Q,{number},{place % 8}:{params}\r\n".encode("ascii")


def mixed(wanted):
    block = b"".join(line(place, *ROUND[place % 22][1:]) for place in range(8 * 22))
    return block * -(-wanted // len(block))


def only(name, count):
    number, params = next(kind[1:] for kind in ROUND + REFUSED if kind[0] == name)
    head = line(0, "9027", "0.5,1.5,0,0,0") + line(1, "2008", "1,1")
    return head + b"".join(line(place, number, params) for place in range(count))


def main():
    match sys.argv[1:]:
        case ["mixed", wanted]:
            sys.stdout.buffer.write(mixed(int(wanted)))
        case ["only", name, count]:
            sys.stdout.buffer.write(only(name, int(count)))
        case ["names"]:
            print("\n".join(kind[0] for kind in ROUND + REFUSED))
        case _:
            sys.exit(__doc__)


main()
