"""The procedures, and the named tuples that they answer.

Written by `library/generate.py` of the tables of `docs/PROTOCOL.md`.
"""

from __future__ import annotations

import datetime
from collections.abc import Callable, Sequence
from decimal import Decimal
from typing import Any, NamedTuple

from .values import Face, PrismType, face, moment, prism_type, reader, text


class DoublePrecision(NamedTuple):
    """108 COM_GetDoublePrecision: places (Short)."""

    places: int


class SWVersion(NamedTuple):
    """110 COM_GetSWVersion, 5034 CSV_GetSWVersion: release, version, subversion (3 Shorts)."""

    release: int
    version: int
    subversion: int


class InstrumentNo(NamedTuple):
    """5003 CSV_GetInstrumentNo: serial number (Long)."""

    serial: int


class InstrumentName(NamedTuple):
    """5004 CSV_GetInstrumentName: name (String)."""

    instrument: str


class DateTime(NamedTuple):
    """5008 CSV_GetDateTime: year (Short), month, day, hour, minute, second (5 Bytes)."""

    moment: datetime.datetime


class IntTemp(NamedTuple):
    """5011 CSV_GetIntTemp: temperature inside the instrument in degrees Celsius (Double)."""

    temperature_c: Decimal


class StationPoint(NamedTuple):
    """2009 TMC_GetStation: easting, northing, height, instrument height in metres (4 Doubles)."""

    easting_m: Decimal
    northing_m: Decimal
    height_m: Decimal
    instrument_height_m: Decimal


class Height(NamedTuple):
    """2011 TMC_GetHeight: reflector height in metres (Double)."""

    reflector_height_m: Decimal


class TelescopeFace(NamedTuple):
    """2026 TMC_GetFace: face: 0 normal, 1 turned (Long)."""

    face: Face


class Angle(NamedTuple):
    """2107 TMC_GetAngle: horizontal direction, vertical angle in radians (2 Doubles)."""

    hz_rad: Decimal
    v_rad: Decimal


class SimpleMea(NamedTuple):
    """2108 TMC_GetSimpleMea: horizontal direction, vertical angle in radians, slope distance in
    metres (3 Doubles).
    """

    hz_rad: Decimal
    v_rad: Decimal
    distance_m: Decimal


class QuickDist(NamedTuple):
    """2117 TMC_QuickDist: horizontal direction, vertical angle in radians, slope distance in
    metres (3 Doubles).
    """

    hz_rad: Decimal
    v_rad: Decimal
    distance_m: Decimal


class Prism(NamedTuple):
    """17009 BAP_GetPrismType: prism type (Long)."""

    prism_type: PrismType


class MeasDistanceAngle(NamedTuple):
    """17017 BAP_MeasDistanceAngle: horizontal direction, vertical angle in radians, slope
    distance in metres (3 Doubles), mode (Long).
    """

    hz_rad: Decimal
    v_rad: Decimal
    distance_m: Decimal
    mode: int


class Procedure(NamedTuple):
    """A procedure: its name, the kinds of its parameters, and how its answer is read."""

    name: str
    kinds: tuple[str, ...]
    read: Callable[[Sequence[str]], Any]


def nothing(_: Sequence[str]) -> None:
    """The answer of a procedure that answers nothing."""


#: The table, by the procedures' numbers.
TABLE: dict[int, Procedure] = {
    0: Procedure("COM_NullProc", (), nothing),
    107: Procedure("COM_SetDoublePrecision", ("Short",), nothing),
    108: Procedure("COM_GetDoublePrecision", (), reader(DoublePrecision, int)),
    110: Procedure("COM_GetSWVersion", (), reader(SWVersion, int, int, int)),
    5003: Procedure("CSV_GetInstrumentNo", (), reader(InstrumentNo, int)),
    5004: Procedure("CSV_GetInstrumentName", (), reader(InstrumentName, text)),
    5007: Procedure("CSV_SetDateTime", ("Short", "Byte", "Byte", "Byte", "Byte", "Byte"), nothing),
    5008: Procedure("CSV_GetDateTime", (), lambda items: DateTime(moment(items))),
    5011: Procedure("CSV_GetIntTemp", (), reader(IntTemp, Decimal)),
    5034: Procedure("CSV_GetSWVersion", (), reader(SWVersion, int, int, int)),
    2008: Procedure("TMC_DoMeasure", ("Long", "Long"), nothing),
    2009: Procedure("TMC_GetStation", (), reader(StationPoint, Decimal, Decimal, Decimal, Decimal)),
    2010: Procedure("TMC_SetStation", ("Double", "Double", "Double", "Double"), nothing),
    2011: Procedure("TMC_GetHeight", (), reader(Height, Decimal)),
    2012: Procedure("TMC_SetHeight", ("Double",), nothing),
    2026: Procedure("TMC_GetFace", (), reader(TelescopeFace, face)),
    2107: Procedure("TMC_GetAngle", ("Long",), reader(Angle, Decimal, Decimal)),
    2108: Procedure(
        "TMC_GetSimpleMea",
        ("Long", "Long"),
        reader(SimpleMea, Decimal, Decimal, Decimal),
    ),
    2117: Procedure("TMC_QuickDist", (), reader(QuickDist, Decimal, Decimal, Decimal)),
    17008: Procedure("BAP_SetPrismType", ("Long",), nothing),
    17009: Procedure("BAP_GetPrismType", (), reader(Prism, prism_type)),
    17017: Procedure(
        "BAP_MeasDistanceAngle",
        ("Long",),
        reader(MeasDistanceAngle, Decimal, Decimal, Decimal, int),
    ),
    9027: Procedure(
        "AUT_MakePositioning",
        ("Double", "Double", "Long", "Long", "Boolean"),
        nothing,
    ),
    9028: Procedure("AUT_ChangeFace", ("Long", "Long", "Boolean"), nothing),
    9037: Procedure("AUT_FineAdjust", ("Double", "Double", "Boolean"), nothing),
}
