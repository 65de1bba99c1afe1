"""The procedures by their names, for asyncio.

Written by `library/generate.py` of the tables of `docs/PROTOCOL.md`.
"""

from __future__ import annotations

import datetime
from typing import Any, Optional, Protocol, cast

from ..results import (
    Angle,
    DateTime,
    DoublePrecision,
    Height,
    InstrumentName,
    InstrumentNo,
    IntTemp,
    MeasDistanceAngle,
    Prism,
    QuickDist,
    SWVersion,
    SimpleMea,
    StationPoint,
    TelescopeFace,
)
from ..values import Parameter, date_parts


class _Asker(Protocol):
    async def value_of(
        self,
        number: int,
        parameters: tuple[Parameter, ...],
        target: int,
        timeout: Optional[float],
    ) -> Any:
        ...


class _Group:
    def __init__(self, station: _Asker):
        self._value = station.value_of


class Com(_Group):
    """What concerns the communication, and the instrument's software."""

    async def null_proc(self, *, target: int = 0, timeout: Optional[float] = None) -> None:
        """0 COM_NullProc."""
        await self._value(0, (), target, timeout)

    async def set_double_precision(
        self, places: int, *, target: int = 0, timeout: Optional[float] = None
    ) -> None:
        """107 COM_SetDoublePrecision. Takes places (Short)."""
        await self._value(107, (places,), target, timeout)

    async def get_double_precision(
        self, *, target: int = 0, timeout: Optional[float] = None
    ) -> DoublePrecision:
        """108 COM_GetDoublePrecision. Answers places (Short)."""
        return cast(DoublePrecision, await self._value(108, (), target, timeout))

    async def get_sw_version(
        self, *, target: int = 0, timeout: Optional[float] = None
    ) -> SWVersion:
        """110 COM_GetSWVersion. Answers release, version, subversion (3 Shorts)."""
        return cast(SWVersion, await self._value(110, (), target, timeout))


class Csv(_Group):
    """What the instrument is: its number, name, clock and temperature."""

    async def get_instrument_no(
        self, *, target: int = 0, timeout: Optional[float] = None
    ) -> InstrumentNo:
        """5003 CSV_GetInstrumentNo. Answers serial number (Long)."""
        return cast(InstrumentNo, await self._value(5003, (), target, timeout))

    async def get_instrument_name(
        self, *, target: int = 0, timeout: Optional[float] = None
    ) -> InstrumentName:
        """5004 CSV_GetInstrumentName. Answers name (String)."""
        return cast(InstrumentName, await self._value(5004, (), target, timeout))

    async def set_date_time(
        self, moment: datetime.datetime, *, target: int = 0, timeout: Optional[float] = None
    ) -> None:
        """5007 CSV_SetDateTime. Takes year (Short), month, day, hour, minute, second (5 Bytes)."""
        await self._value(5007, date_parts(moment), target, timeout)

    async def get_date_time(self, *, target: int = 0, timeout: Optional[float] = None) -> DateTime:
        """5008 CSV_GetDateTime. Answers year (Short), month, day, hour, minute, second (5
        Bytes).
        """
        return cast(DateTime, await self._value(5008, (), target, timeout))

    async def get_int_temp(self, *, target: int = 0, timeout: Optional[float] = None) -> IntTemp:
        """5011 CSV_GetIntTemp. Answers temperature inside the instrument in degrees Celsius
        (Double).
        """
        return cast(IntTemp, await self._value(5011, (), target, timeout))

    async def get_sw_version(
        self, *, target: int = 0, timeout: Optional[float] = None
    ) -> SWVersion:
        """5034 CSV_GetSWVersion. Answers release, version, subversion (3 Shorts)."""
        return cast(SWVersion, await self._value(5034, (), target, timeout))


class Tmc(_Group):
    """Angles, distances and coordinates."""

    async def do_measure(
        self, command: int, mode: int, *, target: int = 0, timeout: Optional[float] = None
    ) -> None:
        """2008 TMC_DoMeasure. Takes command, mode (2 Longs). Modes: `MeasureCommand`,
        `InclinationMode`.
        """
        await self._value(2008, (command, mode), target, timeout)

    async def get_station(
        self, *, target: int = 0, timeout: Optional[float] = None
    ) -> StationPoint:
        """2009 TMC_GetStation. Answers easting, northing, height, instrument height in metres (4
        Doubles).
        """
        return cast(StationPoint, await self._value(2009, (), target, timeout))

    async def set_station(
        self,
        easting_m: Parameter,
        northing_m: Parameter,
        height_m: Parameter,
        instrument_height_m: Parameter,
        *,
        target: int = 0,
        timeout: Optional[float] = None,
    ) -> None:
        """2010 TMC_SetStation. Takes easting, northing, height, instrument height in metres (4
        Doubles).
        """
        await self._value(
            2010, (easting_m, northing_m, height_m, instrument_height_m), target, timeout
        )

    async def get_height(self, *, target: int = 0, timeout: Optional[float] = None) -> Height:
        """2011 TMC_GetHeight. Answers reflector height in metres (Double)."""
        return cast(Height, await self._value(2011, (), target, timeout))

    async def set_height(
        self, reflector_height_m: Parameter, *, target: int = 0, timeout: Optional[float] = None
    ) -> None:
        """2012 TMC_SetHeight. Takes reflector height in metres (Double)."""
        await self._value(2012, (reflector_height_m,), target, timeout)

    async def get_face(self, *, target: int = 0, timeout: Optional[float] = None) -> TelescopeFace:
        """2026 TMC_GetFace. Answers face: 0 normal, 1 turned (Long)."""
        return cast(TelescopeFace, await self._value(2026, (), target, timeout))

    async def get_angle(
        self, mode: int, *, target: int = 0, timeout: Optional[float] = None
    ) -> Angle:
        """2107 TMC_GetAngle. Takes mode (Long). Modes: `InclinationMode`. Answers horizontal
        direction, vertical angle in radians (2 Doubles).
        """
        return cast(Angle, await self._value(2107, (mode,), target, timeout))

    async def get_simple_mea(
        self, wait_ms: int, mode: int, *, target: int = 0, timeout: Optional[float] = None
    ) -> SimpleMea:
        """2108 TMC_GetSimpleMea. Takes wait in milliseconds, mode (2 Longs). Modes:
        `InclinationMode`. Answers horizontal direction, vertical angle in radians, slope
        distance in metres (3 Doubles).
        """
        return cast(SimpleMea, await self._value(2108, (wait_ms, mode), target, timeout))

    async def quick_dist(self, *, target: int = 0, timeout: Optional[float] = None) -> QuickDist:
        """2117 TMC_QuickDist. Answers horizontal direction, vertical angle in radians, slope
        distance in metres (3 Doubles). It measures in tracking mode: not for monitoring (from
        memory).
        """
        return cast(QuickDist, await self._value(2117, (), target, timeout))


class Bap(_Group):
    """Measurements as the instrument's own programs make them."""

    async def set_prism_type(
        self, prism_type: int, *, target: int = 0, timeout: Optional[float] = None
    ) -> None:
        """17008 BAP_SetPrismType. Takes prism type (Long)."""
        await self._value(17008, (prism_type,), target, timeout)

    async def get_prism_type(self, *, target: int = 0, timeout: Optional[float] = None) -> Prism:
        """17009 BAP_GetPrismType. Answers prism type (Long)."""
        return cast(Prism, await self._value(17009, (), target, timeout))

    async def meas_distance_angle(
        self, mode: int, *, target: int = 0, timeout: Optional[float] = None
    ) -> MeasDistanceAngle:
        """17017 BAP_MeasDistanceAngle. Takes mode (Long). Modes: `DistanceMode`. Answers
        horizontal direction, vertical angle in radians, slope distance in metres (3 Doubles),
        mode (Long).
        """
        return cast(MeasDistanceAngle, await self._value(17017, (mode,), target, timeout))


class Aut(_Group):
    """What moves the telescope."""

    async def make_positioning(
        self,
        hz_rad: Parameter,
        v_rad: Parameter,
        positioning_mode: int,
        target_recognition_mode: int,
        dummy: bool = False,
        *,
        target: int = 0,
        timeout: Optional[float] = None,
    ) -> None:
        """9027 AUT_MakePositioning. Takes horizontal direction, vertical angle in radians (2
        Doubles), positioning mode, target recognition mode (2 Longs), dummy (Boolean). Modes:
        `PositioningMode`, `RecognitionMode`.
        """
        await self._value(
            9027, (hz_rad, v_rad, positioning_mode, target_recognition_mode, dummy), target, timeout
        )

    async def change_face(
        self,
        positioning_mode: int,
        target_recognition_mode: int,
        dummy: bool = False,
        *,
        target: int = 0,
        timeout: Optional[float] = None,
    ) -> None:
        """9028 AUT_ChangeFace. Takes positioning mode, target recognition mode (2 Longs), dummy
        (Boolean). Modes: `PositioningMode`, `RecognitionMode`.
        """
        await self._value(9028, (positioning_mode, target_recognition_mode, dummy), target, timeout)

    async def fine_adjust(
        self,
        horizontal_area_rad: Parameter,
        vertical_area_rad: Parameter,
        dummy: bool = False,
        *,
        target: int = 0,
        timeout: Optional[float] = None,
    ) -> None:
        """9037 AUT_FineAdjust. Takes horizontal area, vertical area in radians (2 Doubles),
        dummy (Boolean).
        """
        await self._value(9037, (horizontal_area_rad, vertical_area_rad, dummy), target, timeout)
