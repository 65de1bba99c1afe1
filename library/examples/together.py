"""Reads the angles of several instruments at the same time: together.py PORT.."""

import asyncio
import sys

import geocom.aio


async def read(port: str) -> str:
    """The direction of one telescope, or why there is none."""
    try:
        async with geocom.aio.Station(port) as station:
            angle = await station.tmc.get_angle(1)
            return f"{port}: {angle.hz_rad} {angle.v_rad}"
    except (geocom.NoValue, OSError) as why:
        return f"{port}: {why}"


async def main() -> None:
    """Each instrument has a line of its own."""
    print(*await asyncio.gather(*map(read, sys.argv[1:])), sep="\n")


asyncio.run(main())
