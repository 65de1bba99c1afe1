"""The station for asyncio.

    async with geocom.aio.Station("10.0.0.5:4001") as station:
        angle = await station.tmc.get_angle(1)
"""

from .station import Station

__all__ = ["Station"]
