"""Distances to prisms: the software that is tested. Yours stands in its place."""

from __future__ import annotations

import geocom
from geocom.ports import Where


class Monitor:
    """Measures prisms over a connection: a device, "HOST:PORT", or any port."""

    def __init__(self, port: Where, patience: float = 35.0):
        self.station = geocom.Station(port, timeout=patience)

    def distance(self, hz: float, v: float) -> float | str:
        """The slope distance of the prism there, in metres, or why there is none."""
        try:
            self.station.aut.make_positioning(hz, v, 0, 1)
            return float(self.station.bap.meas_distance_angle(2).distance_m)
        except geocom.Refused as refused:
            return f"return code {int(refused.code)}"
        except (geocom.Late, geocom.Lost):
            return "no reply in time"
