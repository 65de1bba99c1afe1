"""Names for the modes of procedures, from memory and not from the manual: see your instrument's. A
call takes the number, too.
"""

from __future__ import annotations

from .values import OpenEnum


class PositioningMode(OpenEnum):
    """How exactly 9027 and 9028 turn the telescope.

    NORMAL: to the tolerance that is set in the instrument.
    PRECISE: as exactly as it can, which takes longer.
    """

    NORMAL = 0
    PRECISE = 1


class RecognitionMode(OpenEnum):
    """What 9027 and 9028 do once the telescope has turned.

    POSITION: nothing; the angles read only repeat the command.
    TARGET: the instrument looks for the prism near there, and aims at it.
    """

    POSITION = 0
    TARGET = 1


class MeasureCommand(OpenEnum):
    """What 2008 does.

    STOP: stops measuring and tracking.
    DISTANCE: measures a distance once.
    CLEAR: stops, and clears the distance.
    """

    STOP = 0
    DISTANCE = 1
    CLEAR = 3


class InclinationMode(OpenEnum):
    """How 2008, 2107 and 2108 correct angles for the tilt of the instrument.

    MEASURED: by its compensator, measured now.
    AUTOMATIC: by its compensator, or by the plane where that isn't possible.
    PLANE: by the tilt that was computed before.
    """

    MEASURED = 0
    AUTOMATIC = 1
    PLANE = 2


class DistanceMode(OpenEnum):
    """What 17017 measures.

    LAST: nothing; it answers what was measured last.
    ANGLES: the angles alone.
    DISTANCE: the angles and a distance.
    """

    LAST = 0
    ANGLES = 1
    DISTANCE = 2
