"""An instrument that turns and measures: 9027 turns it, 2008 measures the distance of the target that it points at, and 2108 answers with
its direction and the distance measured last, which is an earlier target's where nothing was measured since. A reading has no noise."""

import re
from decimal import Decimal
from typing import NamedTuple

from counting import PAUSE, UNKNOWN, Counting

TURN, MEASURE, READ = "9027", "2008", "2108"
# The mode of 2008 with which it measures; with any other it does nothing.
DISTANCE = b"1"
# How far from a target's direction it still measures that target.
FIELD = Decimal("0.01")
DECIMAL = re.compile(rb"[0-9]+(\.[0-9]+)?")
NO_DISTANCE, INVALID = b"1285", b"3"


class Target(NamedTuple):
    """Where a target is."""

    hz: Decimal
    v: Decimal
    distance: Decimal


class Surveying(Counting):
    """It stands among these targets."""

    def __init__(self, targets, width, has_store=False, pause=PAUSE):
        self.targets, self.hz, self.v, self.distance = targets, b"0", b"1.5", b""
        super().__init__(width, has_store, pause=pause)

    def executed(self, rpc, parameters):
        items = parameters.split(b",")
        if rpc == "0" or rpc == MEASURE and items[0] != DISTANCE:
            return b"0"
        if rpc == TURN:
            if len(items) != 5 or not all(map(DECIMAL.fullmatch, items[:2])):
                return INVALID
            self.hz, self.v = items[:2]
            return b"0"
        if rpc == MEASURE:
            self.distance = next((str(each.distance).encode() for each in self.targets if self.points_at(each)), b"")
            return b"0"
        if rpc == READ:
            return b"0,%s,%s,%s" % (self.hz, self.v, self.distance) if self.distance else NO_DISTANCE
        return UNKNOWN

    def points_at(self, target):
        """Whether it points at a target."""
        hz, v = (Decimal(angle.decode()) for angle in (self.hz, self.v))
        return abs(hz - target.hz) <= FIELD and abs(v - target.v) <= FIELD
