"""One direction of a bad line: what came of a line, the lines that wait for their moment, and what went over of one."""

import collections
from dataclasses import dataclass
from typing import Any

# After so many bytes without a line feed they go on as they are.
LONGEST = 4096


@dataclass
class Item:
    """A line on its way, in pieces, from a moment on. `of` is what a user of the relay wants to know of it; `end` says whether the
    connection ends before or after it, and `kept` how long after the next connection's begin it goes where it is kept."""

    at: float
    pieces: collections.deque[bytes]
    of: Any = None
    end: str = ""
    is_reset: bool = False
    refuse: int = 0
    kept: int | None = None
    begun: bool = False


class Way:
    """One direction: what came of a line, the lines that wait for their moment, in order, and what went over of a line."""

    def __init__(self, name: str) -> None:
        self.name, self.count = name, 0
        self.rest = self.gone = b""
        self.of: Any = None
        self.queue: collections.deque[Item] = collections.deque()

    def lines(self, data: bytes) -> list[bytes]:
        """The lines that this data ends, each with its line feed."""
        self.rest += data
        *whole, self.rest = self.rest.split(b"\n")
        found = [line + b"\n" for line in whole]
        if len(self.rest) > LONGEST:
            found.append(self.rest)
            self.rest = b""
        return found


def pieces_of(line: bytes, size: int) -> collections.deque[bytes]:
    """A line in pieces of a size, at least one; whole, where that is 0."""
    return collections.deque(line[n : n + size] for n in range(0, max(1, len(line)), size)) if size else collections.deque([line])
