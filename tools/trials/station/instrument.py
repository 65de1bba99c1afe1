"""The instrument after a bad line: `geocom serve`, or one that knows more, which lives on or restarts, and the requests that its
replies are for."""

import collections
import sys
from pathlib import Path

from line_ends import Connection, Far
from programs import Run, connect, free_port

KNOWING = Path(__file__).resolve().parent / "knowing.py"
# How many connections one `geocom serve` has, each of which is an instrument that restarts.
CONNECTIONS = 1000


class Instrument(Far):
    def __init__(self, program, is_knowing):
        super().__init__(("127.0.0.1", 0))
        self.words = [sys.executable, KNOWING] if is_knowing else [program, "serve"]
        self.run, self.starts = None, 0
        # The request whose reply it keeps, as its id and its number, and the numbers of those whose replies are in flight.
        self.kept, self.owed = None, collections.deque()

    def restart(self):
        """It restarts: it forgets the reply that it keeps, and what had come of a line."""
        if self.link:
            for _ in self.link.drained(False):
                pass
            self.shut()
        if self.starts % CONNECTIONS == 0:
            self.end()
            self.where = "127.0.0.1", free_port()
            self.run = Run([*self.words, self.where[1], "--connections", CONNECTIONS])
        self.starts += 1
        self.link = Connection(connect(self.where[1], 30))
        self.kept, self.owed = None, collections.deque()

    def owe(self, request):
        """A request reached it: where it keeps a reply with that id, it sends that one."""
        if not self.kept or self.kept[0] != request[0]:
            self.kept = request
        self.owed.append(self.kept[1])

    def end(self):
        if self.run:
            self.run.end()
