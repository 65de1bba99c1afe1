"""A bad line: carries lines between one client at a time and an instrument, and does to them what a text says.

Each direction keeps its order, over connections too. A line goes once its moment has come and all before it have gone. What is in flight
where a connection ends is lost, or is kept and comes on the next one, before all that is new. The instrument's connection lives on.
"""

import collections
import math
import select
import sys
import time
from typing import Any

from line_alter import altered
from line_ends import Far, Link, Near
from line_notes import Notes
from line_text import WORDS, Fate, Text
from line_ways import Item, Way, pieces_of

# From one piece of a line to the next, in seconds.
STEP = 0.001


class Relay:
    """The line between two ends."""

    def __init__(self, near: Near, far: Far, text: Text, seed: int, notes: Notes) -> None:
        self.near, self.far, self.text, self.seed, self.notes = near, far, text, seed, notes
        self.up, self.down = Way("up"), Way("down")
        self.counts: collections.Counter[str] = collections.Counter()
        # Until when nothing goes; how the connection ends, and for how long none is made then.
        self.still, self.is_reset, self.refuse = 0.0, False, 0
        # Whether the instrument is to restart, and whether it is away.
        self.is_anew = self.is_away = False

    # What a user of it may do otherwise.

    def known(self, way: Way, line: bytes) -> tuple[bytes, Any]:
        """A counted line as it goes on, and what is to be known of it."""
        del way
        return line, None

    def other(self, way: Way, line: bytes) -> None:
        """A line that isn't counted, since it doesn't end in CR LF, goes on as it is."""
        way.queue.append(Item(0, collections.deque([line])))

    def moment(self, way: Way, wait: float) -> float:
        """When a line goes that came now, and waits for so many seconds."""
        del way
        return time.monotonic() + wait

    def crossed(self, way: Way) -> None:
        """A line went over; `way` has it, and what is known of the one that it began with."""

    def begun(self) -> None:
        """A client came: what was kept gets its moment."""
        for item in [*self.up.queue, *self.down.queue]:
            item.at = time.monotonic() + (item.kept or 0) / 1000

    # What comes.

    def hear(self, way: Way, data: bytes) -> None:
        for line in way.lines(data):
            self.notes.raw(way.name, line)
            if line.endswith(b"\r\n"):
                self.take(way, line)
            else:
                self.notes.other(way.name)
                self.other(way, line)
        # All of these came from the instrument that was there.
        if self.is_anew:
            self.is_anew = False
            self.start_anew()

    def take(self, way: Way, line: bytes) -> None:
        """Decides what happens to a line, and does it."""
        line, of = self.known(way, line)
        way.count += 1
        fate = self.text.fate(self.seed, way.name, way.count, line)
        changes = self.text.changes(self.seed, way.name, way.count, line)
        self.counts.update([way.name, *(word for word in fate if word != "keep")])
        self.notes.came(way.name, way.count, line, fate, changes, len(way.queue))
        self.is_anew |= "restart" in fate
        if "echo" in fate:
            self.down.queue.append(Item(0, collections.deque([line])))
        if hold := fate.get("hold"):
            self.still = max(self.still, time.monotonic() + hold / 1000)
        if "lose" not in fate:
            self.put(way, altered(line, changes), of, fate)

    def put(self, way: Way, line: bytes, of: Any, fate: Fate) -> None:
        """Puts a line on its way, or what is left of it."""
        at = self.moment(way, fate.get("delay", 0) / 1000)
        if behead := fate.get("behead"):
            line, of = line[behead:] or b"\n", None
        end = "behind" if "cut" in fate else "before" if "close" in fate or "reset" in fate else ""
        if "cut" in fate:
            line = line[: fate["cut"]]
        for _ in range(2 if "repeat" in fate and not end else 1):
            way.queue.append(Item(at, pieces_of(line, fate.get("pieces", 0)), of, end, "reset" in fate, fate.get("refuse", 0),
                                  fate.get("keep")))

    # What goes.

    def deliver(self, way: Way, to: Link) -> str:
        """Hands over what is due. Says why the connection ends, where it does."""
        while way.queue and way.queue[0].at <= time.monotonic():
            item = way.queue[0]
            if item.end == "before":
                item.end = ""
                self.is_reset, self.refuse = item.is_reset, item.refuse
                return "line"
            item.begun = True
            try:
                to.write(item.pieces[0])
            except OSError:
                return "client" if way is self.down else "instrument"
            if not way.gone:
                way.of = item.of
            piece = item.pieces.popleft()
            way.gone += piece
            item.at = time.monotonic() + STEP
            if not item.pieces:
                way.queue.popleft()
            self.notes.went(way.name, len(piece), not item.pieces)
            if way.gone.endswith(b"\n"):
                self.notes.arrived(way.name, way.gone)
                self.crossed(way)
                way.gone = b""
            if item.end:
                self.is_reset, self.refuse = item.is_reset, item.refuse
                return "line"
        return ""

    def wake(self) -> float:
        """How long nothing is due, in seconds."""
        now = time.monotonic()
        soonest = min([way.queue[0].at for way in (self.up, self.down) if way.queue], default=now + 1)
        return max(0.0, min(max(soonest, self.still) - now, 1))

    # One connection.

    def carry(self, near: Link) -> str:
        """Carries between both ends. Says why the connection ends: it is the line's doing, the client's or the instrument's."""
        heard = time.monotonic()
        idle = self.text.whole.get("idle", 0)
        while True:
            if not self.far.link:
                return "instrument"
            if self.still <= time.monotonic():
                why = self.deliver(self.up, self.far.link) or self.deliver(self.down, near)
                if why:
                    return why
            if idle and time.monotonic() - heard > idle / 1000:
                self.counts["idle"] += 1
                return "line"
            for end in select.select([near, self.far.link], [], [], self.wake())[0]:
                # It may have restarted meanwhile.
                if end is not near and end is not self.far.link:
                    continue
                data = end.read()
                if not data:
                    return "client" if end is near else "instrument"
                heard = time.monotonic()
                self.hear(self.up if end is near else self.down, data)

    def finish(self, near: Link, why: str) -> None:
        """Ends the client's connection. What is in flight is lost, or kept."""
        if why != "client":
            for data in near.drained(self.is_reset):
                self.hear(self.up, data)
        near.close()
        for way, rest in ((self.up, self.up.rest), (self.down, self.down.gone)):
            if rest:
                (self.notes.raw if way is self.up else self.notes.arrived)(way.name, rest)
        self.notes.ended(b"closed" if why == "client" else b"ended")
        self.up.rest = self.down.gone = b""
        for way in (self.up, self.down):
            # After the front of a line nothing comes of what is kept.
            way.queue = collections.deque(item for item in way.queue if self.is_kept(item) and not way.gone)
            self.counts["keep"] += len(way.queue)

    @staticmethod
    def is_kept(item: Item) -> bool:
        """Whether it outlives the connection. It waits then."""
        item.at = math.inf
        return item.kept is not None and not (item.begun or item.end)

    # The instrument.

    def start_anew(self) -> None:
        """The instrument's connection ends and begins: what had gone of a line is forgotten. A device has no end."""
        if isinstance(self.far.where, str):
            return
        self.forget()
        try:
            self.far.restart()
            self.notes.far_opened()
        except OSError:
            self.far.shut()

    def forget(self) -> None:
        for way, rest in ((self.up, self.up.gone), (self.down, self.down.rest)):
            if rest:
                (self.notes.arrived if way is self.up else self.notes.raw)(way.name, rest)
        self.up.gone = self.down.rest = b""
        self.notes.far_ended(b"ended")

    def is_reached(self) -> bool:
        """Whether the instrument is there; that it isn't is reported once."""
        if self.far.link:
            return True
        try:
            self.far.open()
        except OSError as why:
            if not self.is_away:
                print(f"bad-line: the instrument: {why.strerror or why}", file=sys.stderr, flush=True)
            self.is_away = True
            return False
        self.is_away = False
        self.notes.far_opened()
        return True

    def lost(self) -> None:
        """The instrument's connection ended."""
        self.forget()
        self.far.shut()

    # All of them.

    def wait(self) -> Link:
        """The next client. Replies that come meanwhile are lost, or kept."""
        while self.near.listener:
            ends = [self.near.listener, *([self.far.link] if self.far.link else [])]
            ready = select.select(ends, [], [])[0]
            if self.near.listener in ready:
                break
            assert self.far.link
            if data := self.far.link.read():
                self.hear(self.down, data)
                self.down.queue = collections.deque(filter(self.is_kept, self.down.queue))
            else:
                self.lost()
        return self.near.accept()

    def one(self) -> None:
        """One connection, from its begin to its end."""
        near = self.wait()
        if not self.is_reached():
            near.close()
            time.sleep(0.2)
            return
        self.counts["connections"] += 1
        self.notes.opened()
        self.is_reset, self.refuse = False, 0
        self.begun()
        why = self.carry(near)
        if why == "instrument":
            self.lost()
        self.finish(near, why)
        if self.refuse:
            self.near.shut()
            time.sleep(self.refuse / 1000)
            self.near.open()

    def told(self) -> str:
        """What happened, how often."""
        words = ["connections", "up", "down", *WORDS]
        return " ".join(f"{word} {self.counts[word]}" for word in words if self.counts[word])
