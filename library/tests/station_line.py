"""A line in memory with an instrument at its end, for `station_schedules.py`."""

import collections
import re

REQUEST = re.compile(rb"%R1Q,(\d+),([0-7]):(.*)")
RAW, ASKED = 2167, 2107
# What comes between replies: noise, half a line, and sign-ons, of which one is behind half a reply.
ODD = [b"noise\r\n", b"%R1P,0:0\r\n", b"%R1P,", b"\n", b"\xff\x00\r", b"%N1,0,255,,0%T0,0,0,:\r\n", b"%R1P,0,3%N1,0\r\n"]


class Line:
    """A line with an instrument at its end. Moments are seconds; what is under way arrives in order."""

    def __init__(self, chance):
        self.chance = chance
        self.quality = chance.choice([0.0, 0.01, 0.05, 0.2])
        self.way = chance.choice(["own", "over", "first"])
        self.slow = chance.choice([0.1, 1.0, 8.0])
        self.up, self.down, self.cut = collections.deque(), collections.deque(), b""
        self.half, self.kept, self.free = b"", None, 0.0
        self.executed, self.written = [], []

    def odd(self, share=1.0):
        return self.chance.random() < self.quality * share

    def open(self, now):
        if self.odd():
            raise OSError("refused")
        self.written.append("open")
        self.half = b""

    def write(self, data, now):
        """A line feed clears what came of a line before it; each line is under way for a while, lost, or repeated."""
        self.cut += data
        while b"\n" in self.cut:
            line, self.cut = self.cut.split(b"\n", 1)
            if (found := REQUEST.fullmatch(line[:-1])) and found[3]:
                self.written.append(int(found[3]))
            if line.endswith(b"\r") and not self.odd():
                self.pass_on(self.up, line[:-1], now)

    def pass_on(self, way, line, now):
        at = max(now + self.chance.choice([0.0, 0.01, 0.5, self.slow]), way[-1][0] if way else 0.0)
        for _ in range(2 if self.odd() else 1):
            way.append((at, line))

    def arrive(self, now):
        """What reached the instrument by now is answered; its replies are under way, or lost."""
        while self.up and self.up[0][0] <= now:
            at, line = self.up.popleft()
            if self.odd(0.3):
                self.kept = None
            self.free = max(self.free, at) + self.chance.choice([0.0, 0.1, self.slow])
            if (reply := self.reply(line)) and not self.odd():
                if self.odd(0.5):
                    self.pass_on(self.down, self.chance.choice(ODD), self.free)
                self.pass_on(self.down, reply + b"\r\n", self.free)

    def reply(self, line):
        found = REQUEST.fullmatch(line)
        if not found:
            return None
        procedure, id, params = int(found[1]), int(found[2]), found[3]
        is_raw = procedure == RAW
        if self.kept and self.kept[0] == id and not (self.way == "over" and is_raw):
            return self.kept[1]
        if procedure:
            self.executed.append(int(params))
        code = self.chance.choice([0, 0, 0, 0, 1285])
        told = {0: b"", RAW: b',"%d"' % int(params or 0)}.get(procedure, b",%d.0,0.5" % int(params or 0))
        reply = b"%%R1P,0,%d:%d" % (id, code if procedure else 0) + (b"" if code and procedure != ASKED else told)
        if not (is_raw and self.way != "own"):
            self.kept = (id, reply)
        return reply

    def next_at(self, now):
        """When something arrives next."""
        self.arrive(now)
        moments = [way[0][0] for way in (self.up, self.down) if way]
        return min(moments) if moments else None

    def take(self, now):
        """What has come by now, or a piece of it."""
        self.arrive(now)
        while self.down and self.down[0][0] <= now:
            self.half += self.down.popleft()[1]
            if self.chance.random() < 0.7:
                break
        count = self.chance.choice([len(self.half), len(self.half), 1, 5])
        data, self.half = self.half[:count], self.half[count:]
        return data
