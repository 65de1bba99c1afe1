"""A line that outlives runs of a station, with an instrument at its end: it keeps order, over connections and runs too, and loses whole
requests and replies, repeats them directly after themselves, holds them back, within a run and over runs, and closes connections.

Each execution answers with a number of its own, and each command has its place as its first parameter: `made` says of which run and
place each number is. A null procedure has no place. The instrument keeps its last reply, on some lines none, and restarts now and then.
"""

import collections
import re
import select
import socket
import time

WORD = [6, 5, 4, 3, 2, 1, 0, 7]
REQUEST = re.compile(rb"%R1Q,\d+,(\d):(\d*)")

# A request, or a reply with its number: of which run, with which id, and of which place.
Sent = collections.namedtuple("Sent", "run id place number", defaults=[None])


class Way:
    """One direction: what is in flight, when the next goes at the earliest, and after how many requests of a run it goes, is held, and
    goes again."""

    def __init__(self):
        self.sent = collections.deque()
        self.ready, self.opens, self.stops, self.resumes = 0.0, 0, 0, 0


class Line:
    def __init__(self, random):
        self.random = random
        self.listener = socket.create_server(("127.0.0.1", 0))
        self.near, self.up, self.down = None, Way(), Way()
        self.keeps, self.kept = self.chance(0.7), None
        self.made, self.executed = {}, set()
        self.run = self.closed = 0

    def chance(self, of):
        return self.random.random() < of

    def begin(self, old_alone):
        """A run begins. Where it is to hear old replies alone, those to its own requests wait until the next one."""
        draw = self.random
        self.run += 1
        self.old_alone = old_alone
        # How many requests came, the last one, whether a command came, and how often the run began again.
        self.asked, self.last, self.begun, self.anew, self.rest = 0, None, False, 0, b""
        # Whether the word was in flight at the first connection (none: there was none yet), and where the run began again.
        self.first_met, self.met, self.met_anew = None, False, False
        self.spacing = draw.uniform(0.008, 0.012) if old_alone else draw.choice([0, 0, 0, 0.002, 0.01, 0.02])
        self.lost, self.repeated = (0, 0.2) if old_alone else (draw.choice([0, 0, 0.02, 0.3]), draw.choice([0, 0.1, 0.4]))
        for way in (self.up, self.down):
            way.opens = draw.randrange(1, 4) if not old_alone and self.chance(0.5) else 0
            way.stops = way.opens + draw.randrange(1, 60) if not old_alone and self.chance(0.6) else 1e9
            way.resumes = way.stops + draw.randrange(1, 12) if self.chance(0.5) else 1e9

    def ids(self):
        """The ids in flight, replies in order and then requests."""
        return [one.id for one in [*self.down.sent, *self.up.sent]]

    def has_word(self):
        rest = iter(self.ids())
        return all(one in rest for one in WORD)

    def has_old(self):
        """Whether a reply from before this run is in flight."""
        return any(one.run < self.run for one in self.down.sent)

    # What is put on it, and what goes.

    def put(self, way, one):
        if not self.chance(self.lost):
            way.sent.extend([one, one] if self.chance(self.repeated) else [one])

    def may_go(self, way):
        """Whether the first one of a way may go over, once it is ready."""
        if not way.sent or way is self.down and not self.near:
            return False
        if self.old_alone:
            return way is self.up or way.sent[0].run < self.run
        return way.opens <= self.asked < way.stops or way.resumes <= self.asked

    def execute(self, request):
        """A request reaches the instrument, which sends its kept reply again where that has the request's id."""
        if self.chance(0.01):
            self.kept = None
        if not self.kept or self.kept.id != request.id:
            number = len(self.made) + 1
            self.made[number] = (request.run, request.place)
            self.executed.add((request.run, request.place))
            self.kept = request._replace(number=number)
        self.put(self.down, self.kept._replace(run=request.run))
        if not self.keeps:
            self.kept = None

    def hand_over(self, reply):
        try:
            self.near.sendall(b"%%R1P,0,%d:0,0.5,1.5,%d.0\r\n" % (reply.id, reply.number))
        except OSError:
            pass

    def hear(self, data):
        """What came from the station."""
        *lines, self.rest = (self.rest + data).split(b"\n")
        for found in filter(None, map(REQUEST.match, lines)):
            one, place = int(found[1]), int(found[2]) if found[2] else None
            # It starts afresh by a null procedure with id 6 and then one with id 5. After commands that had timed out comes id 7.
            if (place, one) == (None, 6) != self.last:
                self.met = self.has_word()
            if (place, one) == (None, 5) and self.last == (None, 6) and self.begun:
                self.anew += 1
                self.met_anew = self.met_anew or self.met
            self.begun = self.begun or place is not None
            self.last = (place, one)
            self.asked += 1
            self.put(self.up, Sent(self.run, one, place))

    # Connections.

    def connect(self):
        self.near, _ = self.listener.accept()
        self.near.setsockopt(socket.IPPROTO_TCP, socket.TCP_NODELAY, 1)
        self.rest = b""
        if self.first_met is None:
            self.first_met = self.has_word()

    def listen(self):
        """Reads once. Where the connection ended it is gone."""
        try:
            data = self.near.recv(65536)
        except OSError:
            data = b""
        if data:
            self.hear(data)
        else:
            self.near.close()
            self.near = None

    def close(self):
        """Ends the connection. What the station sent before is read."""
        try:
            self.near.shutdown(socket.SHUT_WR)
        except OSError:
            pass
        self.near.settimeout(2)
        while self.near:
            self.listen()

    def turn(self, until):
        """Hands over what is due, and waits for what comes, no longer than until then."""
        now = time.monotonic()
        for way, to in (self.up, self.execute), (self.down, self.hand_over):
            while way.ready <= now and self.may_go(way):
                to(way.sent.popleft())
                way.ready = now + self.random.uniform(0.5, 1) * self.spacing
        soonest = min([way.ready for way in (self.up, self.down) if self.may_go(way)], default=until)
        if not select.select([self.near or self.listener], [], [], max(0.0, min(soonest, until, now + 0.02) - now))[0]:
            return
        if not self.near:
            return self.connect()
        self.listen()
        if self.near and not self.old_alone and self.chance(0.002):
            self.closed += 1
            self.close()

    def end(self):
        """The run has ended: what it had sent is in flight still."""
        while self.near or select.select([self.listener], [], [], 0)[0]:
            if not self.near:
                self.connect()
            self.close()
