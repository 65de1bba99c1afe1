"""A far end of a trial's own: it is in the place of the instrument, and answers each request as the trial has it."""

import re
import socket
import threading
import time
from contextlib import contextmanager
from dataclasses import dataclass

from programs import free_port

REQUEST = re.compile(rb"%R1Q,(\d+),(\d):([^\r\n]*)\r$")
# What a good instrument answers, after the colon.
GOOD = {0: b"0", 5003: b"0,123456", 5004: b'0,"GEOCOM SIM"', 2011: b"0,1.65", 2026: b"0,0", 2107: b"0,2.25,1.6",
        9027: b"0", 17017: b"0,2.25,1.625,110.0625,2"}
# What closes the connection in place of a reply.
CLOSES = None
# What is no reply: it is lost.
LOSES = b""


@dataclass
class Request:
    """A request that came: over which connection, counted from 1, and when, in seconds of both clocks."""

    rpc: int
    id: int
    params: bytes
    connection: int
    moment: float
    utc: float

    def reply(self, behind):
        """The line of its reply, with this after the colon."""
        return b"%%R1P,0,%d:%s\r\n" % (self.id, behind)


def good(request):
    """Each request is answered well."""
    return request.reply(GOOD[request.rpc])


def loses(_):
    """No request is answered."""
    return LOSES


def closes(_):
    """Each request ends its connection."""
    return CLOSES


class FarEnd:
    """A far end that listens on a port of an address. `answers` gives of each request the bytes of its reply, `LOSES` or `CLOSES`.
    `says` gives of each connection what comes on it unasked: pairs of the seconds after its begin, and of bytes."""

    def __init__(self, answers, says, address="127.0.0.1"):
        self.answers, self.says, self.address = answers, says, address
        self.port = free_port()
        self.requests = []
        # What came and went, for each connection.
        self.came, self.went = [], []
        self.near = self.listener = self.thread = None
        self.writing = threading.Lock()
        self.plug()

    def plug(self):
        """Begins to listen."""
        family = socket.AF_INET6 if ":" in self.address else socket.AF_INET
        self.listener = socket.create_server((self.address, self.port), family=family)
        self.thread = threading.Thread(target=self.serve, args=[self.listener], daemon=True)
        self.thread.start()

    def pull(self):
        """Ends the connection, and lets none be made."""
        for one in [self.listener, self.near]:
            try:
                if one:
                    one.shutdown(socket.SHUT_RDWR)
            except OSError:
                pass
        self.listener.close()
        if self.thread is not threading.current_thread():
            self.thread.join()

    def serve(self, listener):
        """Serves one connection after the other, as a line has one."""
        while True:
            try:
                near, _ = listener.accept()
            except OSError:
                return
            with near:
                near.setsockopt(socket.IPPROTO_TCP, socket.TCP_NODELAY, 1)
                self.near = near
                self.came.append(b"")
                self.went.append(b"")
                connection = len(self.came)
                for wait, data in self.says(connection):
                    threading.Timer(wait, self.say, [near, connection, data]).start()
                try:
                    self.carry(near, connection)
                except OSError:
                    pass
                self.near = None

    def say(self, near, connection, data):
        with self.writing:
            try:
                near.sendall(data)
                self.went[connection - 1] += data
            except OSError:
                pass

    def carry(self, near, connection):
        """Answers what comes on a connection, until it ends or is closed."""
        rest = b""
        while data := near.recv(4096):
            self.came[-1] += data
            *lines, rest = (rest + data).split(b"\n")
            for found in filter(None, map(REQUEST.match, lines)):
                request = Request(int(found[1]), int(found[2]), found[3], connection, time.monotonic(), time.time())
                self.requests.append(request)
                data = self.answers(request)
                if data is CLOSES:
                    return
                if data:
                    self.say(near, connection, data)

    def commands(self):
        """The requests that came, in order, without the station's own null procedures."""
        return [request for request in self.requests if request.rpc]

    def asked(self):
        """The procedures that they asked for."""
        return [request.rpc for request in self.commands()]


@contextmanager
def standing(answers=good, says=lambda _: [], address="127.0.0.1"):
    """A far end; it is gone in the end."""
    far = FarEnd(answers, says, address)
    try:
        yield far
    finally:
        far.pull()
