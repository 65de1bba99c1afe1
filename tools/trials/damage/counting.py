"""An instrument that counts: it answers each request for 5003 with the number of its execution, so each value says what it was made on.

Requests that it got at once it answers together, so that a station has as many in flight as its width allows. With a store it keeps the reply
to the last request that it executed, and a request with that id gets the stored reply, as at `geocom serve`; without one it acts again.
"""

import re
import socket
import threading
from dataclasses import dataclass

REQUEST = re.compile(rb"%R1Q,(\d+),(\d):([^\r\n]*)\r$")
NUMBER = "5003"
# A procedure that it doesn't know.
UNKNOWN = b"2"
# After so many seconds without a request it answers those that wait, where nothing else is said.
PAUSE = 0.03


@dataclass
class Heard:
    """A request that it heard, and which one, counted from 0, its reply was made on: an earlier one where it got the stored reply."""

    rpc: str
    made: int


class Counting:
    """It listens at a port, for one client after the other. `heard` has the requests in order, each of which has one reply. `changed` may
    put another reply in the place of one; it is given how many requests wait besides."""

    def __init__(self, width, has_store=False, changed=lambda reply, others: reply, pause=PAUSE):
        self.width, self.has_store, self.changed, self.pause = width, has_store, changed, pause
        self.listener = socket.create_server(("127.0.0.1", 0))
        self.port = self.listener.getsockname()[1]
        self.heard, self.executions, self.kept = [], 0, (b"", 0, b"")
        threading.Thread(target=self.run, daemon=True).start()

    def run(self):
        while True:
            try:
                near, _ = self.listener.accept()
            except OSError:
                return
            with near:
                near.setsockopt(socket.IPPROTO_TCP, socket.TCP_NODELAY, 1)
                near.settimeout(self.pause)
                try:
                    self.serve(near)
                except OSError:
                    pass

    def serve(self, near):
        """Serves a connection to its end."""
        rest, waiting = b"", []
        while True:
            try:
                data = near.recv(4096)
                if not data:
                    return
            except TimeoutError:
                data = b""
            *lines, rest = (rest + data).split(b"\n")
            waiting += [self.reply(found) for found in map(REQUEST.match, lines) if found]
            # Null procedures come one at a time.
            while waiting and (len(waiting) >= self.width or not data or self.heard[-len(waiting)].rpc == "0"):
                near.sendall(self.changed(waiting.pop(0), len(waiting)))

    def reply(self, found):
        rpc, number = found[1].decode(), found[2]
        if not self.has_store or self.kept[0] != number:
            self.executions += 1
            self.kept = number, len(self.heard), b"%%R1P,0,%s:%s\r\n" % (number, self.executed(rpc, found[3]))
        self.heard.append(Heard(rpc, self.kept[1]))
        return self.kept[2]

    def executed(self, rpc, parameters):
        """It executes a request: the return code and the values of its reply."""
        del parameters
        return b"0,%d" % self.executions if rpc == NUMBER else b"0" if rpc == "0" else UNKNOWN

    def close(self):
        self.listener.close()
