"""Distances to prisms, over GeoCOM: a small client. Put yours in its place."""

import re
import socket
import time

REPLY = re.compile(rb"%R1P,(\d+),(\d):(\d+),?([^\r]*)\r$")


class Monitor:
    """A connection to an instrument. Each request has another id than the seven before it."""

    def __init__(self, port, patience):
        self.link, self.patience = socket.create_connection(("127.0.0.1", port)), patience
        self.number, self.rest = 7, b""

    def reply(self, end):
        """The next reply, or None if none comes until then."""
        while b"\n" not in self.rest:
            self.link.settimeout(max(0.001, end - time.monotonic()))
            try:
                self.rest += self.link.recv(4096)
            except TimeoutError:
                return None
        line, _, self.rest = self.rest.partition(b"\n")
        return REPLY.match(line) or self.reply(end)

    def ask(self, procedure, params):
        """The return code and the values of a procedure; None if no reply came in time."""
        self.number = (self.number + 1) % 8
        self.link.sendall(f"%R1Q,{procedure},{self.number}:{params}\r\n".encode())
        end = time.monotonic() + self.patience
        while found := self.reply(end):
            if int(found[2]) == self.number:
                return int(found[3]), found[4].decode().split(",")
        return None

    def distance(self, hz, v):
        """The slope distance of the prism there, in metres, or why there is none."""
        for procedure, params in (9027, f"{hz},{v},0,1,0"), (17017, "2"):
            answer = self.ask(procedure, params)
            if not answer or answer[0]:
                return f"return code {answer[0]}" if answer else "no reply in time"
        return float(answer[1][2])
