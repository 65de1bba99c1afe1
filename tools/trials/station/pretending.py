"""Stations that begin in right and wrong ways: a judge that finds nothing in real ones has to find something here.

    pretending.py KIND station PORT --deadline MS .. < COMMANDS

They ask one command after the other and write rows of `geocom station --csv` with the columns that are judged. KIND is how they begin:

    word      as a station does: by null procedures with ids 6 5 4 3 2 1 0 7, each of which is repeated with its id
    nothing   with the first command
    any       the same word, and any reply answers a null procedure
    fresh     the same word, and a null procedure that is repeated takes the next id upward
    zero      7 6 5 4 3 2 1 0, whose last id is that of the first command
"""

import re
import socket
import sys
import time

WORDS = {"nothing": [], "zero": [7, 6, 5, 4, 3, 2, 1, 0]}
REPLY = re.compile(rb"%R1P,0,(\d):0,?(.*)\r$")


class Station:
    def __init__(self, kind, port, deadline):
        self.kind, self.port, self.deadline = kind, port, deadline
        self.link, self.rest, self.replies = None, b"", []

    def connect(self):
        while True:
            try:
                self.link = socket.create_connection(("127.0.0.1", self.port))
                self.link.sendall(b"\n")
                self.rest, self.replies = b"", []
                return
            except OSError:
                time.sleep(0.03)

    def send(self, request):
        """Sends a request, if there is a connection still."""
        try:
            self.link.sendall(request)
        except OSError:
            self.connect()

    def reply(self, until):
        """The next reply before a moment: its id and its values; none where none came."""
        while not self.replies:
            self.link.settimeout(max(0.001, until - time.monotonic()))
            try:
                data = self.link.recv(4096)
            except TimeoutError:
                return None
            except OSError:
                data = b""
            if not data:
                self.connect()
                continue
            *lines, self.rest = (self.rest + data).split(b"\n")
            self.replies += [(int(found[1]), found[2].decode()) for found in map(REPLY.match, lines) if found]
        return self.replies.pop(0)

    def answer(self, request, taken, again):
        """Sends a request, by its id, and again at each deadline where it is to; the values of a reply with an id that is taken."""
        while True:
            self.send(request())
            until = time.monotonic() + self.deadline
            while (reply := self.reply(until)) is not None:
                if taken(reply[0]):
                    return reply[1]
            if not again:
                return None

    def begin(self):
        for one in WORDS.get(self.kind, [6, 5, 4, 3, 2, 1, 0, 7]):
            ids = [one]

            def request():
                if self.kind == "fresh":
                    ids[0] = (ids[0] + 1) % 8
                return b"%%R1Q,0,%d:\r\n" % ids[0]

            ids[0] -= self.kind == "fresh"
            self.answer(request, lambda came: self.kind == "any" or came == ids[0], True)

    def measure(self, commands):
        """Asks each, and writes its row. Seven that have timed out in a row are followed by a beginning."""
        print("step,outcome,values", flush=True)
        given_up, one = 0, 0
        for place, (_, procedure, values) in enumerate(commands):
            line = f"%R1Q,{procedure},{one}:{values}\r\n".encode()
            got = self.answer(lambda: line, lambda came: came == one, False)
            print(f'{place},lost,' if got is None else f'{place},answered,"{got}"', flush=True)
            given_up, one = given_up + 1 if got is None else 0, (one + 1) % 8
            if given_up == 7:
                self.begin()
                given_up, one = 0, 0


def main():
    kind, _, port, *words = sys.argv[1:]
    station = Station(kind, int(port), int(words[words.index("--deadline") + 1]) / 1000)
    station.connect()
    station.begin()
    station.measure([line.split() for line in sys.stdin])


if __name__ == "__main__":
    main()
