"""Devices whose lines have both ends on this machine: the program opens a pseudo terminal by its path, and a trial has its far end."""

import os
import select
import threading
import time
import tty
from contextlib import contextmanager

from far_end import CLOSES, REQUEST, Request, good


class Terminal:
    """A pseudo terminal in raw mode, open at its near end, so that it keeps what it is set to. `answers` gives of each request the
    bytes of its reply, `LOSES` or `CLOSES`; where there is none nobody reads at its far end."""

    def __init__(self, answers=good):
        self.answers, self.requests, self.came, self.rest = answers, [], b"", b""
        self.far, self.near = os.openpty()
        tty.setraw(self.near)
        self.path = os.ttyname(self.near)
        self.gone = False
        self.thread = None
        if answers:
            self.thread = threading.Thread(target=self.serve, daemon=True)
            self.thread.start()

    def serve(self):
        while not self.gone:
            if select.select([self.far], [], [], 0.02)[0]:
                self.hear(os.read(self.far, 4096))

    def hear(self, data):
        self.came += data
        *lines, self.rest = (self.rest + data).split(b"\n")
        for found in filter(None, map(REQUEST.match, lines)):
            request = Request(int(found[1]), int(found[2]), found[3], 1, time.monotonic(), time.time())
            self.requests.append(request)
            reply = self.answers(request)
            if reply is CLOSES:
                return self.pull()
            os.write(self.far, reply)

    def pull(self):
        """The line goes away, and the device with it."""
        if self.gone:
            return
        self.gone = True
        if self.thread and self.thread is not threading.current_thread():
            self.thread.join()
        os.close(self.far)
        os.close(self.near)


@contextmanager
def terminal(answers=good):
    """A pseudo terminal; it is gone in the end."""
    line = Terminal(answers)
    try:
        yield line
    finally:
        line.pull()


@contextmanager
def joined():
    """Two devices at one line: what goes into the one comes out of the other."""
    with terminal(None) as one, terminal(None) as other:
        ends = {one.far: other.far, other.far: one.far}
        over = threading.Event()
        thread = threading.Thread(target=carry, args=[ends, over], daemon=True)
        thread.start()
        try:
            yield one, other
        finally:
            over.set()
            thread.join()


def carry(ends, over):
    """Carries between two far ends, until that is over."""
    while not over.is_set():
        for end in select.select(list(ends), [], [], 0.02)[0]:
            os.write(ends[end], os.read(end, 4096))


def lead(link, path):
    """The link leads to this path from now on."""
    os.symlink(path, f"{link}.new")
    os.replace(f"{link}.new", link)
