"""A running bad line, and a client of a trial's own at its end."""

import re
import select
import time
from contextlib import contextmanager
from pathlib import Path

from programs import Run, connect, free_port, is_listening, until

BAD_LINE = Path(__file__).resolve().parents[2] / "bad-line"
REPLY = re.compile(rb"%R1P,\d+,(\d):")


@contextmanager
def lining(folder, text, far, *words, near=None):
    """Where a line with this text is, a port where nothing is said, and the running line. `far` is where the instrument is."""
    path = Path(folder, "bad.line")
    path.write_text(text, encoding="ascii")
    port = near or free_port()
    number = port if isinstance(port, int) else int(port.partition(":")[2] or 0)
    with Run([BAD_LINE, port, far, "--line", path, *words]) as run:
        until(lambda: is_listening(number) if number else Path(port).exists(), "the line isn't there", 10)
        yield port, run


class Caller:
    """A client with one connection."""

    def __init__(self, port):
        self.link, self.rest = connect(port), b""

    def __enter__(self):
        return self

    def __exit__(self, *_):
        self.link.close()

    def say(self, rpc, number, params=b""):
        self.link.sendall(b"%%R1Q,%d,%d:%s\r\n" % (rpc, number, params))

    def line(self, seconds=2.0):
        """The next line, with its end; nothing where none comes in this time, and None where the connection ended."""
        end = time.monotonic() + seconds
        while b"\n" not in self.rest:
            if not select.select([self.link], [], [], max(0, end - time.monotonic()))[0]:
                return b""
            try:
                data = self.link.recv(4096)
            except ConnectionResetError:
                data = b""
            if not data:
                return None
            self.rest += data
        line, _, self.rest = self.rest.partition(b"\n")
        return line + b"\n"

    def lines(self, seconds=0.3):
        """The lines that come until none comes for so long."""
        found = []
        while line := self.line(seconds):
            found.append(line)
        return found

    def is_over(self, seconds=2.0):
        """Whether the connection ends, and not a line comes before."""
        return self.line(seconds) is None


def settled(port, commands, deadline, width=1):
    """What a client with deadlines in seconds makes of these commands, as `geocom drill` writes it; at the end it waits for a second more.
    It settles by the rule of `docs/PROTOCOL.md`: a reply is of the oldest request with its id, and all before that are lost."""
    written, open_, sent = [], [], 0
    with Caller(port) as caller:
        over = None
        while over is None or time.monotonic() < over:
            waiting = [one for one in open_ if time.monotonic() < one[2]]
            while sent < len(commands) and len(waiting) < width and len(open_) < 7:
                caller.say(commands[sent][0], sent % 8, commands[sent][1])
                open_.append((sent, sent % 8, time.monotonic() + deadline))
                waiting.append(open_[-1])
                sent += 1
            if over is None and sent == len(commands) and not waiting:
                over = time.monotonic() + 1
            until_then = min([one[2] for one in waiting], default=time.monotonic() + 0.1)
            line = caller.line(max(0.001, until_then - time.monotonic()))
            found = REPLY.match(line or b"")
            match = next((n for n, one in enumerate(open_) if found and one[1] == int(found[1])), None)
            if match is None:
                continue
            written += [f"{place} 1 lost" for place, _, _ in open_[:match]]
            place, _, due = open_[match]
            written.append(f"{place} 1 late" if due < time.monotonic() else f"{place} 1 answered {line.decode().rstrip()}")
            del open_[: match + 1]
    return "".join(f"{line}\n" for line in written)
