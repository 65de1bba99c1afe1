"""An operator who teaches prisms at a terminal, and a line to a simulated instrument, whose telescope a hand can turn."""

import os
import re
import select
import subprocess
import threading
import time
import tty
from contextlib import contextmanager
from decimal import Decimal
from pathlib import Path

from programs import connect, ended, simulator
from terminals import lead

TEACH = Path(__file__).resolve().parents[2] / "teach"
# Five prisms, one at the zero of the circle: direction, vertical angle, slope distance.
PRISMS = {
    "pier 4": (2.25, 1.625, 110.0625), "rock": (0.5, 1.5, 25.125), "dam crest": (4.0, 1.5, 48.5), "zero": (0.0, 1.57, 80.25),
    "high": (5.5, 1.25, 33.75)}
SCENE = "".join(f"target {hz} {v} {distance}\n" for hz, v, distance in PRISMS.values()) + "behave real\n"
NOISE = "noise 0.00001 0.00001 0.0005 7\n"
REQUEST = re.compile(rb"%R1Q,(\d+)")
MEASURED = re.compile(rb"(%R1P,0,\d:0,)([\d.-]+)(,[\d.-]+,[\d.]+,2\r\n)")


class Line:
    """A device whose line leads to a simulator over one connection: what closes the device doesn't restart the instrument. At the request
    of a procedure that is named by `pulls_at` the device goes away. Each second measurement reads `scatters` radians too much in Hz."""

    def __init__(self, path, port):
        self.path, self.port = path, connect(port)
        self.far = self.near = self.pulls_at = None
        self.scatters, self.measurements = 0, 0
        self.reply, self.turned, self.over = b"", None, threading.Event()
        self.plug()
        self.thread = threading.Thread(target=self.carry, daemon=True)
        self.thread.start()

    def plug(self):
        """The device is there, at its path."""
        far, self.near = os.openpty()
        tty.setraw(self.near)
        lead(self.path, os.ttyname(self.near))
        self.far = far

    def pull(self):
        """It goes away."""
        far, self.far = self.far, None
        os.close(self.near)
        os.close(far)

    def carry(self):
        while not self.over.is_set():
            far = self.far
            for end in select.select([self.port, *([far] if far is not None else [])], [], [], 0.02)[0]:
                if end is self.port:
                    self.hear(self.port.recv(4096))
                elif self.far is not None:
                    self.say(os.read(self.far, 4096))

    def say(self, data):
        """A request goes to the instrument."""
        if self.pulls_at and str(self.pulls_at).encode() in REQUEST.findall(data):
            self.pulls_at = None
            self.pull()
        else:
            self.port.sendall(data)

    def hear(self, data):
        """A reply comes: to the device, or to the hand."""
        if self.turned:
            self.reply += data
            if self.reply.endswith(b"\n"):
                self.turned.set()
        elif self.far is not None:
            os.write(self.far, MEASURED.sub(self.scattered, data))

    def scattered(self, reply):
        self.measurements += 1
        hz = Decimal(reply[2].decode()) + Decimal(self.scatters) * (self.measurements % 2)
        return reply[1] + str(hz).encode() + reply[3]

    def turn(self, hz, v):
        """A hand turns the telescope."""
        self.reply, self.turned = b"", threading.Event()
        self.port.sendall(f"%R1Q,9027:{hz},{v},0,0,0\r\n".encode())
        assert self.turned.wait(5), "the telescope doesn't turn"
        self.turned = None
        assert self.reply == b"%R1P,0,0:0\r\n", self.reply

    def close(self):
        self.over.set()
        self.thread.join()
        self.port.close()
        if self.far is not None:
            self.pull()


@contextmanager
def line_of(program, folder, scene):
    """A line to a simulator with this scene."""
    (folder / "site.scene").write_text(scene, encoding="ascii")
    with simulator(program, "--keep", "--idle", "600", "--scene", folder / "site.scene") as port:
        line = Line(folder / "totalstation", port)
        try:
            yield line
        finally:
            line.close()


class Desk:
    """A terminal at which an operator teaches: what stands on it, and what is typed."""

    def __init__(self, program, where, text, *words):
        self.end, near = os.openpty()
        self.came, self.seen = "", 0
        # (a trial that runs in the background has Ctrl-C ignored, and an operator's shell hasn't)
        self.process = subprocess.Popen(
            ["env", "--default-signal=INT", "setsid", "--ctty", TEACH, where, text, "--geocom", program, *words], stdin=near, stdout=near, stderr=near)
        os.close(near)

    def __enter__(self):
        return self

    def __exit__(self, *_):
        self.process.kill()
        self.process.wait()
        os.close(self.end)

    def more(self, seconds):
        """Takes what is written; whether anything was, and the terminal is still there."""
        if not select.select([self.end], [], [], seconds)[0]:
            return False
        try:
            data = os.read(self.end, 4096)
        except OSError:
            return False
        self.came += data.decode().replace("\r\n", "\n")
        return bool(data)

    def sees(self, *texts, patience=20):
        """Waits until one of these texts is there, after what was seen before, and gives what is there up to it."""
        end = time.monotonic() + patience
        while not (places := [(self.came.index(text, self.seen), text) for text in texts if text in self.came[self.seen:]]):
            assert time.monotonic() < end, f"none of {texts} after {self.came[self.seen:]!r}"
            assert self.more(0.1) or self.process.poll() is None, f"it ended: {self.came!r}"
        place, text = min(places)
        begin, self.seen = self.seen, place + len(text)
        return self.came[begin:self.seen]

    def types(self, text):
        os.write(self.end, f"{text}\n".encode())

    def names(self, name):
        """Gives a name, and is asked to aim."""
        self.sees("(Enter: end): ")
        self.types(name)
        self.sees("> ")

    def says(self, text=""):
        """Says that it was aimed, or where to turn, and gives what came of it: the prism is in the text, or why not."""
        self.types(text)
        return self.sees(" is in the text: ", "Refused: ", patience=40) + self.sees("\n")

    def ends(self, patience=20):
        """Its status, and what was written to the end."""
        end = time.monotonic() + patience
        while self.process.poll() is None:
            assert time.monotonic() < end, f"it doesn't end: {self.came!r}"
            self.more(0.05)
        while self.more(0):
            pass
        return self.process.returncode, self.came[self.seen:]


def taught(program, where, text, given, *words, **options):
    """How it ended, with these lines as its input."""
    return ended([TEACH, where, text, "--geocom", program, *words], "".join(f"{line}\n" for line in given).encode(), patience=60, **options)


def expect_text(program, path, names):
    """The text has these names, in order from the target 1 on, and nothing is found wrong with it. Its lines."""
    status, output, messages = ended([program, "station", 4001, "--check"], path.read_bytes())
    assert (status, messages) == (0, ""), path.read_text(encoding="ascii")
    lines = path.read_text(encoding="ascii").splitlines()
    assert [line for line in lines if line.startswith("name ")] == [f"name {target} {name}" for target, name in enumerate(names, 1)]
    assert output.count(b"  target ") == len(names)
    return lines
