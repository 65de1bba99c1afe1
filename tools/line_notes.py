"""What a bad line writes: logs of both its ends, in the form of `geocom station --log`; what it decided, as a text that has it happen
again; and a schedule that `geocom drill` plays again, as far as the run has that form."""

import re
import time
from collections.abc import Callable
from datetime import datetime, timezone
from pathlib import Path
from typing import BinaryIO

from line_alter import Change, altered
from line_text import BEYOND, Fate, lines_of

LONGEST = 512
REQUEST = re.compile(rb"%R1Q,([0-9]{1,5}),([0-7]):([ -~]*)\r\n")
# The latest moment that a schedule has, and how many bytes it has at most; its last line has room, too.
NEVER = 2**64 - 1
MOST_BYTES = 65_536
LAST = 120


def shown(data: bytes) -> bytes:
    """Bytes as a log has them."""
    return b"".join(bytes([one]) if 32 <= one < 127 and one != 92 else b"\\x%02x" % one for one in data)


class Log:
    """A log: what went to the instrument's side is `>`, and what came from there is `<`."""

    def __init__(self, path: str) -> None:
        self.file: BinaryIO = open(path, "ab", buffering=0)

    def entry(self, mark: str, data: bytes) -> None:
        """An entry: a line without its end where it is whole, or other bytes."""
        if mark != "-" and data.endswith(b"\r\n") and len(data) <= LONGEST + 2 and data.count(b"\n") == 1:
            data = data[:-2]
        elif mark != "-":
            mark += "|"
        moment = datetime.now(timezone.utc).strftime("%Y-%m-%dT%H:%M:%S.%f")[:-3]
        self.file.write(b"%sZ %s %s\n" % (moment.encode("ascii"), mark.encode("ascii"), shown(data)))


class Drill:
    """The schedule of a run. It ends with a line that says why where the run loses the form."""

    def __init__(self, path: str, deadline: int | None, clock: Callable[[], float] = time.monotonic) -> None:
        self.file: BinaryIO = open(path, "wb", buffering=0)
        self.deadline, self.clock = deadline, clock
        self.began = clock()
        self.sent, self.connections, self.size, self.is_over = 0, 0, 0, False
        # The deadlines that aren't past.
        self.due: list[int] = []

    def event(self, *words: object) -> None:
        line = b" ".join(word if isinstance(word, bytes) else str(word).encode("ascii") for word in words) + b"\n"
        if self.size + len(line) > MOST_BYTES - LAST:
            self.stop(f"a schedule has {MOST_BYTES} bytes at most")
        if not self.is_over:
            self.file.write(line)
            self.size += len(line)

    def stop(self, why: str) -> None:
        if not self.is_over:
            self.file.write(f"# From here on the run isn't played: {why}.\n".encode("ascii"))
            self.is_over = True

    def moment(self) -> int:
        """The moment, in milliseconds; requests whose deadlines are past time out first."""
        now = round(1000 * (self.clock() - self.began))
        if past := [one for one in self.due if one <= now]:
            self.due = self.due[len(past) :]
            self.event("expire", past[-1])
        return now

    def opened(self) -> None:
        self.connections += 1
        if self.connections > 1:
            self.stop("a second connection was made")

    def came(self, way: str, line: bytes, fate: Fate, index: int) -> None:
        """A line came, after so many that are in flight."""
        now = self.moment()
        if way == "up":
            found = REQUEST.fullmatch(line)
            if not found or int(found[2]) != self.sent % 8:
                self.stop(f"line {self.sent + 1} is no request with the id {self.sent % 8}")
                return
            self.sent += 1
            due = NEVER if self.deadline is None else now + self.deadline
            self.due += [due] * (due != NEVER)
            self.event("send", 1, due, found[1], *[found[3]] * bool(found[3]))
        if beyond := [word for word in fate if word in BEYOND]:
            self.stop(f"{way} {beyond[0]}")
        elif "lose" in fate:
            self.event(way, "lose", index)
        elif "repeat" in fate:
            self.event(way, "repeat", index)

    def went(self, way: str, length: int, is_whole: bool) -> None:
        """A piece of the first line went."""
        self.moment()
        if is_whole:
            self.event(way, "deliver")
        else:
            self.event(way, "bytes", length)


class Notes:
    """All that is written of a run."""

    def __init__(self, log: str | None = None, far_log: str | None = None, decided: str | None = None, drill: str | None = None,
                 deadline: int | None = None) -> None:
        self.log = Log(log) if log else None
        self.far_log = Log(far_log) if far_log else None
        self.decided: BinaryIO | None = Path(decided).open("wb", buffering=0) if decided else None
        self.drill = Drill(drill, deadline) if drill else None

    def opened(self) -> None:
        """A client came."""
        if self.log:
            self.log.entry("-", b"open")
        if self.drill:
            self.drill.opened()

    def ended(self, why: bytes) -> None:
        """Its connection is over, as the client sees it."""
        if self.log:
            self.log.entry("-", why)

    def far_opened(self) -> None:
        if self.far_log:
            self.far_log.entry("-", b"open")

    def far_ended(self, why: bytes) -> None:
        if self.far_log:
            self.far_log.entry("-", why)

    def raw(self, way: str, data: bytes) -> None:
        """A line came, of whatever form, or the front of one with which a connection ended."""
        if self.log and way == "up":
            self.log.entry(">", data)
        if self.far_log and way == "down":
            self.far_log.entry("<", data)

    def arrived(self, way: str, data: bytes) -> None:
        """The same, where it went over."""
        if self.log and way == "down":
            self.log.entry("<", data)
        if self.far_log and way == "up":
            self.far_log.entry(">", data)

    def came(self, way: str, number: int, line: bytes, fate: Fate, changes: list[Change], index: int) -> None:
        """A counted line came, and what happens to it was decided."""
        if self.decided:
            behind = f"  # {shown(line).decode('ascii')} -> {shown(altered(line, changes)).decode('ascii')}"
            self.decided.write(lines_of(way, number, fate, changes, behind).encode("ascii"))
        if self.drill:
            self.drill.came(way, line, fate, index)

    def other(self, way: str) -> None:
        """A line came that isn't counted."""
        if self.drill:
            self.drill.stop(f"what came {way} is no line")

    def went(self, way: str, length: int, is_whole: bool) -> None:
        if self.drill:
            self.drill.went(way, length, is_whole)
