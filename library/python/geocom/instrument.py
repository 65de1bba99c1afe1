"""An instrument within the process: that of a scene, for the tests of software that measures. It
needs no program, no port and no network.

>>> truck = geocom.Instrument("target 0.5 1.5 10\\nblocked 1 2 3\\n")
>>> truck.feed(b"%R1Q,9027,0:0.5,1.5,0,1,0\\r\\n%R1Q,17017,1:2\\r\\n")
b'%R1P,0,0:0\\r\\n%R1P,0,1:0,0.5,1.5,10.0,2\\r\\n'
"""

from __future__ import annotations

import ctypes
import threading
import time
from collections import deque
from collections.abc import Callable
from typing import TYPE_CHECKING, NamedTuple, Union

from . import _library
from .errors import BadScene, check

if TYPE_CHECKING:
    import asyncio

    from .aio.instrument import Connected

#: The scene of the simulator: three targets.
SIMULATOR = "target 0.5 1.5 25.125\ntarget 2.25 1.625 110.0625\ntarget 4.0 1.5 48.5\n"
# Where an instrument may lie: `malloc` gives no less.
_ALIGNMENT = 16


class Reply(NamedTuple):
    """A reply, and the moment at which it goes out, in milliseconds of the caller's count."""

    due: int
    data: bytes


class Instrument:
    """The instrument of a scene's text, which `docs/SIMULATOR.md` describes: `target`, `blocked`,
    `fault`, `delay` and the others, a line each. Without a text it is the simulator.

    Raises BadScene where the text is refused. No instrument is left then.

    It is asked in one of four ways: `feed` gives what it replies, at once; `replies_to` gives each
    reply with the moment at which it goes out; as a port (`write`, `read`, `timeout`, `close`) it
    stands where pyserial's would, as in `Station(Instrument(scene))`, and a reply with a `delay`
    comes so much later; `connect` is the same for asyncio, as in
    `aio.Station(Instrument(scene).connect)`. Threads may share it. `clock` gives seconds, and
    `timeout` is how long a `read` waits.
    """

    def __init__(
        self,
        scene: Union[str, bytes] = SIMULATOR,
        *,
        timeout: float = 1.0,
        clock: Callable[[], float] = time.monotonic,
    ):
        self.timeout: float = timeout
        self._clock = clock
        self._waiting: deque[Reply] = deque()
        self._came = threading.Condition()
        self._is_open = True
        self._lock = threading.Lock()
        library = _library.load()
        self._room = ctypes.create_string_buffer(library.geocom_instrument_size() + _ALIGNMENT)
        start = ctypes.addressof(self._room)
        self._at = start + -start % _ALIGNMENT
        text = scene.encode() if isinstance(scene, str) else scene
        made = library.geocom_instrument_init(self._at, text, len(text))
        if made.fault:
            raise BadScene(made.fault, made.line, text)

    def replies_to(self, data: bytes, now: int) -> list[Reply]:
        """Takes bytes that came at the moment `now`, in milliseconds of a count of yours that never
        runs backwards, in any pieces, and gives the replies to the lines that they end, in order.
        """
        replies, left = [], data
        with self._lock:
            while left:
                heard = _library.load().geocom_instrument_feed(self._at, left, len(left), now)
                check(heard.fault)
                left = left[heard.used :]
                if heard.count:
                    replies.append(Reply(heard.due, bytes(heard.reply[: heard.count])))
        return replies

    def feed(self, data: bytes) -> bytes:
        """Takes bytes, in any pieces, and gives what is replied to the lines that they end, at once
        and whatever delays the scene has.
        """
        return b"".join(reply.data for reply in self.replies_to(data, self._now()))

    def restart(self) -> None:
        """Restarts the instrument: half a line is dropped, and replies that haven't gone out. The
        scene goes on, with its counts, its targets and its noise.
        """
        with self._lock:
            check(_library.load().geocom_instrument_restart(self._at))
        self._waiting.clear()

    # As a port.

    def write(self, data: bytes) -> int:
        """Takes all of it, now. Raises OSError where the port is closed."""
        if not self._is_open:
            raise OSError("the port is closed")
        with self._came:
            self._waiting.extend(self.replies_to(data, self._now()))
            self._came.notify_all()
        return len(data)

    def read(self, size: int = 1) -> bytes:
        """What has gone out, at most so many bytes; nothing where nothing does within the timeout.
        Raises OSError where the port is closed.
        """
        end = self._clock() + self.timeout
        with self._came:
            while self._is_open:
                now = self._clock()
                due = self._waiting[0].due / 1000 if self._waiting else end
                if self._waiting and due <= now:
                    return self._taken(size)
                if now >= end:
                    return b""
                self._came.wait(max(0.0005, min(due, end) - now))
        raise OSError("the port is closed")

    def read_until(self, expected: bytes = b"\n") -> bytes:
        """What has gone out through the first line feed, or as far as it did within the timeout."""
        came = b""
        while not came.endswith(expected) and (more := self.read(1)):
            came += more
        return came

    @property
    def in_waiting(self) -> int:
        """How many bytes have gone out and aren't read."""
        now = self._now()
        return sum(len(reply.data) for reply in tuple(self._waiting) if reply.due <= now)

    def open(self) -> None:
        """Opens the port again: the instrument is restarted, as for each connection."""
        self.restart()
        self._is_open = True

    def close(self) -> None:
        """Closes the port. What hasn't been read is dropped."""
        with self._came:
            self._is_open = False
            self._waiting.clear()
            self._came.notify_all()

    def __enter__(self) -> Instrument:
        return self

    def __exit__(self, *_: object) -> None:
        self.close()

    # For asyncio.

    async def connect(self) -> tuple[asyncio.StreamReader, Connected]:
        """A connection to it, as `asyncio.open_connection` gives one. The instrument is restarted,
        as for each connection.
        """
        # Only here, so that `import geocom` doesn't import asyncio.
        from .aio.instrument import connected

        self.restart()
        return connected(self)

    def _now(self) -> int:
        return round(self._clock() * 1000)

    def _taken(self, size: int) -> bytes:
        """The front of the first reply, which has gone out."""
        first = self._waiting.popleft()
        if size < len(first.data):
            self._waiting.appendleft(first._replace(data=first.data[size:]))
        return first.data[:size]
