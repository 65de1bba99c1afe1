"""The session of `geocom.h`: all that is between a request and its end, over any number of
connections. It opens no port and reads no clock: it says what its caller does next, and is told
what came of it. All rules of a connection are its own.

`next` says what to do:

- OPEN: make a connection; then `opened`, or `closed` if none could be made.
- WAIT: there is no connection, and none is made before `until`; then `next` again.
- WRITE: write `line`, once, whole, in order.
- SEND: nothing hinders a request: write the line of `ask`, if one is to be sent.
- READ: read until `until` at most; then `feed` with what came, or `next` again if nothing did.
- CLOSE: the line is dead: close the connection.

Wherever a connection ends, fails or is closed: `closed`. All moments are milliseconds of one clock
that never runs backwards.
"""

from __future__ import annotations

import ctypes
import enum
import functools
from typing import NamedTuple

from ._library import LINE_ROOM, TEXT_ROOM, WINDOW, _Session, _Settlement, load
from .client import settlements, within
from .errors import NotItsTurn, check
from .settlement import Settlement

# A moment that is no limit.
NEVER = (1 << 64) - 1
_PAUSING = 1


class Want(enum.IntEnum):
    """What the caller wants: nothing; the ends of what is outstanding; that a request is sent."""

    NOTHING = 0
    ANSWERS = 1
    SEND = 2


class Act(enum.IntEnum):
    """What the caller does next."""

    OPEN = 1
    WAIT = 2
    WRITE = 3
    SEND = 4
    READ = 5
    CLOSE = 6


_ACTS = {int(act): act for act in Act}


class Step(NamedTuple):
    """What the caller does next, and what was lost, as the session resynchronizes."""

    act: Act
    until: int
    line: bytes
    lost: list[Settlement]


class Session:
    """A session, in which up to `width` requests are in flight at a time. One thread at a time may
    call it. `timeout` is how long a null procedure may take, `settle` how long a pause is at least,
    and how long a new connection has to be silent.
    """

    def __init__(self, width: int = 1, timeout: int = 10_000, settle: int = 2_000):
        self._calls = load()
        self._state = _Session()
        self._records = (_Settlement * WINDOW)()
        self._line = ctypes.create_string_buffer(LINE_ROOM)
        self._text = ctypes.create_string_buffer(TEXT_ROOM)
        width = width if 0 <= width < 256 else 0
        check(self._calls.geocom_session_init(self._state, width, timeout, settle))

    def next(self, want: Want, now: int) -> Step:
        """What is to be done now, if this is wanted."""
        step = self._calls.geocom_session_next(
            self._state, want, now, self._records, WINDOW, self._line, LINE_ROOM
        )
        check(step.fault)
        lost = settlements(self._records[: step.count], b"") if step.count else []
        return Step(_ACTS[step.act], step.until, self._line.raw[: step.bytes], lost)

    def ask(
        self, target: int, timeout: int, procedure: int, params: str, is_raw: bool = False
    ) -> bytes:
        """Sends a request, which times out so long after the last moment that was told, and gives
        the line to write. Raises NotItsTurn where `next` didn't give SEND, or something happened
        since; and first what `Client.send` and `Client.send_raw` raise of its number and its
        parameters. Nothing has changed then.
        """
        text = params.encode("latin-1")
        within(procedure, 16)
        call = self._calls.geocom_session_ask_raw if is_raw else self._calls.geocom_session_ask
        sent = call(
            self._state, target, timeout, procedure, text, len(text), self._line, LINE_ROOM
        )
        check(sent.fault)
        return self._line.raw[: sent.count]

    def opened(self, now: int) -> None:
        """A connection was made."""
        check(self._calls.geocom_session_opened(self._state, now))

    def closed(self, now: int) -> None:
        """The connection ended, failed or was closed, or none could be made."""
        check(self._calls.geocom_session_closed(self._state, now))

    def feed(self, now: int, data: bytes) -> list[Settlement]:
        """Takes what was read by this moment, and gives the settlements, in order."""
        left = bytes(data)
        settled: list[Settlement] = []
        while left:
            heard = self._calls.geocom_session_feed(
                self._state, now, left, len(left), self._records, WINDOW, self._text, TEXT_ROOM
            )
            check(heard.fault)
            left = left[heard.used :]
            if heard.count:
                settled += settlements(self._records[: heard.count], self._text.raw)
        return settled

    def restart(self) -> None:
        """Loses all that is outstanding, and starts over, with a line feed first."""
        check(self._calls.geocom_session_restart(self._state, self._records, WINDOW).fault)

    @property
    def interruptions(self) -> int:
        """It grows where a connection ends or none can be made, and where the session
        resynchronizes.
        """
        return int(self._state.interruptions)

    @property
    def sign_ons(self) -> int:
        """How many sign-ons came since the first `ask`."""
        return int(self._state.sign_ons)

    @property
    def is_up(self) -> bool:
        """Whether there is a connection, as far as it was told."""
        return bool(self._calls.geocom_session_status(self._state).is_up)

    @property
    def is_ready(self) -> bool:
        """Whether it has synchronized, the connection is quiet, and nothing calls for another
        synchronization.
        """
        return bool(self._calls.geocom_session_status(self._state).is_ready)

    def delay(self, now: int) -> int:
        """What remains of a pause, and the quiet time after it, which a first connection hasn't."""
        state = self._state
        paused = state.wait_since + state.pause - now if state.phase == _PAUSING else 0
        return int(max(0, paused) + (state.settle if state.interruptions else 0))


@functools.lru_cache(maxsize=256)
def refuse(procedure: int, params: str, is_raw: bool) -> None:
    """Raises what the library refuses of a request: a session is asked at once, where it isn't its
    turn.
    """
    try:
        Session().ask(0, 0, procedure, params, is_raw)
    except NotItsTurn:
        pass
