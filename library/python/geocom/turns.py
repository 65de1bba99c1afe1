"""A station's loop: what its session says is done over a port, with a clock."""

from __future__ import annotations

from collections.abc import Callable
from typing import Optional

from .asked import Asked, log
from .ports import Link
from .session import Act, Step, Want
from .settlement import Request

_LOOK = Step(Act.READ, 0, b"", [])


class Turns:
    """The connection of a station, and what is done to it."""

    def __init__(
        self,
        connect: Callable[[], Link],
        session: Asked,
        clock: Callable[[], float],
        sleep: Callable[[float], None],
    ):
        self._open, self._session = connect, session
        self._clock, self._sleep = clock, sleep
        self._link: Optional[Link] = None
        self._failure: Optional[Exception] = None
        # Whether a call is under way; where the next one finds it so, an exception broke it off.
        self._is_under_way = False

    def _now(self) -> int:
        return round(self._clock() * 1000)

    def _enter(self) -> None:
        """A call begins, after one that an exception may have broken off."""
        if self._is_under_way:
            self._session.broken_off(self._link is not None, self._now())
        self._is_under_way = True

    def _look(self) -> int:
        """Hears what came while nobody read, so that a connection which ended is seen before a
        request is lost with it. The moment after that.
        """
        self._do(_LOOK, 0.0)
        return self._now()

    def _leave(self, now: int) -> None:
        """A call ends, and nothing is wanted from now on."""
        self._session.next(Want.NOTHING, now)
        self._is_under_way = False

    def _turn(self, want: Want, now: int, end: int, request: Optional[Request] = None) -> int:
        """One thing that the session says, until `end` at the latest; where it says that a request
        may be sent, this one is. The moment after it.
        """
        step = self._session.next(want, now)
        if step.act is Act.SEND and request:
            step = Step(Act.WRITE, 0, self._session.send(request, now), [])
        self._do(step, max(0, min(step.until, end) - now) / 1000)
        return self._now()

    def _do(self, step: Step, wait: float) -> None:
        """Does it, and says what came of it."""
        if step.act is Act.WAIT:
            self._sleep(wait)
        elif step.act is Act.CLOSE:
            self._drop()
        elif self._link or step.act is Act.OPEN:
            data = b""
            try:
                if step.act is Act.OPEN:
                    self._link = self._open()
                elif self._link and step.act is Act.WRITE:
                    self._link.write(step.line)
                elif self._link and step.act is Act.READ:
                    data = self._link.read(wait)
            except OSError as failure:
                self._drop(failure)
            else:
                if step.act is Act.OPEN:
                    self._session.opened(self._now())
                elif data:
                    self._session.came(data, self._now())

    def _drop(self, failure: Optional[Exception] = None) -> None:
        """The connection is no more, also where an exception breaks its close off."""
        self._failure, link, self._link = failure, self._link, None
        try:
            if link:
                link.close()
        except OSError as failed:
            log.info("the close failed: %s", failed)
        self._session.closed(self._now())
        if failure:
            log.info("the connection failed: %s", failure)
