"""What callers ask of a session: each request by a number, which the session knows as its target.
What the session settles under that number is the end of that request.
"""

from __future__ import annotations

import datetime
import logging

from ._library import OWN
from .errors import NotReady, not_ready
from .session import Session, Step, Want
from .settlement import Request, Settlement

log = logging.getLogger("geocom")


class Asked(Session):
    """A session, with the requests of its callers that are outstanding."""

    def __init__(self, width: int, timeout: int, settle: int):
        super().__init__(width, timeout, settle)
        #: Requests that were sent and aren't settled, by their numbers.
        self.outstanding: dict[int, Request] = {}
        self._number = 0

    def next(self, want: Want, now: int) -> Step:
        """What is to be done now, if this is wanted."""
        step = super().next(want, now)
        self._settle(step.lost)
        if step.line:
            log.debug("> %r", step.line)
        return step

    def send(self, request: Request, now: int) -> bytes:
        """The line of a request whose turn it is at this moment."""
        number = self._number = (self._number + 1) % OWN  # the session's own requests have that
        self.outstanding[number] = request  # first, so that an end of it is never another one's
        line = self.ask(
            number, request.timeout, request.procedure, request.parameters, request.is_raw
        )
        request.interruptions, request.deadline = self.interruptions, now + request.timeout
        request.sent = datetime.datetime.now(datetime.timezone.utc)
        log.debug("> %r", line)
        return line

    def opened(self, now: int) -> None:
        """A connection was made."""
        super().opened(now)
        log.info("connected")

    def closed(self, now: int) -> None:
        """The connection ended, failed or was closed, or none could be made."""
        super().closed(now)
        log.info("no connection")

    def came(self, data: bytes, now: int) -> None:
        """This was read by this moment."""
        log.debug("< %r", data)
        before = self.sign_ons
        self._settle(self.feed(now, data))
        if self.sign_ons != before:
            log.info("the instrument was switched on or off")

    def broken_off(self, is_connected: bool, now: int) -> None:
        """An exception left something half done: all that is outstanding is lost, and the session
        starts over. Nothing is logged: that may be what raised.
        """
        self.restart()
        for request in self.outstanding.values():
            request.lose()
        self.outstanding.clear()
        if self.is_up != is_connected:
            (super().opened if is_connected else super().closed)(now)

    def is_skipped(self, request: Request) -> bool:
        """Whether it may be sent no more: its chain was interrupted, or a sign-on came after its
        call.
        """
        is_broken = request.within not in (None, self.interruptions)
        return not request.is_sent and (is_broken or request.is_outdated(self.sign_ons))

    def why_not(self, request: Request | None, failure: Exception | None) -> NotReady:
        """Why a request wasn't sent, or the synchronization not completed."""
        return not_ready(failure, request is not None and request.is_outdated(self.sign_ons))

    def _settle(self, ended: list[Settlement]) -> None:
        for settlement in ended:
            if not (request := self.outstanding.pop(settlement.target, None)):
                continue  # it is OWN
            vars(settlement)["target"] = request.target  # nobody else has it yet
            request.settle(settlement)
            log.debug("target %d, %d: %s", request.target, request.procedure, settlement.outcome)
