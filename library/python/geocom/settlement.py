"""Requests, and how they end."""

from __future__ import annotations

import datetime
import enum
import re
from collections.abc import Container
from dataclasses import dataclass
from typing import Any, Optional

from .codes import RC
from .described import Description
from .errors import Late, Lost, Refused, Unreadable
from .results import TABLE
from .values import Listed

_CODES = re.compile(r"^%R1P,0+,[0-7]:[0-9]+")


class Outcome(enum.IntEnum, metaclass=Listed):
    """How a request ended."""

    ANSWERED = 1
    LATE = 2
    LOST = 3

    def __str__(self) -> str:
        return self.name.lower()


class Reading(enum.IntEnum, metaclass=Listed):
    """What an answer says."""

    NONE = 0
    VALUE = 1
    REFUSED = 2
    COM_FAULT = 3
    UNREADABLE = 4

    def __str__(self) -> str:
        return self.name.lower()


@dataclass(frozen=True)
class Settlement:
    """The end of one request."""

    target: int
    procedure: int
    outcome: Outcome
    reading: Reading
    #: the return code, the communication code, or the fault 11 to 15 of the parameters; else 0
    code: int
    #: the answer's line as it came, or None
    line: str | None
    #: the texts of the answer's values, as they came: `decimal.Decimal(item)` of a double is exact
    items: tuple[str, ...]
    #: what describes the procedure, if a text of `Station.describe` does
    description: Optional[Description] = None

    @property
    def rc(self) -> RC | None:
        """The return code, or the communication code, of an answer; None where there is no answer.
        """
        if self.outcome != Outcome.ANSWERED:
            return None
        return RC(self.code) if self.reading in (Reading.REFUSED, Reading.COM_FAULT) else RC(0)

    def value(self, accept: Container[int] = ()) -> Any:
        """What was answered: the procedure's named tuple, None where it answers nothing, and of a
        raw one its items. A described one's tuple has its columns.

        `accept` has return codes whose answer is taken as one with 0, as
        `RC.GRC_TMC_ACCURACY_GUARANTEE`. Raises Late, Lost, Unreadable, and Refused for each other
        code.
        """
        if self.outcome != Outcome.ANSWERED:
            raise Late(self) if self.outcome == Outcome.LATE else Lost(self)
        items = self.items
        if self.reading == Reading.REFUSED and self.code in accept:
            items = self._as_done()
        elif self.reading in (Reading.REFUSED, Reading.COM_FAULT):
            raise Refused(self)
        elif self.reading == Reading.UNREADABLE:
            raise Unreadable(self)
        if self.description:
            return self.description.value(items)
        procedure = TABLE.get(self.procedure)
        try:
            return procedure.read(items) if procedure else items
        except ValueError as fault:  # a date that no calendar has
            raise Unreadable(self) from fault

    def _as_done(self) -> tuple[str, ...]:
        """The items of a refusal's line, read by the library as those of the same line with return
        code 0.
        """
        from .client import synchronized

        line = _CODES.sub("%R1P,0,0:0", self.line or "")
        if self.description:
            reading, _, items = self.description.answer(line)
            if reading != Reading.VALUE:
                raise Unreadable(self)
            return items
        client = synchronized()
        if procedure := TABLE.get(self.procedure):
            zeros = ",".join("'00'" if kind == "Byte" else "0" for kind in procedure.kinds)
            client.send(0, 0, self.procedure, zeros)
        else:
            client.send_raw(self.procedure, target=0, deadline=0)
        (done,) = client.feed(line.encode("latin-1") + b"\r\n")
        if done.reading != Reading.VALUE:
            raise Unreadable(self)
        return done.items


class Request:
    """A request, and how it ended."""

    def __init__(
        self,
        procedure: int,
        parameters: str,
        target: int,
        timeout: int,
        is_raw: bool = False,
        description: Optional[Description] = None,
    ):
        self.procedure, self.parameters, self.target = procedure, parameters, target
        self.timeout, self.is_raw, self.description = timeout, is_raw, description
        #: After how many interruptions it has to go out, where a chain asks for it: the end of a
        #: connection is one, and where the station resynchronizes.
        self.within: int | None = None
        #: How many sign-ons the caller knew of; after a further one it goes out no more.
        self.known: int | None = None
        #: After how many it went out, and its deadline.
        self.interruptions: int | None = None
        self.deadline = 0
        #: When it went out, by the system's clock.
        self.sent: datetime.datetime | None = None
        self.settlement: Settlement | None = None

    def is_outdated(self, sign_ons: int) -> bool:
        """Whether a sign-on came that its caller doesn't know of."""
        return self.known not in (None, sign_ons)

    def settle(self, settlement: Settlement) -> None:
        """It ended. An answer to a described procedure is read by its description."""
        if self.description and settlement.line is not None:
            reading, code, items = self.description.answer(settlement.line)
            vars(settlement).update(
                reading=Reading(reading), code=code, items=items, description=self.description
            )
        self.settlement = settlement

    @property
    def is_sent(self) -> bool:
        """Whether it went out."""
        return self.interruptions is not None

    def is_over(self, now: int) -> bool:
        """Whether it is settled, or its deadline has come."""
        return self.settlement is not None or (self.is_sent and self.deadline <= now)

    def end(self) -> Settlement:
        """Its settlement; one that timed out is lost: no answer will be taken for it."""
        return self.settlement or self.lose()

    def lose(self) -> Settlement:
        """It is lost: no answer will be taken for it."""
        self.settlement = Settlement(
            self.target, self.procedure, Outcome.LOST, Reading.NONE, 0, None, ()
        )
        return self.settlement
