"""Chains of commands, the rows that they give, and the moments of cycles."""

from __future__ import annotations

import datetime
import math
from collections.abc import Iterable, Mapping
from dataclasses import dataclass
from typing import Optional

from .described import Description
from .errors import NoValue
from .results import TABLE
from .session import refuse
from .settlement import Outcome, Request, Settlement
from .values import Parameter, line, milliseconds, whole

#: A command of a chain: the procedure's number, and its parameters.
Command = tuple[int, tuple[Parameter, ...]]


@dataclass(frozen=True)
class Chain:
    """Commands for one target: each goes out only once the one before it was answered well, over
    the same connection.

    >>> Chain.of(7, (9027, "2.25", "1.625", 0, 1, False), (2008, 1, 1), timeout=35).commands
    ((9027, ('2.25', '1.625', 0, 1, False)), (2008, (1, 1)))
    """

    target: int
    commands: tuple[Command, ...]
    #: seconds for each answer; None: those of the station
    timeout: Optional[float] = None
    #: return codes that let the chain go on, beside 0
    accept: tuple[int, ...] = ()

    @classmethod
    def of(
        cls,
        target: int,
        *commands: tuple[Parameter, ...],
        timeout: Optional[float] = None,
        accept: Iterable[int] = (),
    ) -> Chain:
        """A chain of commands, each a procedure's number with its parameters."""
        numbers = [int(c[0]) if isinstance(c[0], str) else whole(c[0]) for c in commands]
        made = tuple((number, c[1:]) for number, c in zip(numbers, commands))
        return cls(target, made, timeout, tuple(accept))

    @classmethod
    def measuring(
        cls,
        target: int,
        hz_rad: Parameter,
        v_rad: Parameter,
        *,
        timeout: float = 35.0,
        accept: Iterable[int] = (),
    ) -> Chain:
        """Points the telescope at a prism, aims at it, measures, and reads both angles and the
        distance.
        """
        return cls.of(
            target,
            (9027, hz_rad, v_rad, 0, 1, False),
            (2008, 1, 1),
            (2108, 5000, 1),
            timeout=timeout,
            accept=accept,
        )


@dataclass(frozen=True)
class Row:
    """A command of a chain, and how it ended. `sent` and `time` are moments of the system's clock,
    in UTC.
    """

    target: int
    #: which command of the chain it is, counted from 0
    index: int
    procedure: int
    #: None where it wasn't sent, so that nothing was asked
    settlement: Optional[Settlement]
    sent: Optional[datetime.datetime]
    time: datetime.datetime
    accept: tuple[int, ...] = ()

    @property
    def outcome(self) -> str:
        """`answered`, `late` or `lost`; `skipped` where it wasn't sent."""
        return str(self.settlement.outcome) if self.settlement else "skipped"

    @property
    def is_good(self) -> bool:
        """Whether it was answered with a value."""
        return self.settlement is not None and is_good(self.settlement, self.accept)

    @property
    def value(self) -> object:
        """What was answered, as `Settlement.value` has it; None without a value."""
        return self.settlement.value(self.accept) if self.settlement and self.is_good else None


@dataclass(frozen=True)
class Cycle:
    """A cycle, counted from 1, with the rows of its chains; none where it is missed: the next one
    was due by then.
    """

    number: int
    rows: list[Row]
    is_missed: bool = False


def is_good(settlement: Settlement, accept: tuple[int, ...]) -> bool:
    """Whether it is an answer with a value."""
    if settlement.outcome != Outcome.ANSWERED:
        return False
    try:
        settlement.value(accept)
    except NoValue:
        return False
    return True


#: The described procedures of a station, by their numbers.
Described = Mapping[int, Description]


def make_request(
    procedure: int,
    parameters: tuple[Parameter, ...],
    target: int,
    timeout: float,
    described: Optional[Described],
) -> Request:
    """A request of a station, which has these described procedures; None: a raw one. Raises what
    the library refuses of it, before anything is asked.
    """
    procedure = whole(procedure)
    by = None if described is None else described.get(procedure)
    kinds: tuple[str, ...] = () if not by else tuple(each.kind for each in by.parameters)
    if described is not None and procedure in TABLE:
        kinds = TABLE[procedure].kinds
    text = line(kinds, parameters)
    if by:
        by.refuse(text)
    is_raw = described is None or by is not None
    refuse(procedure, text, is_raw)
    return Request(procedure, text, target, milliseconds(timeout), is_raw, by)


def requests(chain: Chain, timeout: float, known: int, described: Described) -> list[Request]:
    """The requests of a chain, of whose caller so many sign-ons are known. Raises what the library
    refuses of any, before one goes out.
    """
    has = {*TABLE, *described}
    made = [
        make_request(number, given, chain.target, timeout, described if number in has else None)
        for number, given in chain.commands
    ]
    for request in made:
        request.known = known
    return made


def ended(index: int, request: Request, settlement: Settlement, accept: tuple[int, ...]) -> Row:
    """The row of a command that ended just now."""
    return Row(
        request.target, index, request.procedure, settlement, request.sent, utc(), accept
    )


def skipped(chain: Chain, index: int) -> Row:
    """The row of a command that isn't sent."""
    return Row(chain.target, index, chain.commands[index][0], None, None, utc())


def utc() -> datetime.datetime:
    """The system's moment."""
    return datetime.datetime.now(datetime.timezone.utc)


class Pace:
    """When cycles are due: each `every` seconds after the beginning of the one before it, and
    `count` of them. None: as soon as that is done, and without end.
    """

    def __init__(self, every: Optional[float] = None, count: Optional[int] = None):
        if every is not None and not 0 < every < math.inf:
            raise ValueError(f"{every} s is no period; None: one cycle directly after the other")
        if count is not None and count < 1:
            raise ValueError(f"{count} is no number of cycles; None: without end")
        self.every, self.count, self.number, self._began = every, count, 0, 0.0

    @property
    def goes_on(self) -> bool:
        """Whether a further cycle follows."""
        return self.count is None or self.number < self.count

    def due(self, now: float) -> float:
        """How many seconds remain until the next cycle is due."""
        return self._began + self.every - now if self.number and self.every else 0.0

    def begin(self, now: float) -> bool:
        """The next cycle begins: whether it isn't missed. One that is late by less than a period
        keeps its due moment.
        """
        self._began = min(self._began + self.every, now) if self.number and self.every else now
        self.number += 1
        return not self.every or now - self._began < self.every
