"""Values of the procedures' parameters and answers: no quantity passes through a float on its way
from the instrument.
"""

from __future__ import annotations

import datetime
import enum
import operator
from collections.abc import Callable, Sequence
from decimal import Decimal
from typing import Any, SupportsFloat, TypeVar, Union

#: What a parameter may be. A text goes out as it stands, as "2.25"; a Decimal with all its digits;
#: any other number, as one of numpy or a Fraction, by its value.
Parameter = Union[str, int, float, Decimal, SupportsFloat]
#: The longest time-out, in milliseconds: what the poll of a socket takes.
LONGEST = (1 << 31) - 1


class Listed(enum.EnumMeta):
    """Lists an enum's own names alone, in `help` and where names are completed: none of int's."""

    def __dir__(cls) -> list[str]:
        own = [name for name in vars(cls) if not name.startswith("_")]
        return ["__doc__", "__module__", *own]


class OpenEnum(enum.IntEnum, metaclass=Listed):
    """Numbers with names; another number is itself, under the name `UNKNOWN_N`."""

    @classmethod
    def _missing_(cls, value: object) -> OpenEnum | None:
        if not isinstance(value, int):
            return None
        unknown = int.__new__(cls, value)
        unknown._name_, unknown._value_ = f"UNKNOWN_{value}", value
        return unknown

    def __reduce_ex__(self, protocol: Any) -> Any:
        return type(self), (int(self),)  # by its number: not each has a name in the class

    def __str__(self) -> str:
        return self.name


class Face(OpenEnum):
    """Which face the telescope is in."""

    NORMAL = 0
    TURNED = 1


class PrismType(OpenEnum):
    """The prism types that instruments have in common, from memory: see your instrument's manual.
    """

    ROUND = 0
    MINI = 1
    TAPE = 2
    PRISM_360 = 3
    USER_1 = 4
    USER_2 = 5
    USER_3 = 6
    MINI_360 = 7
    MINI_ZERO = 8
    USER = 9
    NDS_TAPE = 10


def parameter(kind: str, value: Parameter) -> str:
    """A parameter of this kind of `docs/PROTOCOL.md` as it stands on the line.

    >>> parameter("Double", Decimal("1E-7")), parameter("Boolean", True), parameter("Byte", 12)
    ('0.0000001', '1', "'0c'")
    """
    if isinstance(value, str):
        return value
    if isinstance(value, Decimal):
        return format(value, "f")
    if kind == "Boolean" and value in (False, True):
        return str(int(bool(value)))
    given = number(value)
    if isinstance(given, float):
        return repr(given)
    return f"'{given:02x}'" if kind == "Byte" else str(given)


def number(value: Any) -> int | float:
    """A number by its value: whole if its type is, else a float. Raises TypeError for what is no
    number.

    >>> from fractions import Fraction
    >>> number(True), number(Fraction(9, 4))
    (1, 2.25)
    """
    try:
        return int(operator.index(value))
    except TypeError:
        if not isinstance(value, SupportsFloat) or isinstance(value, complex):
            raise TypeError(f"{value!r} is no number") from None
    given = float(value)
    if getattr(value, "imag", 0) != 0:
        raise TypeError(f"{value!r} is no real number")
    return given


def whole(value: Any) -> int:
    """A whole number, which isn't cut. Raises TypeError for any other."""
    return int(operator.index(value))


def milliseconds(seconds: float, least: int = 1) -> int:
    """A time-out in milliseconds, at least so many. Raises ValueError for one that is shorter, or
    longer than 24 days.
    """
    if not 0 <= seconds <= LONGEST / 1000 or round(seconds * 1000) < least:
        raise ValueError(f"{seconds} s: a timeout is longer than nothing, and at most 24 days")
    return round(seconds * 1000)


def line(kinds: Sequence[str], values: Sequence[Parameter]) -> str:
    """Parameters as they stand on the line; those after the kinds as plain numbers and texts.

    >>> line(["Double", "Long"], ["2.25", 1])
    '2.25,1'
    """
    if len(kinds) == len(values):
        return ",".join(map(parameter, kinds, values))
    return ",".join(parameter("", value) for value in values)


def byte(item: str) -> int:
    """The number of a Byte, as '0c'."""
    return int(item.strip("'"), 16)


def text(item: str) -> str:
    """The text of a String, without its quotes."""
    return item.strip('"')


def face(item: str) -> Face:
    """The face of a Long."""
    return Face(int(item))


def prism_type(item: str) -> PrismType:
    """The prism type of a Long."""
    return PrismType(int(item))


def moment(items: Sequence[str]) -> datetime.datetime:
    """The date and time of the instrument's clock, of six items. It has no time zone."""
    month, day, hour, minute, second = map(byte, items[1:])
    return datetime.datetime(int(items[0]), month, day, hour, minute, second)


Result = TypeVar("Result")


def reader(result: Callable[..., Result], *reads: Callable[[str], Any]) -> Callable[..., Result]:
    """Reads the items of an answer, each by its own call, as this result."""
    return lambda items: result(*(read(item) for read, item in zip(reads, items)))


def date_parts(date: datetime.datetime) -> tuple[int, ...]:
    """Year, month, day, hour, minute and second."""
    return tuple(date.timetuple()[:6])
