"""Procedures that aren't in the table, each described by a text. What the text says is the
library's to say, and so is what parameters and answers are by it.
"""

from __future__ import annotations

import collections
import ctypes
import functools
import keyword
from collections.abc import Callable
from dataclasses import dataclass
from decimal import Decimal
from typing import Any

from ._library import MOST_ITEMS, TEXT_ROOM, _Column, load
from .errors import check, check_description
from .values import byte, text

# What reads a value of each kind.
_READERS: dict[str, Callable[[str], Any]] = {
    "Double": Decimal,
    "Long": int,
    "Short": int,
    "Byte": byte,
    "Boolean": lambda item: bool(int(item)),
    "String": text,
}


@dataclass(frozen=True)
class Field:
    """A parameter, or a column of an answer: its name, and its kind of `docs/PROTOCOL.md`."""

    name: str
    kind: str


@dataclass(frozen=True)
class Description:
    """What a text says of a procedure: see `Station.describe`.

    >>> it = Description.of("2167 mode Long -> hz_rad Double v_rad Double ..")
    >>> it.procedure, [each.name for each in it.columns], it.more
    (2167, ['hz_rad', 'v_rad'], True)
    """

    text: str
    procedure: int
    parameters: tuple[Field, ...]
    columns: tuple[Field, ...]
    #: whether an answer may have further values
    more: bool

    @classmethod
    def of(cls, text: str) -> Description:
        """Reads a text. Raises NoDescription, and InTable if the table has the procedure."""
        said = text.encode("latin-1", "replace")
        columns = (_Column * MOST_ITEMS)()
        told = load().geocom_description_read(said, len(said), columns, MOST_ITEMS)
        check_description(told.fault, text)
        words = text.split(" ")
        first = 1 + 2 * told.parameters
        return cls(
            text,
            told.procedure,
            _fields(words[1:first]),
            _fields(words[first + 1 : first + 1 + 2 * told.columns]),
            bool(told.more),
        )

    def refuse(self, parameters: str) -> None:
        """Raises BadParameters if these, as they stand on the line, aren't those of a request."""
        said, given = self.text.encode("latin-1"), parameters.encode("latin-1")
        check(load().geocom_description_params(said, len(said), given, len(given)))

    def answer(self, line: str) -> tuple[int, int, tuple[str, ...]]:
        """What a reply's line says: its reading and code, by their numbers, and its items."""
        said, came = self.text.encode("latin-1"), line.encode("latin-1")
        room = ctypes.create_string_buffer(TEXT_ROOM)
        told = load().geocom_description_reply(said, len(said), came, len(came), room, TEXT_ROOM)
        check(told.fault)
        raw, spans = room.raw, told.item_spans[: told.items]
        items = (raw[each.offset : each.offset + each.length] for each in spans)
        return told.reading, told.code, tuple(item.decode("latin-1") for item in items)

    def value(self, items: tuple[str, ...]) -> Any:
        """The named tuple of an answer's items, without those after the columns."""
        values = (_READERS[each.kind](item) for each, item in zip(self.columns, items))
        return _tuple(self.procedure, tuple(each.name for each in self.columns))(*values)


def _fields(words: list[str]) -> tuple[Field, ...]:
    return tuple(map(Field, words[::2], words[1::2]))


@functools.lru_cache(maxsize=None)
def _tuple(procedure: int, names: tuple[str, ...]) -> Any:
    """The class of a procedure's named tuples. A word of Python's own has `_` after it."""
    make: Any = collections.namedtuple
    plain = [f"{name}_" if keyword.iskeyword(name) else name for name in names]
    return make(f"Answer{procedure}", plain, rename=True)
