"""Connections for asyncio: a reader of streams, and what is written on."""

from __future__ import annotations

import asyncio
import os
from collections.abc import Awaitable, Callable
from typing import Protocol, Union

from ..ports import PATIENCE, address, serial_port


class Writer(Protocol):
    """What `asyncio.StreamWriter` has."""

    def write(self, data: bytes) -> None:
        """Writes all of it."""

    def close(self) -> None:
        """Ends the connection."""


Connection = tuple[asyncio.StreamReader, Writer]
#: A path with a `/`, "HOST:PORT", a port of this machine as "4001" or 4001, or a call that opens a
#: connection.
Where = Union[str, int, "os.PathLike[str]", Callable[[], Awaitable[Connection]]]


def opener(where: Where, baud: int) -> Callable[[], Awaitable[Connection]]:
    """A call that opens this connection, again and again. Raises ValueError or TypeError for what
    can't be opened at all.
    """
    if isinstance(where, int):
        where = str(where)
    if not isinstance(where, (str, os.PathLike)):
        if not callable(where):
            raise TypeError(f"{where!r} is no path, no address and no call that opens streams")
        return where
    path = os.fspath(where)
    place = address(path) if isinstance(where, str) else None
    if not place:
        return lambda: _device(path, baud)
    host, number = place
    return lambda: _address(host, number)


async def _address(host: str, number: int) -> Connection:
    return await asyncio.wait_for(asyncio.open_connection(host, number), PATIENCE)


class _Device:
    """A device is read and written by two transports."""

    def __init__(self, reading: asyncio.BaseTransport, writing: asyncio.WriteTransport):
        self._reading, self._writing = reading, writing

    def write(self, data: bytes) -> None:
        self._writing.write(data)

    def close(self) -> None:
        self._writing.close()
        self._reading.close()


async def _device(path: str, baud: int) -> Connection:
    loop = asyncio.get_running_loop()
    port = serial_port(path, baud)
    written = os.fdopen(os.dup(port.fileno()), "wb", 0)
    reader = asyncio.StreamReader()
    reading, _ = await loop.connect_read_pipe(lambda: asyncio.StreamReaderProtocol(reader), port)
    writing, _ = await loop.connect_write_pipe(asyncio.BaseProtocol, written)
    return reader, _Device(reading, writing)
