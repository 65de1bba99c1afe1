"""Connections: a serial port, a socket, or any port with `read`, `write` and `timeout`, as one
thing that a station reads and writes.
"""

from __future__ import annotations

import contextlib
import math
import os
import re
import select
import socket
from collections.abc import Callable
from typing import Any, Protocol, Union

from .values import LONGEST

PIECE = 4096
# How long a write or a connect may take, in seconds.
PATIENCE = 10.0
_ADDRESS = re.compile(r"(?:(?:\[([0-9A-Fa-f:.]*:[0-9A-Fa-f:.]*)\]|([^:\[\]\s]+)):)?([0-9]{1,5})")


class Port(Protocol):
    """What pyserial's ports have, and `geocom.Instrument`: `timeout` is in seconds."""

    timeout: Any

    def read(self, size: int = 1) -> bytes:
        """At most so many bytes; fewer, or none, where they don't come within the timeout."""

    def write(self, data: bytes) -> Any:
        """Writes all of it."""

    def close(self) -> None:
        """Ends it."""


class Link(Protocol):
    """A connection. Each call raises OSError where it ended or failed."""

    def read(self, seconds: float) -> bytes:
        """What came; nothing where nothing comes within this time."""

    def write(self, data: bytes) -> None:
        """Writes all of it."""

    def close(self) -> None:
        """Ends it."""


#: A path with a `/`, "HOST:PORT", a port of this machine as "4001" or 4001, an open socket or port,
#: or a call that opens one.
Where = Union[
    str, int, "os.PathLike[str]", socket.socket, Port, Callable[[], Union[socket.socket, Port]]
]


class SocketLink:
    """A connection over a socket."""

    def __init__(self, connection: socket.socket):
        self._socket = connection
        connection.settimeout(PATIENCE)
        with contextlib.suppress(OSError):  # one of another family has no such option
            connection.setsockopt(socket.IPPROTO_TCP, socket.TCP_NODELAY, 1)
        self._poll = select.poll()
        self._poll.register(connection, select.POLLIN)

    def read(self, seconds: float) -> bytes:
        if not self._poll.poll(min(math.ceil(seconds * 1000), LONGEST)):
            return b""
        data = self._socket.recv(PIECE)
        if not data:
            raise ConnectionResetError("the connection ended")
        return data

    def write(self, data: bytes) -> None:
        self._socket.sendall(data)

    def close(self) -> None:
        self._socket.close()


class PortLink:
    """A connection over a port, as pyserial has it."""

    def __init__(self, port: Port):
        self._port = port

    def read(self, seconds: float) -> bytes:
        self._port.timeout = seconds
        data = self._port.read(1)
        if data and (more := getattr(self._port, "in_waiting", 0)):
            data += self._port.read(more)
        return data

    def write(self, data: bytes) -> None:
        self._port.write(data)

    def close(self) -> None:
        self._port.close()


def address(where: str) -> tuple[str, int] | None:
    """The host and the port of "HOST:PORT", "[ADDRESS]:PORT" or a port of this machine; None of a
    path.

    >>> address("10.0.0.5:4001"), address("[fd00::5]:4001")
    (('10.0.0.5', 4001), ('fd00::5', 4001))
    >>> address("4001"), address("/dev/ttyUSB0")
    (('127.0.0.1', 4001), None)
    """
    if "://" in where:
        raise ValueError(f"{where!r}: HOST:PORT has nothing before it")
    if "/" in where:
        return None
    found = _ADDRESS.fullmatch(where)
    if not found or not 0 < int(found[3]) < 1 << 16:
        raise ValueError(f"{where!r} is no path with a /, HOST:PORT or port of this machine")
    return found[1] or found[2] or "127.0.0.1", int(found[3])


def serial_port(path: str, baud: int) -> Any:
    """A device, as pyserial opens it: eight bits, no parity, one stop bit, and locked."""
    try:
        import serial  # type: ignore[import]
    except ImportError as missing:
        raise ImportError("a device wants pyserial: pip install 'geocom[serial]'") from missing
    return serial.Serial(path, baud, write_timeout=PATIENCE, exclusive=True)


def opener(where: Where, baud: int) -> Callable[[], Link]:
    """A call that opens this connection, again and again. What can't be opened again raises OSError
    then. Raises ValueError or TypeError for what can't be opened at all.
    """
    if isinstance(where, int):
        where = str(where)
    if isinstance(where, (str, os.PathLike)):
        path = os.fspath(where)
        place = address(path) if isinstance(where, str) else None
        if place:
            host, number = place
            return lambda: SocketLink(socket.create_connection((host, number), PATIENCE))
        return lambda: PortLink(serial_port(path, baud))
    if isinstance(where, socket.socket):
        return _Reopened(where)
    if callable(where):
        call: Callable[[], socket.socket | Port] = where
        return lambda: _link(call())
    if not all(hasattr(where, name) for name in ("read", "write", "close")):
        raise TypeError(f"{where!r} is no path, address, socket or port, and opens none")
    return _Reopened(where)


class _Reopened:
    """An open port: at first as it is, and later opened again, if it can be."""

    def __init__(self, port: socket.socket | Port):
        self._port, self._is_new = port, True

    def __call__(self) -> Link:
        if not self._is_new:
            if not (again := getattr(self._port, "open", None)):
                raise ConnectionError("the connection ended, and can't be made again")
            with contextlib.suppress(OSError):
                self._port.close()  # it may be open, if an exception broke a close off
            again()
        self._is_new = False
        return _link(self._port)


def _link(port: socket.socket | Port) -> Link:
    if isinstance(port, socket.socket):
        return SocketLink(port)
    return PortLink(port)
