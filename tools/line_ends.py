"""The ends of a bad line: a port that is listened at, a port that is connected to, a serial device, and a pseudo terminal with a name."""

import os
import re
import select
import socket
import struct
import tty
from collections.abc import Iterator
from contextlib import suppress
from typing import Protocol

# How long an end may take no bytes, in seconds.
PATIENCE = 5


class Link(Protocol):
    """An open connection, or a device."""

    def fileno(self) -> int: ...
    def read(self) -> bytes: ...
    def write(self, data: bytes) -> None: ...
    def drained(self, is_reset: bool) -> Iterator[bytes]: ...
    def close(self) -> None: ...


class Connection:
    """A connection over TCP."""

    def __init__(self, near: socket.socket) -> None:
        self.socket = near
        near.setsockopt(socket.IPPROTO_TCP, socket.TCP_NODELAY, 1)
        near.settimeout(PATIENCE)

    def fileno(self) -> int:
        return self.socket.fileno()

    def read(self) -> bytes:
        """What comes; nothing where it ended."""
        try:
            return self.socket.recv(65536)
        except OSError:
            return b""

    def write(self, data: bytes) -> None:
        self.socket.sendall(data)

    def drained(self, is_reset: bool) -> Iterator[bytes]:
        """Ends it, by an end or by a reset, and gives what the other end had sent before it saw that."""
        with suppress(OSError):
            if is_reset:
                self.socket.setsockopt(socket.SOL_SOCKET, socket.SO_LINGER, struct.pack("ii", 1, 0))
                self.socket.settimeout(0)
            else:
                self.socket.shutdown(socket.SHUT_WR)
            while data := self.socket.recv(65536):
                yield data

    def close(self) -> None:
        self.socket.close()


class Terminal:
    """A device that is open, by one descriptor or, of a pseudo terminal, by those of both its ends."""

    def __init__(self, number: int, other: int | None = None) -> None:
        self.number, self.other = number, other
        os.set_blocking(number, False)

    def fileno(self) -> int:
        return self.number

    def read(self) -> bytes:
        try:
            return os.read(self.number, 65536)
        except BlockingIOError:
            return b""
        except OSError:
            return b""

    def write(self, data: bytes) -> None:
        while data:
            if not select.select([], [self.number], [], PATIENCE)[1]:
                raise TimeoutError("it takes no bytes")
            data = data[os.write(self.number, data) :]

    def drained(self, is_reset: bool) -> Iterator[bytes]:
        """A device knows no end: what came is what was read."""
        del is_reset
        return iter(())

    def close(self) -> None:
        os.close(self.number)
        if self.other is not None:
            os.close(self.other)


def opened(path: str) -> Terminal:
    """A serial device, raw; its speed is as it was set."""
    number = os.open(path, os.O_RDWR | os.O_NOCTTY | os.O_NONBLOCK)
    try:
        if not os.isatty(number):
            raise OSError(f"{path} is no terminal")
        tty.setraw(number)
    except BaseException:
        os.close(number)
        raise
    return Terminal(number)


class Near(Protocol):
    """Where the client comes. A `listener` has something to wait for before `accept`; where it is None a client is always there."""

    listener: socket.socket | None

    def open(self) -> None: ...
    def shut(self) -> None: ...
    def accept(self) -> Link: ...


class Listening:
    """A port that the client connects to."""

    def __init__(self, address: tuple[str, int]) -> None:
        self.address = address
        self.listener: socket.socket | None = None

    def open(self) -> None:
        family = socket.AF_INET6 if ":" in self.address[0] else socket.AF_INET
        self.listener = socket.create_server(self.address, family=family)

    def shut(self) -> None:
        """Nobody can connect from here on."""
        if self.listener:
            self.listener.close()
            self.listener = None

    def accept(self) -> Link:
        assert self.listener
        return Connection(self.listener.accept()[0])


class Named:
    """A pseudo terminal that the client opens by a name, which is a link. Each connection has another one."""

    listener: socket.socket | None = None

    def __init__(self, path: str) -> None:
        self.path = path

    def open(self) -> None:
        pass

    def shut(self) -> None:
        with suppress(FileNotFoundError):
            os.unlink(self.path)

    def accept(self) -> Link:
        far, near = os.openpty()
        tty.setraw(near)
        with suppress(FileNotFoundError):
            os.unlink(f"{self.path}.new")
        os.symlink(os.ttyname(near), f"{self.path}.new")
        os.replace(f"{self.path}.new", self.path)
        return Terminal(far, near)


class Serial:
    """A serial device, at whose other end the client is. A close of the line only loses what is in flight."""

    listener: socket.socket | None = None

    def __init__(self, path: str) -> None:
        self.path = path

    def open(self) -> None:
        pass

    def shut(self) -> None:
        pass

    def accept(self) -> Link:
        return opened(self.path)


class Far:
    """The instrument, at an address or a device. Its connection outlives the client's, so it doesn't restart with them."""

    def __init__(self, where: tuple[str, int] | str) -> None:
        self.where = where
        self.link: Link | None = None

    def open(self) -> None:
        """Connects, where it isn't."""
        if not self.link:
            self.link = opened(self.where) if isinstance(self.where, str) else Connection(socket.create_connection(self.where, PATIENCE))

    def shut(self) -> None:
        if self.link:
            self.link.close()
            self.link = None

    def restart(self) -> None:
        """The connection ends, and begins again after all that was on its way: a simulator restarts with each."""
        if self.link and not isinstance(self.where, str):
            for _ in self.link.drained(False):
                pass
            self.shut()
            self.open()


def place_of(word: str) -> tuple[str, int] | str:
    """A place as `geocom` has it: a path with a slash, HOST:PORT, [ADDRESS]:PORT, or a port of 127.0.0.1."""
    if "/" in word:
        return word
    found = re.fullmatch(r"(?:\[([0-9A-Fa-f:.]+)\]:|([^\[\]: ]+):)?([0-9]{1,5})", word)
    if not found or not 1 <= int(found[3]) <= 65535:
        raise ValueError(f"{word} is no place")
    return found[1] or found[2] or "127.0.0.1", int(found[3])


def near_of(word: str) -> Near:
    """The client's end of the line."""
    place = place_of(word)
    if not isinstance(place, str):
        return Listening(place)
    if os.path.lexists(place) and not os.path.islink(place):
        return Serial(place)
    # A link that leads to a device is a serial one's name, as udev gives it; one to a pseudo terminal was left behind.
    if os.path.exists(place) and not os.path.realpath(place).startswith("/dev/pts/"):
        return Serial(place)
    return Named(place)
