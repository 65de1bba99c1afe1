"""What is written to an instrument within the process, and read from it, for asyncio."""

from __future__ import annotations

import asyncio
from collections import deque
from typing import TYPE_CHECKING

if TYPE_CHECKING:
    from ..instrument import Instrument


def connected(instrument: Instrument) -> tuple[asyncio.StreamReader, Connected]:
    """Both ends of a connection to it, as `asyncio.open_connection` gives them."""
    reader = asyncio.StreamReader()
    return reader, Connected(instrument, reader)


class Connected:
    """What is written to an instrument within the process, for asyncio."""

    def __init__(self, instrument: Instrument, reader: asyncio.StreamReader):
        self._instrument, self._reader = instrument, reader
        self._loop = asyncio.get_running_loop()
        self._waiting: deque[bytes] = deque()

    def write(self, data: bytes) -> None:
        """Takes all of it, now. Each reply comes when it is due, in order."""
        now = self._loop.time()
        for reply in self._instrument.replies_to(data, round(now * 1000)):
            self._waiting.append(reply.data)
            self._loop.call_at(reply.due / 1000, self._send)

    async def drain(self) -> None:
        """Nothing waits to be written."""

    def close(self) -> None:
        """Ends the connection: what is still to go out doesn't come."""
        self._waiting.clear()
        self._reader.feed_eof()

    def _send(self) -> None:
        """The first reply goes out: as many times as there are replies, at their moments."""
        if self._waiting:
            self._reader.feed_data(self._waiting.popleft())
