"""An asyncio station's loop: what its session says is done over streams, with a future for each
call.
"""

from __future__ import annotations

import asyncio
import collections
import contextlib
import functools
import os
from collections.abc import Awaitable, Callable
from typing import Optional

from ..asked import Asked, log
from ..errors import NotReady
from ..session import NEVER, Act, Want
from ..settlement import Request
from .ports import Connection, Writer

PIECE = 4096
# How long a pause is at least after what raises, in milliseconds.
SOON = 100


class Turns:
    """The connection of a station, and who waits for what."""

    def __init__(self, connect: Callable[[], Awaitable[Connection]], session: Asked):
        self.session = session
        #: Requests that aren't sent, in order.
        self.wanted: collections.deque[Request] = collections.deque()
        self.failure: Optional[Exception] = None
        self._open, self._process = connect, os.getpid()
        self._writer: Optional[Writer] = None
        self._tasks: dict[str, asyncio.Task[None]] = {}
        self._timer: Optional[asyncio.TimerHandle] = None
        # What somebody waits for, a request or a synchronization, and by when it has to go out, or
        # to be done.
        self._calls: dict[object, tuple[asyncio.Future[None], int]] = {}
        self._loop: Optional[asyncio.AbstractEventLoop] = None
        # Who measures a chain has it. It is made where a loop runs, which Python 3.9 asks for.
        self._chain: Optional[asyncio.Lock] = None

    @staticmethod
    def now() -> int:
        """The loop's moment, in milliseconds."""
        return round(asyncio.get_running_loop().time() * 1000)

    def join(self) -> asyncio.Lock:
        """Takes the loop that runs; in another one than before, nothing of that one's goes on. The
        lock of who measures a chain.
        """
        loop = asyncio.get_running_loop()
        if self._loop not in (None, loop):
            self._tasks, self._calls, self._timer, self._chain = {}, {}, None, None
            self.wanted.clear()
            self._unlink()
            self.session.broken_off(False, self.now())
        self._loop = loop
        self._chain = self._chain or asyncio.Lock()
        return self._chain

    async def close(self) -> None:
        """Closes the connection, and ends all calls."""
        if os.getpid() != self._process:
            return  # the connection is the other process's
        self.join()
        if self._timer:
            self._timer.cancel()
        if self._writer or "open" in self._tasks:
            self._drop()
        for asked, (future, _) in self._calls.items():
            if isinstance(asked, Request) and asked.is_sent and not future.done():
                future.set_result(None)  # no answer will be taken for it: it is lost
            elif not future.done():
                future.set_exception(NotReady("the station was closed"))
        tasks, self._tasks = list(self._tasks.values()), {}
        for task in tasks:
            task.cancel()
        await asyncio.gather(*tasks, return_exceptions=True)

    async def wait(self, request: object, timeout: int) -> None:
        """Until the request is over, or the station has synchronized."""
        if os.getpid() != self._process:
            raise RuntimeError("a station belongs to the process that made it: make one in each")
        future = asyncio.get_running_loop().create_future()
        self._calls[request] = future, self.now() + timeout
        try:
            self._turn()
            await future
        finally:
            self._calls.pop(request, None)

    def _turn(self, first: Optional[Callable[[], None]] = None) -> None:
        """Does `first` and all that can be done now, and is called again at the moment at which
        there is more. Whatever raises meanwhile, each call ends in time.
        """
        if self._timer:
            self._timer.cancel()
        until = None
        try:
            if first:
                first()
            until = self._act()
        except BaseException as failure:
            until = self._break_off(failure)
            if not isinstance(failure, Exception):
                raise
        finally:
            ends = self._end(self.now())
            if until is not None:
                ends.append(until)
            if ends:
                self._timer = asyncio.get_running_loop().call_at(min(ends) / 1000, self._turn)

    def _act(self) -> Optional[int]:
        """Does what the session says, until it says to wait or to read. The moment at which there
        is more, if somebody wants it.
        """
        while True:
            now = self.now()
            self._end(now)
            want = self._want(now)
            step = self.session.next(want, now)
            if step.act is Act.OPEN:
                if "open" not in self._tasks:
                    self._tasks["open"] = asyncio.create_task(self._connect())
                return None
            if step.act is Act.CLOSE:
                self._drop()
            elif step.act is Act.WRITE:
                self._write(step.line)
            elif step.act is Act.SEND and self.wanted:
                self._write(self.session.send(self.wanted.popleft(), now))
            else:
                return step.until if want and step.until < NEVER else None

    def _want(self, now: int) -> Want:
        """What somebody waits for, or has waited for until it was cancelled."""
        if self.wanted or any(not isinstance(call, Request) for call in self._calls):
            return Want.SEND
        is_awaited = any(request.deadline > now for request in self.session.outstanding.values())
        return Want.ANSWERS if is_awaited else Want.NOTHING

    def _break_off(self, failure: BaseException) -> int:
        """What raised isn't the connection's, such as a handler of the logger: what is sent is
        lost, and the station goes on with a new connection, after a pause. The moment of that.
        """
        self.failure = failure if isinstance(failure, Exception) else None
        self._unlink()
        now = self.now()
        self.session.broken_off(False, now)
        return now + max(SOON, self.session.delay(now))

    def _end(self, now: int) -> list[int]:
        """Ends the waiting of all that are over by now; the moments at which the others end."""
        ends = []
        for asked, (future, limit) in list(self._calls.items()):
            request = asked if isinstance(asked, Request) else None
            end = request.deadline if request and request.is_sent else limit
            if future.done():
                continue
            if request.is_over(now) if request else self.session.is_ready:
                future.set_result(None)
            elif not request and self.failure:
                future.set_exception(self.failure)
            elif now >= end or (request and self.session.is_skipped(request)):
                why = self.session.why_not(request, self.failure)
                why.__cause__ = self.failure
                future.set_exception(why)
                if request and request in self.wanted:
                    self.wanted.remove(request)
            else:
                ends.append(end)
        self._calls = {asked: it for asked, it in self._calls.items() if not it[0].done()}
        return ends

    async def _connect(self) -> None:
        try:
            first = functools.partial(self._connected, *await self._open())
        except Exception as failure:  # a call of the caller's own may raise any
            first = functools.partial(self._drop, failure)
        self._tasks.pop("open", None)
        self._turn(first)

    def _connected(self, reader: asyncio.StreamReader, writer: Writer) -> None:
        self._writer = writer
        self._tasks["read"] = asyncio.create_task(self._read(reader, writer))
        self.session.opened(self.now())

    async def _read(self, reader: asyncio.StreamReader, writer: Writer) -> None:
        failure: Exception = ConnectionResetError("the connection ended")
        try:
            while data := await reader.read(PIECE):
                if self._writer is not writer:
                    return
                self._turn(functools.partial(self.session.came, data, self.now()))
        except Exception as failed:  # of a stream of the caller's own
            failure = failed
        if self._writer is writer:
            self._turn(functools.partial(self._drop, failure))

    def _write(self, line: bytes) -> None:
        if self._writer:
            try:
                self._writer.write(line)
            except Exception as failure:  # a stream of the caller's own may raise any
                self._drop(failure)

    def _drop(self, failure: Optional[Exception] = None) -> None:
        """The connection is no more."""
        self.failure = failure
        self._unlink()
        self.session.closed(self.now())
        if failure:
            log.info("the connection failed: %s", failure)

    def _unlink(self) -> None:
        """The connection is closed, and nothing is read from it any more."""
        writer, self._writer = self._writer, None
        if reading := self._tasks.pop("read", None):
            if reading is not asyncio.current_task():
                reading.cancel()
        with contextlib.suppress(Exception):  # a stream of the caller's own may raise any
            if writer:
                writer.close()
