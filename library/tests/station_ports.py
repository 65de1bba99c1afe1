"""A line in memory as a port of `geocom.Station`, and as the streams of `geocom.aio.Station`, with clocks that go on at once."""

import asyncio


class Clock:
    now = 1000.0

    def __call__(self):
        return self.now

    def sleep(self, seconds):
        assert seconds >= 0
        self.now += seconds


class Port:
    """The line as a port of `geocom.Station`."""

    def __init__(self, line, clock):
        self.line, self.clock, self.timeout = line, clock, 0.0
        line.open(clock.now)

    def write(self, data):
        if self.line.odd(0.3):
            self.line.cut += data[: len(data) // 2]
            raise OSError("cut")
        self.line.write(data, self.clock.now)

    @property
    def in_waiting(self):
        return 0

    def read(self, size=1):
        """A piece. (It gives more than `size`, which does no harm: the station hears all that it is given.)"""
        if self.line.odd(0.2):
            raise OSError("ended")
        end = self.clock.now + self.timeout
        while True:
            if data := self.line.take(self.clock.now):
                return data
            at = self.line.next_at(self.clock.now)
            if at is None or at > end:
                self.clock.now = max(self.clock.now, end)
                return b""
            self.clock.now = max(self.clock.now, at)

    def close(self):
        pass


class Loop(asyncio.SelectorEventLoop):
    """A loop whose time goes on at once where nothing else is to be done."""

    def __init__(self):
        super().__init__()
        self.now = 1000.0
        select = self._selector.select

        def at_once(timeout):
            if timeout:
                self.now += timeout
            return select(0)

        self._selector.select = at_once

    def time(self):
        return self.now


class Wire:
    """The line as the streams of `geocom.aio.Station`."""

    def __init__(self, line, loop):
        self.line, self.loop, self.reader, self.is_over, self.timer = line, loop, asyncio.StreamReader(), False, None
        line.open(loop.time())
        self.pump()

    def end(self, failure=None):
        if not self.is_over:
            self.is_over = True
            self.reader.set_exception(failure) if failure else self.reader.feed_eof()

    def pump(self):
        if self.timer:
            self.timer.cancel()
        if self.is_over:
            return
        if self.line.odd(0.2):
            self.end(OSError("ended") if self.line.chance.random() < 0.5 else None)
            return
        while data := self.line.take(self.loop.time()):
            self.reader.feed_data(data)
        if (at := self.line.next_at(self.loop.time())) is not None:
            self.timer = self.loop.call_at(max(at, self.loop.time()), self.pump)

    def write(self, data):
        if not self.is_over:
            self.line.write(data, self.loop.time())
            self.pump()

    def close(self):
        self.end()
        if self.timer:
            self.timer.cancel()
