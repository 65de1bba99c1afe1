"""The simulated instrument of the program `geocom`, in a process of its own, as a port."""

from __future__ import annotations

import os
import select
import subprocess


class Program:
    """The simulated instrument of `geocom exec`: `write`, `read`, `read_until`, `close` and `open`,
    as a serial port has.
    """

    def __init__(self, program: str | os.PathLike[str] = "geocom", timeout: float = 1.0):
        self.timeout = timeout
        self._program = program
        self.open()

    def open(self) -> None:
        """Starts it, anew where it was closed."""
        self._process = subprocess.Popen(
            [self._program, "exec"], stdin=subprocess.PIPE, stdout=subprocess.PIPE, bufsize=0
        )
        assert self._process.stdin is not None and self._process.stdout is not None
        self._input, self._output = self._process.stdin, self._process.stdout

    def write(self, data: bytes) -> int:
        """Writes all of it."""
        left = data
        while left:
            left = left[self._input.write(left) :]
        return len(data)

    def read(self, size: int = 256) -> bytes:
        """What came, at most so many bytes; nothing where nothing comes within the timeout."""
        ready, _, _ = select.select([self._output], [], [], self.timeout)
        return os.read(self._output.fileno(), size) if ready else b""

    def read_until(self, expected: bytes = b"\n") -> bytes:
        """What came through the first line feed, or as far as it came within the timeout."""
        came = b""
        while not came.endswith(expected) and (more := self.read(1)):
            came += more
        return came

    def close(self) -> None:
        """Ends it."""
        self._input.close()
        self._output.close()
        self._process.wait()

    def __enter__(self) -> Program:
        return self

    def __exit__(self, *_: object) -> None:
        self.close()
