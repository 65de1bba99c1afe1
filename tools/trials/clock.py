"""A wall clock that a trial sets, of the programs alone that it begins with `environment`. It wants a compiler of C.

    python3 clock.py FOLDER             lays the library and the clock into a folder, and prints the variables of the environment
    python3 clock.py FOLDER SECONDS     sets that clock on by so many seconds, or back
"""

import datetime
import mmap
import os
import struct
import subprocess
import sys
import time
from pathlib import Path

SOURCE = Path(__file__).resolve().with_name("clock.c")


class Clock:
    """The clock in a folder: how far it is ahead of the system's stands in a file that all these programs look at."""

    def __init__(self, folder):
        self.library, self.file = Path(folder, "clock.so"), Path(folder, "clock")
        if not self.library.exists():
            subprocess.run(["cc", "-shared", "-fPIC", "-O2", "-Wall", "-Wextra", "-Werror", "-o", self.library, SOURCE], check=True)
            self.file.write_bytes(bytes(8))
        with open(self.file, "r+b") as file:
            self.ahead = mmap.mmap(file.fileno(), 8)
        self.environment = {"LD_PRELOAD": str(self.library), "TRIAL_CLOCK": str(self.file)}

    def seconds_ahead(self):
        return struct.unpack("=q", self.ahead[:])[0] / 1e9

    def step(self, seconds):
        """Sets it on by so many seconds, or back, in one step."""
        self.ahead[:] = struct.pack("=q", struct.unpack("=q", self.ahead[:])[0] + round(seconds * 1e9))

    def set(self, moment):
        """Sets it to a moment."""
        self.step(moment.timestamp() - self.now().timestamp())

    def now(self):
        return datetime.datetime.fromtimestamp(time.time() + self.seconds_ahead(), datetime.timezone.utc)


if __name__ == "__main__":
    clock = Clock(sys.argv[1])
    if sys.argv[2:]:
        clock.step(float(sys.argv[2]))
    else:
        print(" ".join(f"{name}={os.path.abspath(value)}" for name, value in clock.environment.items()))
