"""Whether each row came in time: `docs/GUARANTEE.md`, "Outages", has the bound. When rows came is seen from outside, as a file of them grows:
the `time` of a missed row is when its cycle was due."""

import threading
import time

from records import is_of_setup, moment


def bound(every, longest, setup=0, call=0.0):
    """BOUND in seconds, without readings of the clock: `longest` is the longest deadline, `setup` has so many commands, and `call` is what
    an opening, a write or a read takes."""
    return 2 * every + (1 + setup) * longest + call


class Arrivals:
    """Looks at a file of rows with a header, and knows of each row when it was complete, in seconds since 1970."""

    def __init__(self, path, rest=0.01):
        self.path, self.rest, self.moments = path, rest, []
        self.ending = threading.Event()
        self.thread = threading.Thread(target=self.look, daemon=True)

    def __enter__(self):
        self.thread.start()
        return self

    def __exit__(self, *_):
        self.ending.set()
        self.thread.join()

    def look(self):
        while not self.path.exists():
            if self.ending.wait(self.rest):
                return
        lines = -1
        with open(self.path, "rb", buffering=0) as file:
            while True:
                is_last = self.ending.wait(self.rest)
                now = time.time()
                while data := file.read(1 << 16):
                    count = data.count(b"\n")
                    self.moments += [now] * (count - (lines < 0 < count))
                    lines += count
                if is_last:
                    return


def first_due(rows, every):
    """When the first cycle of these rows' run was due: no command is sent before its cycle is, and a missed row says when it was."""
    known = [(int(row["cycle"]), row["time"] if row["outcome"] == "missed" else row["sent"]) for row in rows if not is_of_setup(row)]
    return min(moment(text).timestamp() - (cycle - 1) * every for cycle, text in known if text)


def latest(rows, moments, every):
    """How long after its cycle was due the latest row came, in seconds, and that row. The rows are those of one run, in order."""
    first = first_due(rows, every)
    return max(((came - first - (int(row["cycle"]) - 1) * every, row) for row, came in zip(rows, moments, strict=True) if not is_of_setup(row)),
               key=lambda each: each[0])


def due_by(rows, every, until):
    """How many cycles were due by a moment, in seconds since 1970."""
    return int((until - first_due(rows, every)) // every) + 1


def missing(rows, commands, cycles):
    """Those of so many cycles that haven't a row of each command."""
    places = {}
    for row in rows:
        places.setdefault(int(row["cycle"]), set()).add(int(row["step"]))
    return [cycle for cycle in range(1, cycles + 1) if places.get(cycle) != set(range(commands))]
