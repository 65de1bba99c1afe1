"""A station over an instrument that answers as it is told, and a clock of the trial's own, for `station_cases.py` and `station_troubles.py`."""

import geocom
from station_ports import Clock


class Scripted:
    """A port whose instrument answers as it is told: to a procedure's number what stands behind the colon, or nothing. It keeps which
    procedures were written, with which ids."""

    def __init__(self, answers, clock):
        self.answers, self.clock, self.timeout, self.came, self.is_ended = answers, clock, 0.0, b"", False
        self.written, self.ids = [], []

    def write(self, data):
        for line in data.split(b"\r\n"):
            if line := line.lstrip(b"\n"):
                head, _, _ = line.partition(b":")
                procedure, id = head[5:].split(b",")
                self.written.append(int(procedure))
                self.ids.append(int(id))
                answer = self.answers.get(int(procedure), b"0")
                if isinstance(answer, list):
                    answer = answer.pop(0) if answer else None
                if answer is not None:
                    com, _, rest = answer.rpartition(b"|")
                    self.came += b"%%R1P,%s,%s:%s\r\n" % (com or b"0", id, rest)

    def read(self, size=1):
        if self.is_ended:
            raise OSError("ended")
        data, self.came = self.came, b""
        if not data:
            self.clock.now += self.timeout
        return data

    def open(self):
        self.is_ended = False

    def close(self):
        self.is_ended = True


def scripted(answers=None, **options):
    clock = Clock()
    port = Scripted(answers or {}, clock)
    return port, geocom.Station(port, clock=clock, sleep=clock.sleep, **options)


def raised(kind, call, *words, **options):
    try:
        call(*words, **options)
    except kind as it:
        return it
    raise AssertionError(f"{kind.__name__} was not raised")
