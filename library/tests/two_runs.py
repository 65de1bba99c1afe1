"""Runs quickstart.py, the README's example, again and again over one line that holds replies back and outlives the runs:
two_runs.py QUICKSTART COUNT SEED.

Each run is killed at any moment, or ends, and the next one begins at once. The line keeps order, loses lines and repeats one directly behind
it. Each executed request has a reply of its own, so that an answer which is another request's is seen. Beginnings that had the word 6 5 4 3
2 1 0 7 under way are counted apart: there the promise has its premise. The clock is the trial's own, so no run waits.
"""

import contextlib
import io
import random
import runpy
import sys
import types

import geocom

quickstart, count, seed = sys.argv[1], int(sys.argv[2]), int(sys.argv[3])
WORD = [6, 5, 4, 3, 2, 1, 0, 7]


class Killed(BaseException):
    pass


class Line:
    """A line with an instrument at its end, which keeps its last reply and starts anew now and then."""

    def __init__(self, chance):
        self.chance, self.up, self.down, self.kept, self.executed, self.own = chance, [], [], None, 0, {}

    def ids(self):
        return [id for id, _ in self.down] + [id for id, _, _ in self.up]

    def pass_on(self):
        """Something happens on the line, or nothing."""
        way = self.chance.choice([self.up, self.down])
        match self.chance.choices(["reach", "lose", "repeat", "anew"], [80, 6, 6, 2])[0]:
            case "reach":
                if self.up:
                    id, run, procedure = self.up.pop(0)
                    if self.kept is None or self.kept[0] != id:
                        self.executed += 1
                        self.own.setdefault(run, set()).add(self.executed)
                        told = b",%d,1.5,25.125" % self.executed if procedure == 2108 else b""
                        self.kept = (id, b"%%R1P,0,%d:0%b\r\n" % (id, told))
                    self.down.append(self.kept)
            case "lose":
                if way:
                    way.pop(self.chance.randrange(len(way)))
            case "repeat":
                if way:
                    at = self.chance.randrange(len(way))
                    way.insert(at, way[at])
            case "anew":
                self.kept = None


class Port:
    def __init__(self, line, run, life):
        self.line, self.run, self.life, self.timeout = line, run, life, 0

    def write(self, data):
        for text in data.split(b"\r\n"):
            text = text.lstrip(b"\n")
            if text:
                procedure, id = text[5:].split(b":")[0].split(b",")[:2]
                self.line.up.append((int(id), self.run, int(procedure)))

    def read(self, size=1):
        self.life -= 1
        if self.life < 0:
            raise Killed
        for _ in range(self.line.chance.choice([0, 1, 2, 8])):
            self.line.pass_on()
        clock[0] += self.line.chance.choice([0.1, 0.5]) if self.timeout else 0.0
        if self.line.down and self.line.chance.random() < 0.7:
            return self.line.down.pop(0)[1]
        clock[0] += min(self.timeout, self.line.chance.choice([0.5, 0.5, 2.0, self.timeout]))
        return b""

    def close(self):
        pass


clock = [1000.0]
wrong = answers = with_word = wrong_with_word = 0
for place in range(count):
    chance = random.Random(f"{seed} {place}")
    line = Line(chance)
    excused = False
    for run in range(chance.randrange(2, 9)):
        if (found := iter(line.ids())) and all(id in found for id in WORD):
            with_word, excused = with_word + 1, True
        port = Port(line, run, chance.choice([3, 10, 30, 200, 200]))
        sleep = lambda seconds: clock.__setitem__(0, clock[0] + seconds)
        opened = lambda _: geocom.Station(lambda: port, clock=lambda: clock[0], sleep=sleep)
        sys.modules["geocom"], sys.argv = types.SimpleNamespace(Station=opened), ["quickstart.py", "no device", "2.25", "1.625"]
        out = io.StringIO()
        with contextlib.redirect_stdout(out), contextlib.suppress(Killed, geocom.NoValue, geocom.NotReady):
            runpy.run_path(quickstart)
        for told in out.getvalue().splitlines():
            answers += 1
            if int(told.split(" ")[0]) not in line.own.get(run, set()):
                wrong, wrong_with_word = wrong + (not excused), wrong_with_word + excused
print(f"two runs: {count} lines, {answers} answers, {wrong} wrong; {with_word} beginnings with the word under way, {wrong_with_word} wrong by them")
sys.exit(1 if wrong or not answers else 0)
