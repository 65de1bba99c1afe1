"""An instrument that points: it turns, aims and measures by itself, and restarts or is turned within a chain, while its connection
stays up; and what a station's rows say of where each measurement was made."""

import math
import random

from measuring import finished, measuring

# Where the prisms stand, as horizontal direction and vertical angle, and where the instrument points once it started: near the third.
PRISMS = {1: (0.5, 1.5), 2: (2.25, 1.625), 3: (6.25, 1.5625)}
START = (0.0, 1.5707)
TOLERANCE = 0.02
# How far from a prism a measurement still meets it, and how much its angles vary.
SIGHT, NOISE = 0.005, 2e-5
TURN = 2 * math.pi
DIRECTIONS = ["2107", "17017"]


def apart(one, other):
    """How far two directions are from each other, on the circle, whichever face the first is of."""
    hz, v = one if one[1] <= math.pi else (one[0] - math.pi, TURN - one[1])
    return max(abs((hz - other[0] + math.pi) % TURN - math.pi), abs(v - other[1]))


def text(is_near):
    """The commands of a station: each prism is turned to, aimed at, measured and read, in a chain."""
    lines = ["chained", "deadline 5000"]
    for target, (hz, v) in PRISMS.items():
        lines += [f"near {target} {hz} {v} {TOLERANCE}"] if is_near else []
        lines += [f"{target} 9027 {hz},{v},0,0,0", f"{target} 9037 0.1,0.1,0", f"{target} 17017 2", f"{target} 2107 0"]
    return ("\n".join(lines) + "\n").encode()


class Telescope:
    """What answers each request. Before one request in so many it restarts, or is turned to somewhere else, by `moves`."""

    def __init__(self, seed, moves, one_in):
        self.chance = random.Random(seed)
        self.moves, self.one_in = moves, one_in
        self.pointing, self.face, self.moved = START, 1, 0

    def answer(self, request):
        if self.chance.randrange(self.one_in) == 0:
            self.moved += 1
            self.pointing = START if self.moves == "anew" else self.chance.choice([*PRISMS.values(), (self.chance.uniform(0, TURN), 1.6)])
        return request.reply(self.execute(request))

    def execute(self, request):
        numbers = [float(item) for item in request.params.split(b",") if item]
        if request.rpc == 9027:
            self.pointing, self.face = (numbers[0], numbers[1]), self.chance.choice([1, 2])
        elif request.rpc == 9037:
            seen = [prism for prism in PRISMS.values() if apart(self.pointing, prism) <= numbers[0]]
            if not seen:
                return b"8710"
            self.pointing = min(seen, key=lambda prism: apart(self.pointing, prism))
        elif request.rpc == 17017:
            if all(apart(self.pointing, prism) > SIGHT for prism in PRISMS.values()):
                return b"1285"
            return b"0,%.9f,%.9f,25.125,2" % self.read()
        elif request.rpc == 2107:
            return b"0,%.9f,%.9f" % self.read()
        return b"0"

    def read(self):
        """The angles that it shows, in the face that it has."""
        hz, v = (angle + self.chance.gauss(0, NOISE) for angle in self.pointing)
        return (hz % TURN, v) if self.face == 1 else ((hz + math.pi) % TURN, TURN - v)


def point(program, standing, moves, is_near, cycles):
    """Measures so many cycles. How many answers of a target were measured off target and reported as answered, and what there was of each."""
    telescope = Telescope(f"{moves} {is_near}", moves, 60)
    with standing(telescope.answer) as far:
        with measuring(program, far.port, f"--deadline 5000 --cycles {cycles}", text(is_near)) as run:
            rows, _ = finished(run, patience=600)
    measured = [row for row in rows if row["procedure"] in DIRECTIONS and row["rc"] == "0"]
    away = [row for row in measured if apart(tuple(map(float, row["values"].split(",")[:2])), PRISMS[int(row["target"])]) > TOLERANCE]
    wrong = [row for row in away if row["outcome"] == "answered"]
    # What is off target is reported of nothing else, and ends its chain.
    told = [row for row in rows if row["outcome"] == "off_target"]
    assert len(rows) == cycles * 12 and len(told) + len(wrong) == len(away), (len(rows), len(told), len(wrong), len(away))
    for row, behind in zip(rows, rows[1:]):
        if row["outcome"] == "off_target" and behind["target"] == row["target"] and behind["cycle"] == row["cycle"]:
            assert behind["outcome"] == "skipped", (row, behind)
    return telescope.moved, len(measured), len(wrong), len(told)
