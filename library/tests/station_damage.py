"""One damaged reply makes one wrong answer at most: station_damage.py COUNT SEED, random lines, of which one in seven has each width.

A session (`geocom.asked`) asks over a line in memory, with a clock of the trial's own. The line keeps order, delays, and damages
one reply, which gets another id; the instrument answers each request once. Each request has a number of its own, which its answer has. The
damaged reply makes one answer at most another request's, no more than six requests wait at a time, and the first one follows a null procedure
of the client that has synchronized.
"""

import collections
import random
import re
import sys

from geocom import Outcome
from geocom.asked import Asked
from geocom.session import Act, Want
from geocom.settlement import Request

ASKED, RAW, NULL = 2107, 2167, 0
REQUEST = re.compile(rb"%R1Q,(\d+),([0-7]):(.*)\r\n")


class Line:
    """A line with an instrument at its end, whose reply of this place gets another id. Moments are milliseconds."""

    def __init__(self, chance, place, step):
        self.chance, self.place, self.step = chance, place, step
        self.slow = chance.choice([10, 500, 9000])
        self.replies, self.free, self.count, self.ids = [], 0, 0, []

    def write(self, data, now):
        if not (found := REQUEST.fullmatch(data)):
            return  # a line feed
        procedure, id, params = int(found[1]), int(found[2]), found[3]
        self.ids.append((procedure, id))
        self.free = max(self.free, now + self.chance.choice([0, 10, self.slow]))
        if self.count == self.place:
            id = (id + self.step) % 8
        self.count += 1
        told = b",%s.0,0.5" % params if params else b""
        self.replies.append((self.free, b"%%R1P,0,%d:0%s\r\n" % (id, told)))

    def read(self, now, until):
        """What has come, one reply or several, and the moment; nothing at the end of the time."""
        if not self.replies or self.replies[0][0] > until:
            return b"", until
        now = max(now, self.replies[0][0])
        data = self.replies.pop(0)[1]
        while self.replies and self.replies[0][0] <= now and self.chance.random() < 0.5:
            data += self.replies.pop(0)[1]
        return data, now


def play(chance, width, count):
    """Asks so many requests, and says what came of it: how many answers were another request's, and the line."""
    line = Line(chance, chance.randrange(8 + count), chance.randrange(1, 8))
    asked, now, most = Asked(width, 10_000, 0), 1000, 0
    patience = chance.choice([[20], [20, 600, 10_000], [10_000]])
    raws = chance.choice([0.0, 0.5, 0.9])
    requests = []
    for number in range(count):
        is_raw = chance.random() < raws
        requests.append(Request(RAW if is_raw else ASKED, str(number), number, chance.choice(patience), is_raw))
    wanted = collections.deque(requests)
    while now < 10_000_000 and (wanted or any(each.deadline > now for each in asked.outstanding.values())):
        step = asked.next(Want.SEND if wanted else Want.ANSWERS, now)
        if step.act is Act.OPEN:
            asked.opened(now)
        elif step.act is Act.CLOSE:
            asked.closed(now)
        elif step.act is Act.WAIT:
            now = step.until
        elif step.act in (Act.WRITE, Act.SEND):
            line.write(step.line if step.act is Act.WRITE else asked.send(wanted.popleft(), now), now)
            most = max(most, asked._state.client.outstanding)
        else:
            data, now = line.read(now, max(now, step.until))
            if data:
                asked.came(data, now)
    ends = [each.settlement for each in requests if each.settlement]
    answered = [each for each in ends if each.outcome is Outcome.ANSWERED and each.items]
    return sum(int(float(each.items[0])) != each.target for each in answered), len(answered), most, line.ids


def main():
    count, seed = int(sys.argv[1]), sys.argv[2]
    answered = harmed = failed = 0
    for place in range(count):
        chance = random.Random(f"{seed} {place}")
        width = place % 7 + 1
        wrong, right, most, ids = play(chance, width, 30)
        first = [procedure != NULL for procedure, _ in ids].index(True)
        if wrong > 1 or most > 6 or ids[first - 1] != (NULL, ids[first][1] - 1):
            failed += 1
            print(f"station damage: number {place}, width {width}: {wrong} wrong answers, {most} waited, {ids[first - 1 : first + 1]}", file=sys.stderr)
        answered, harmed = answered + right, harmed + wrong
    print(f"station damage: {count} lines with a damaged reply: {answered} answered, {harmed} of them wrong; {failed} lines not so")
    sys.exit(1 if failed or not harmed else 0)


main()
