"""Random schedules with raw requests among those of the table, over a bad line: raw_schedules.py PROGRAM COUNT SEED STEPS EXPECTED.

The client is the library's. What it settles is compared with its rule, which stands here once more, and of each answer it is known
for which request the instrument made it. Of the instruments one keeps its reply to each very request, and one keeps none. Two keep
their reply over raw requests, the second of which looks at a request's id before its procedure: it sends its reply again to a raw
request, too. The fifth is `geocom exec`, which knows none of them. These three are asked by the rule of geocom.h: one of the seven
requests before each is an answered one of the table. The two are asked without it, too: then answers have to be wrong, or the trial
shows nothing. What the client was told, and what it told, is written to two files, for another language's client to do again.
"""

import collections
import random
import re
import sys

import geocom

REPLY = re.compile(rb"%R1P,(\d{1,5})(?:,([0-7]))?:(\d{1,5})(?:,(.*))?", re.S)
ANSWERS = b"".join(b"%%R1P,0,%d:0\r\n" % id for id in (6, 5, 4, 3, 2, 1, 0, 7))
TABLE = ["5003", "5003", "0"]
RAWS = ["2167 2,1", "2028", "18005 1", '65535  "a,b" , ,', "1 x"]


class Request:
    def __init__(self, id, target, procedure, params, is_raw, deadline):
        self.id, self.target, self.procedure, self.params, self.is_raw, self.deadline = id, target, procedure, params, is_raw, deadline
        self.is_timed_out = self.is_dropped = self.is_ended = False

    def line(self):
        return f"%R1Q,{self.procedure},{self.id}:{self.params}\r\n".encode("latin-1")


def split(params):
    """The items of parameters, or the fault: commas outside quotes part them, and spaces round them don't count."""
    if params.count('"') % 2:
        return 13
    if not params.strip(" "):
        return []
    items, quoted = [""], False
    for byte in params:
        quoted ^= byte == '"'
        if byte == "," and not quoted:
            items.append("")
        else:
            items[-1] += byte
    return 14 if len(items) > 16 else [item.strip(" ") for item in items]


class Rule:
    """The client once more: ids from 0 on, and a reply settles the request that waits with its id, and those before it as lost."""

    def __init__(self):
        self.outstanding, self.next = [], 0

    def send(self, target, procedure, params, is_raw, deadline):
        if len(self.outstanding) == geocom.WINDOW:
            return None
        request = Request(self.next, target, procedure, params, is_raw, deadline)
        self.outstanding.append(request)
        self.next = (self.next + 1) % 8
        return request

    def hear(self, line):
        """The requests that a line settles, each with its text."""
        reply = REPLY.fullmatch(line)
        if not reply or reply[2] is None:
            return []
        place = next((k for k, request in enumerate(self.outstanding) if request.id == int(reply[2])), None)
        if place is None:
            return []
        settled, self.outstanding = self.outstanding[: place + 1], self.outstanding[place + 1 :]
        return [(request, self.told(request, "lost")) for request in settled[:-1]] + [(settled[-1], self.met(settled[-1], line, reply))]

    def met(self, request, line, reply):
        request.is_ended = True
        if request.is_timed_out:
            return self.told(request, "late")
        items, com, code = [], int(reply[1]), int(reply[3])
        if com:
            reading, code = 3, com
        elif code:
            reading = 2
        else:
            items = split((reply[4] or b"").decode("latin-1"))
            if isinstance(items, list) and not request.is_raw and len(items) != (request.procedure == 5003):
                items = 15
            reading, code, items = (1, 0, items) if isinstance(items, list) else (4, items, [])
        return self.told(request, "answered", f"{reading} {code} {line.decode('latin-1')}", items)

    def told(self, request, outcome, reading="0 0 ", items=()):
        return f" [{request.target} {request.procedure} {outcome} {reading}" + "".join(f" <{item}>" for item in items) + "]"

    def expire(self, now):
        due = [request for request in self.outstanding if request.deadline <= now and not request.is_timed_out]
        for request in due:
            request.is_timed_out = True
        return "".join(f" {request.target}" for request in due)

    def restart(self):
        lost, self.outstanding, self.next = self.outstanding, [], 0
        return "".join(self.told(request, "lost") for request in lost)


class Keeping:
    """An instrument that makes a line of its own for each request that it executes. `None` is what it keeps at its start."""

    def __init__(self, way):
        self.way, self.kept, self.executed = way, None, 0

    def synchronize(self):
        self.kept = (7, b"%R1P,0,7:0", None) if self.way != "none" else None

    def hand(self, request):
        """The line that it sends for a request, and the request for which that was made."""
        over = self.way in ("over", "first")
        if self.kept and self.kept[0] == request.id and not (self.way == "over" and request.is_raw):
            return self.kept[1:]
        self.executed += 1
        values = ["", f"{self.executed}", f' {self.executed} , "{request.procedure},"', f'"{self.executed}']
        text = values[self.executed % 4] if request.is_raw else str(self.executed) if request.procedure else ""
        code = 1285 if request.is_raw and self.executed % 5 == 0 else 0
        line = f"%R1P,0,{request.id}:{code}".encode() + (b"," + text.encode() if text else b"")
        if self.way != "none" and not (over and request.is_raw):
            self.kept = (request.id, line, request)
        return line, request

    def start(self):
        self.kept = None

    def close(self):
        pass


class Program:
    """`geocom exec`: which request its line is for isn't known, but that a raw one is unknown to it."""

    way = "exec"

    def __init__(self, program):
        self.program, self.instrument = program, geocom.Program(program, timeout=5)

    def start(self):
        self.instrument.close()
        self.instrument = geocom.Program(self.program, timeout=5)

    def synchronize(self):
        for id in (6, 5, 4, 3, 2, 1, 0, 7):
            self.line(b"%%R1Q,0,%d:\r\n" % id)

    def line(self, request):
        self.instrument.write(request)
        reply = self.instrument.read_until()
        if not reply.endswith(b"\n"):
            raise SystemExit("raw schedules: the instrument doesn't answer")
        return reply[:-2]

    def hand(self, request):
        line = self.line(request.line())
        return line, request if not request.is_raw or line.startswith(b"%R1P,3081,") else None

    def close(self):
        self.instrument.close()


class World:
    def __init__(self, instrument, has_rule, chance, steps, expected):
        self.instrument, self.has_rule, self.chance, self.steps, self.expected = instrument, has_rule, chance, steps, expected
        self.client, self.rule = geocom.Client(), Rule()
        self.up, self.down, self.sent, self.counts = [], [], [], collections.Counter()
        self.client.synchronize(ANSWERS)
        instrument.synchronize()
        self.step("init 7", "")

    def step(self, step, text):
        print(step, file=self.steps)
        print(f"{text}; {self.client.outstanding} wait", file=self.expected)

    def same(self, want, have):
        if want != have:
            raise SystemExit(f"raw schedules: {self.instrument.way}: the rule has\n{want}\nand the library\n{have}")

    def is_behind_the_table(self):
        """Whether one of the seven requests before the next one is an answered one of the table; the eighth null procedure is one."""
        return len(self.sent) < 7 or any(request.is_ended and not request.is_raw for request in self.sent[-7:])

    def send(self, target, deadline, text):
        procedure, _, params = text.partition(" ")
        is_raw, is_dropped = text in RAWS, False
        if self.has_rule and not self.is_behind_the_table():
            if any(not request.is_timed_out for request in self.rule.outstanding):
                return
            procedure, params, is_raw, is_dropped = "0", "", False, True
        request = self.rule.send(target, int(procedure), params, is_raw, deadline)
        try:
            if is_raw:
                line = self.client.send_raw(int(procedure), params, target=target, deadline=deadline)
            else:
                line = self.client.send(target, deadline, int(procedure), params)
            self.same(request.line() if request else None, line)
            told = " " + line.decode("latin-1")[:-2]
            request.is_dropped = is_dropped
            self.sent.append(request)
            self.up.append(request)
        except geocom.WindowFull:
            self.same(None, request)
            told = " fault 31"
        self.step(f"{'raw' if is_raw else 'send'} {target} {deadline} {procedure}" + (f" {params}" if params else ""), told)

    def come(self):
        """The front reply comes, in pieces; whose it is has to be what it settles."""
        line, owner = self.down.pop(0)
        settled, data, had = self.rule.hear(line), line + b"\r\n", []
        for request, _ in settled[-1:]:
            if request.is_timed_out or request.is_dropped:
                continue
            self.counts["answers"] += 1
            self.counts["raw answers"] += request.is_raw
            self.counts["wrong"] += owner is not request
        left = data
        while left:
            cut = self.chance.choice([1, 3, 10, 600])
            had += self.client.feed(left[:cut])
            left = left[cut:]
        told = "".join(
            f" [{s.target} {s.procedure} {s.outcome} {int(s.reading)} {s.code} {s.line or ''}" + "".join(f" <{i}>" for i in s.items) + "]"
            for s in had
        )
        self.same("".join(text for _, text in settled), told)
        self.step("hex " + data.hex(), told)

    def example(self):
        """A call of the table, seven raw requests and a call of the table, each answered before the next one is sent."""
        for text in ["5003"] + ["2167 2,1"] * 7 + ["5003"]:
            self.send(1, 1_000_000, text)
            while self.up:
                self.down.append(self.instrument.hand(self.up.pop(0)))
            while self.down:
                self.come()

    def play(self, clock):
        way = self.chance.choice([self.up, self.down])
        match self.chance.choices(["send", "reach", "come", "lose", "repeat", "expire", "start", "restart"], [30, 30, 30, 5, 5, 8, 2, 4])[0]:
            case "send":
                calls = RAWS if self.chance.random() < 0.85 else TABLE
                self.send(self.chance.randrange(100), clock + self.chance.randrange(1, 40), self.chance.choice(calls))
            case "reach" if self.up:
                self.down.append(self.instrument.hand(self.up.pop(0)))
            case "come" if self.down:
                self.come()
            case "lose" if way:
                way.pop(self.chance.randrange(len(way)))
            case "repeat" if way:
                at = self.chance.randrange(len(way))
                way.insert(at, way[at])
            case "expire":
                told = "".join(f" {target}" for target in self.client.expire(clock))
                self.same(self.rule.expire(clock), told)
                self.step(f"expire {clock}", told)
            case "start":
                self.instrument.start()
            case "restart" if not self.up and not self.down:
                told = "".join(f" [{s.target} {s.procedure} {s.outcome} 0 0 ]" for s in self.client.restart())
                self.same(self.rule.restart(), told)
                self.client.synchronize(ANSWERS)
                self.instrument.synchronize()
                self.sent = []
                self.step("restart", told)


def main():
    program, count, seed = sys.argv[1], int(sys.argv[2]), int(sys.argv[3])
    ways = [("own", False), ("none", False), ("over", True), ("first", True), ("exec", True), ("over", False), ("first", False)]
    totals = {way: collections.Counter() for way in ways}
    with open(sys.argv[4], "w") as steps, open(sys.argv[5], "w") as expected:
        for place in range(count):
            way, has_rule = ways[place % len(ways)]
            chance = random.Random(f"{seed} {place}")
            instrument = Program(program) if way == "exec" else Keeping(way)
            world, clock = World(instrument, has_rule, chance, steps, expected), 10
            if place < len(ways):
                world.example()
            for _ in range(chance.randrange(5, 300)):
                clock += chance.randrange(6)
                world.play(clock)
            instrument.close()
            totals[way, has_rule].update(world.counts)
    for (way, has_rule), counts in totals.items():
        told = f"{counts['answers']} answers, {counts['raw answers']} of them raw, {counts['wrong']} wrong"
        print(f"raw schedules: {way}, {'by the rule' if has_rule else 'without the rule'}: {told}")
        needs_rule = way in ("over", "first") and not has_rule
        if not counts["raw answers"] or (counts["wrong"] > 0) != needs_rule:
            raise SystemExit("raw schedules: an answer is another request's" if counts["wrong"] else "raw schedules: they show nothing")


main()
