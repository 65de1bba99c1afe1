"""Random schedules, run by `geocom drill` and by the library: schedules.py PROGRAM COUNT SEED STEPS EXPECTED.

A schedule's line stands here in Python, its client is the library's, and its instrument is `geocom exec`: each request that
arrives is written to that program, and its reply goes back. The settlements have to be those that `geocom drill` tells. What
the client was told, and what it told, is written to two files, for another language's client to do again.
"""

import random
import subprocess
import sys

import geocom

CALLS = ["0", "5003", "5004", "110", "5008", "2011", "2012 1.65", "2012 0.0", "2008 1,1", "2108 5000,1", "2107 1", "2026",
         "9027 2.25,1.625,0,0,0", "9027 1.0,1.0,0,0,0", "9028 0,0,0", "17017 1", "2010 1.0,2.0,3.0,1.5", "2009"]


class Queue:
    """Lines under way, of which some first bytes of the front one may have gone."""

    def __init__(self):
        self.lines, self.gone = [], 0

    def take(self, count):
        taken = b""
        while self.lines and count > 0:
            part = self.lines[0][self.gone : self.gone + count]
            taken, count, self.gone = taken + part, count - len(part), self.gone + len(part)
            if self.gone == len(self.lines[0]):
                self.lines.pop(0)
                self.gone = 0
        return taken

    def deliver(self):
        return self.take(len(self.lines[0]) - self.gone) if self.lines else b""

    def may(self, k):
        return k < len(self.lines) and not (k == 0 and self.gone)

    def lose(self, k):
        if self.may(k):
            self.lines.pop(k)

    def repeat(self, k):
        if self.may(k):
            self.lines.insert(k + 1, self.lines[k])


ANSWERS = b"".join(b"%%R1P,0,%d:0\r\n" % id for id in (6, 5, 4, 3, 2, 1, 0, 7))


class World:
    def __init__(self, program, steps, expected):
        self.program, self.steps, self.expected = program, steps, expected
        self.client, self.instrument = geocom.Client(), geocom.Program(program, timeout=5)
        self.client.synchronize(ANSWERS)
        self.up, self.down, self.cut, self.settled = Queue(), Queue(), b"", []
        self.step("init 7", None)

    def step(self, step, text):
        print(step, file=self.steps)
        print(f"{text or ''}; {self.client.outstanding} wait", file=self.expected)

    def tell(self, settlements):
        for s in settlements:
            self.settled.append(f"{len(self.settled)} {s.target} {s.outcome}" + (f" {s.line}" if s.line else ""))
        return "".join(
            f" [{s.target} {s.procedure} {s.outcome} {int(s.reading)} {s.code} {s.line or ''}" + "".join(f" <{i}>" for i in s.items) + "]"
            for s in settlements
        )

    def arrive(self, data):
        """Bytes reach the instrument; each line that they complete is answered."""
        self.cut += data
        while b"\n" in self.cut:
            line, self.cut = self.cut.split(b"\n", 1)
            self.instrument.write(line + b"\n")
            reply = b""
            while not reply.endswith(b"\n"):
                more = self.instrument.read(4096)
                if not more:
                    raise SystemExit("schedules: the instrument doesn't answer")
                reply += more
            self.down.lines.append(reply)

    def hear(self, data):
        if data:
            self.step("hex " + data.hex(), self.tell(self.client.feed(data)))

    def play(self, event):
        words = event.split(" ", 4)
        match words[0]:
            case "send":
                target, deadline, procedure, params = int(words[1]), int(words[2]), int(words[3]), "".join(words[4:])
                try:
                    line = self.client.send(target, deadline, procedure, params)
                    self.up.lines.append(line)
                    text = " " + line.decode("ascii")[:-2]
                except geocom.WindowFull:
                    text = " fault 31"
                self.step(event, text)
            case "expire":
                self.step(event, "".join(f" {t}" for t in self.client.expire(int(words[1]))))
            case "restart":
                if not self.up.lines and not self.down.lines:
                    if words[1] == "client":
                        told = self.tell(self.client.restart())
                        self.client.synchronize(ANSWERS)
                        self.step("restart", told)
                    self.instrument.close()
                    self.instrument = geocom.Program(self.program, timeout=5)
            case way:
                queue, take = (self.up, self.arrive) if way == "up" else (self.down, self.hear)
                match words[1]:
                    case "deliver":
                        take(queue.deliver())
                    case "bytes":
                        take(queue.take(int(words[2])))
                    case "lose":
                        queue.lose(int(words[2]))
                    case "repeat":
                        queue.repeat(int(words[2]))


def event(chance, clock):
    way = chance.choice(["up", "down", "down"])
    match chance.choices(["send", "deliver", "bytes", "lose", "repeat", "expire", "restart"], [30, 30, 14, 6, 6, 10, 4])[0]:
        case "send":
            return f"send {chance.randrange(100)} {clock + chance.randrange(1, 40)} {chance.choice(CALLS)}"
        case "deliver":
            return f"{way} deliver"
        case "bytes":
            return f"{way} bytes {chance.choice([0, 1, 3, 10, 20, 50, 200])}"
        case "expire":
            return f"expire {clock + chance.choice([0, 0, 5, -5])}"
        case "restart":
            return f"restart {chance.choice(['client', 'client', 'instrument'])}"
        case name:
            return f"{way} {name} {chance.randrange(3)}"


def main():
    program, count, seed = sys.argv[1], int(sys.argv[2]), int(sys.argv[3])
    told = 0
    with open(sys.argv[4], "w") as steps, open(sys.argv[5], "w") as expected:
        for place in range(count):
            chance = random.Random(f"{seed} {place}")
            events, clock = [], 10
            for _ in range(chance.randrange(5, 80)):
                clock += chance.randrange(6)
                events.append(event(chance, max(clock, 5)))
            text = "".join(e + "\n" for e in events)
            drilled = subprocess.run([program, "drill"], input=text.encode(), capture_output=True, check=True).stdout.decode("ascii")
            world = World(program, steps, expected)
            for e in events:
                world.play(e)
            world.instrument.close()
            if drilled != "".join(line + "\n" for line in world.settled):
                raise SystemExit(f"schedules: number {place} differs:\n{text}drill:\n{drilled}library:\n" + "\n".join(world.settled))
            told += len(world.settled)
    print(f"random schedules: {count}, {told} settlements, those of drill")


main()
