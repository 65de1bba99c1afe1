"""What `station_schedules.py` asked, and whether each end of it is right."""

import collections
import itertools
import sys

from geocom import Outcome, Reading
from station_line import ASKED


class Judge:
    """What was asked, and whether each end is right."""

    def __init__(self, line, totals):
        self.line, self.totals, self.numbers = line, totals, itertools.count(1)
        self.not_sent, self.answered, self.ends = [], [], collections.Counter()

    def wrong(self, what):
        self.totals["wrong"] += 1
        print(f"station schedules: {what}", file=sys.stderr)

    def ended(self, number, settlement, now, end):
        self.ends[number] += 1
        if now > end + 0.002:
            self.wrong(f"request {number} ended {now - end} s behind its end")
        self.totals[str(settlement.outcome)] += 1
        if settlement.target != number:
            self.wrong(f"request {number} has the settlement of {settlement.target}")
        if settlement.outcome == Outcome.ANSWERED:
            self.answered.append(number)
            self.totals["accepted"] += settlement.code == 1285 and settlement.procedure == ASKED
            said = None
            if settlement.reading == Reading.VALUE:
                said = int(float(settlement.items[0].strip('"')))
            elif settlement.code == 1285 and settlement.procedure == ASKED:
                said = int(settlement.value(accept=(1285,)).hz_rad)
            elif settlement.code != 1285:
                said = settlement.line
            if said not in (None, number):
                self.wrong(f"request {number} has the answer of {said}")

    def skipped(self, number):
        self.ends[number] += 1
        self.totals["not sent"] += 1
        self.not_sent.append(number)

    def close(self):
        """The instrument executes what is under way, and then all is judged."""
        self.line.arrive(float("inf"))
        executed = collections.Counter(self.line.executed)
        for number in self.not_sent:
            if executed[number]:
                self.wrong(f"request {number} wasn't sent, and was executed")
        for number in self.answered:
            if not executed[number]:
                self.wrong(f"request {number} was answered, and not executed")
        for number, times in self.ends.items():
            if times != 1:
                self.wrong(f"request {number} ended {times} times")

    def chain(self, numbers, rows):
        for number, row in zip(numbers, rows):
            if row.settlement:
                self.ended(number, row.settlement, 0.0, 0.0)
            else:
                self.skipped(number)
        good = [number for number, row in zip(numbers, rows) if row.settlement and row.settlement.outcome == Outcome.ANSWERED]
        if len(good) > 1:
            first = [self.line.executed.index(number) for number in good]
            between = self.line.executed[first[0] : first[-1] + 1]
            if first != sorted(first) or set(between) - set(good):
                self.wrong(f"the chain {good} was executed as {between}")
            places = [self.line.written.index(number) for number in good]
            if "open" in self.line.written[places[0] : places[-1]]:
                self.wrong(f"the chain {good} went on over a new connection")
        self.totals["chains"] += 1
