"""Kills runs of `geocom station` at any moment, and begins each at once after the one before it, over a line that outlives them and holds
requests and replies back (`outliving.py`). Now and then some runs in a row hear nothing but what is from before.

Eight lanes stand side by side, each with a line of its own and its share of the runs.

Each execution answers with a number of its own, and each command has its place as a parameter. So a row shows on which execution its
line was made. An answered row is right only if that was one of its very request, in that run. A late row's request was executed. Rows
are those of the places from 0 on, answered, late or lost. The seed decides what is drawn; the machine decides the moments.

*Counted apart* is a run at whose first connection the ids in flight, replies in order and then requests, had 6 5 4 3 2 1 0 7 among
them in this order: it is outside the premises (docs/GUARANTEE.md), and its rows aren't judged. Where any other run starts afresh the word
isn't in flight: that is judged.
"""

import collections
import csv
import random
import time

from outliving import Line
from programs import Run
from side import Side

LANES = 8
# By how many commands a run has: few end by themselves.
TEXTS = {count: "".join(f"{place} 2108 {place},1\n" for place in range(count)).encode() for count in (3, 3000)}


class Lane:
    """Runs over one line: what they showed, and what was wrong."""

    def __init__(self, program, seed):
        self.program, self.random = program, random.Random(seed)
        self.line = Line(self.random)
        self.streak, self.told, self.faults = 0, collections.Counter(), []

    def words(self):
        """How the station is asked."""
        width, deadline = self.random.choice([1, 3, 7, 7]), self.random.choice([40, 80, 160])
        return f"{self.line.listener.getsockname()[1]} --csv --silent --settle 30 --width {width} --deadline {deadline}".split()

    def run(self):
        """One run, until it ends or is killed. Its rows, those that are whole, and its status if it ended."""
        draw, line = self.random, self.line
        self.streak = self.streak - 1 if self.streak else draw.randrange(2, 14) if draw.random() < 0.02 else 0
        line.begin(self.streak > 0)
        # When it is killed: so long after its start, or so long after its first connection and a while after so many requests.
        end = time.monotonic() + (draw.uniform(0, 0.02) if draw.random() < 0.1 else 5)
        lasts = 2 if line.old_alone else draw.choice([0.03, 0.9, 1.8]) * draw.random()
        behind = draw.choice([1e9, 1e9, draw.randrange(1, 12), draw.randrange(8, 80)])
        text = TEXTS[draw.choice([3, 3000, 3000, 3000])]
        with Run([*self.program, "station", *self.words()], text) as station:
            while station.is_running() and time.monotonic() < end:
                line.turn(end)
                if line.first_met is not None and lasts:
                    end, lasts = min(end, time.monotonic() + lasts), 0
                if line.old_alone and line.asked and not line.has_old() or line.asked >= behind:
                    end, behind = min(end, time.monotonic() + (0.02 if line.old_alone else draw.uniform(0, 0.01))), 1e9
            status = station.status() if not station.is_running() else None
            station.kill()
            line.end()
            written = station.output().decode()
        return list(csv.DictReader(written[: written.rfind("\n") + 1].splitlines())), status

    def wrong(self, rows):
        """What is wrong with the rows of a run."""
        line = self.line
        for place, row in enumerate(rows):
            outcome, of = row["outcome"], (line.run, place)
            made = line.made.get(int(float(row["values"].rpartition(",")[2] or 0)))
            if outcome == "answered" and made != of:
                yield f"place {place} has a line that was made for the run and place {made}: {row}"
            if int(row["step"]) != place or outcome not in ("answered", "late", "lost") or outcome == "late" and of not in line.executed:
                yield f"place {place}: {row}"

    def one(self):
        """One run, judged."""
        line, old = self.line, bool(self.line.ids())
        rows, status = self.run()
        wrong = [f"status {status}"] if status else []
        wrong += ["the word is under way where it begins anew"] if line.met_anew else []
        wrong += self.wrong(rows)
        self.told.update({"runs": 1, "old": old, "begun": line.begun, "ended": status is not None, "anew": line.anew})
        if line.first_met:
            self.told.update({"apart": 1, "apart and wrong": bool(wrong)})
        else:
            self.told.update(row["outcome"] for row in rows)
            self.faults += [f"run {line.run}: {one}" for one in wrong]


def lane(program, seed, runs):
    """So many runs over a line of their own: what they showed, and what was wrong."""
    one = Lane(program, seed)
    for _ in range(runs):
        one.one()
    return one.told + collections.Counter(closed=one.line.closed), one.faults


def kill(program, runs, seed):
    """So many runs of a station, which the program is with its first words: what they showed, what was wrong, and the same in words."""
    lanes = [Side(lane, program, f"{seed}/{n}", runs // LANES + (n < runs % LANES)) for n in range(LANES)]
    try:
        shown, faults = zip(*[one.result() for one in lanes])
    finally:
        for one in lanes:
            one.stop()
    told, faults = sum(shown, collections.Counter()), sum(faults, [])
    said = (f"seed {seed}: {told['runs']} runs, {told['old']} of them over something under way; {told['begun']} had begun, "
            f"{told['ended']} ended by themselves; {told['anew']} beginnings anew, {told['closed']} connections closed; "
            f"answered {told['answered']} late {told['late']} lost {told['lost']}, {len(faults)} wrong; "
            f"counted apart {told['apart']} runs with the word under way, {told['apart and wrong']} of them wrong")
    return told, faults, said
