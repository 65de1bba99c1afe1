"""Random sites: planted movements, prisms that are hidden, a reference that moves, and noise. What is computed here is where prisms are and
what is to be alarmed, in floats. What is measured goes through the reductions, for the first site also as the command `reduce`, and then
through the command `alarm`.
"""

import csv
import io
import math
import os
import random
import re
import sys
import tempfile
from concurrent.futures import ProcessPoolExecutor
from dataclasses import dataclass, field
from functools import cached_property
from pathlib import Path

import reductions
import sites
from programs import ended
from surveyed import BEGIN, Survey

TOOLS = Path(__file__).resolve().parents[2]
CYCLES, EVERY, EPOCH = 60, 7200, 10
DAYS = 2
# How many cycles a velocity takes.
WINDOW = DAYS * 86400 // EVERY
REFERENCES, PRISMS = (1, 2, 3), (11, 12, 13, 14, 15)
FURTHEST = 250.0
LINE = re.compile(r"target (\d+).*?: (\w+) is (-?[0-9.]+),.*cycle (\d+)$")


@dataclass
class Movement:
    """A prism that moves in one direction from a cycle on: at once, or by so much in each cycle."""

    direction: str
    begin: int
    step: float = 0.0
    by_cycle: float = 0.0

    def at(self, cycle):
        """How far it is in a cycle."""
        return 0.0 if cycle < self.begin else self.step + self.by_cycle * (cycle - self.begin + 1)


@dataclass
class Planted:
    """A site by its seed: what is where, what happens, and what is to be alarmed."""

    seed: int
    hidden: dict = field(default_factory=dict)
    moves: dict = field(default_factory=dict)

    def __post_init__(self):
        self.chance = chance = random.Random(self.seed)
        # The limit of a movement. The standard deviation of a coordinate against the epoch is a fifth of it, or less: of its readings,
        # of an orientation by two references, and of the epoch's mean. Each mean of two faces has the noise of one by the root of two.
        self.limit = round(chance.uniform(0.002, 0.006), 4)
        self.speed = 1.2 * self.limit
        sigma = self.limit / 5 / math.sqrt(1 + 1 / EPOCH)
        most_hz, most_v, most_distance = sigma * math.sqrt(2 / 1.5) / FURTHEST, sigma * math.sqrt(2) / FURTHEST, sigma * math.sqrt(2)
        share = chance.uniform(0.2, 1)
        self.within, self.within_metres = 6 * most_hz, 1.2 * self.limit
        prisms = {number: self.somewhere() for number in (*REFERENCES, *PRISMS)}
        self.survey = Survey(prisms, index=chance.gauss(0, 3e-5), collimation=chance.gauss(0, 3e-5), zero=chance.uniform(0, math.tau),
                             every=EVERY, hz_noise=share * most_hz, v_noise=share * most_v, distance_noise=share * most_distance,
                             chance=random.Random(self.seed + 1_000_000))
        # Movements are in easting and northing, or across and along an axis: a vertical one, or a line.
        self.axis = chance.choice([None, (self.away(), self.away()), (self.away(), self.away(), self.away(), self.away())])
        self.directions = ["radial", "tangential", "height"] if self.axis else ["easting", "northing", "height"]
        self.plant_movements()
        self.plant_a_moved_reference()
        self.hide()

    def away(self):
        return round(self.chance.choice([-1, 1]) * self.chance.uniform(700, 3000), 1)

    def somewhere(self):
        """A place that the instrument sees."""
        way, along = self.chance.uniform(0, math.tau), self.chance.uniform(60, FURTHEST - 5)
        return tuple(round(each, 3) for each in (
            1000 + along * math.sin(way), 2000 + along * math.cos(way), 101.65 + along * self.chance.uniform(-0.15, 0.15)))

    def plant_movements(self):
        for number in self.chance.sample(PRISMS, self.chance.randrange(4)):
            sign, begin = self.chance.choice([-1, 1]), self.chance.randrange(16, 27)
            if self.chance.random() < 0.5:
                movement = Movement(self.chance.choice(self.directions), begin, step=sign * self.chance.uniform(2, 5) * self.limit)
            else:
                by_day = sign * self.chance.uniform(2, 4) * self.speed
                movement = Movement(self.chance.choice(self.directions), begin, by_cycle=by_day * EVERY / 86400)
            self.moves[number] = movement

    def plant_a_moved_reference(self):
        """One that moves across the line of sight, or along it, further than is allowed."""
        self.moved_reference, self.reference_begin = None, CYCLES + 1
        if self.chance.random() < 0.5:
            self.moved_reference, self.reference_begin = self.chance.choice(REFERENCES), self.chance.randrange(14, 50)
            east, north, _ = (there - here for there, here in zip(self.survey.prisms[self.moved_reference], self.survey.station))
            along, sign = math.hypot(east, north), self.chance.choice([-1, 1])
            if self.chance.random() < 0.5:
                far = sign * self.chance.uniform(3.5, 6) * self.within * along
                self.reference_by = (far * north / along, -far * east / along, 0.0)
            else:
                far = sign * self.chance.uniform(2.5, 5) * self.within_metres
                self.reference_by = (far * east / along, far * north / along, 0.0)

    def hide(self):
        """Prisms are hidden for some cycles, and all references now and then."""
        for number in (*REFERENCES, *PRISMS):
            if self.chance.random() < 0.5:
                self.hide_from(self.chance.randrange(13, CYCLES - 6), [number])
        if self.chance.random() < 0.3:
            self.hide_from(self.chance.randrange(13, CYCLES - 6), REFERENCES)

    def hide_from(self, begin, numbers):
        for cycle in range(begin, begin + self.chance.randrange(1, 7)):
            self.hidden.setdefault(cycle, set()).update(numbers)

    def vector(self, number, direction):
        """A direction at a prism, by its bearing."""
        if direction == "height":
            return 0.0, 0.0, 1.0
        if not self.axis:
            return (1.0, 0.0, 0.0) if direction == "easting" else (0.0, 1.0, 0.0)
        if len(self.axis) == 2:
            way = math.atan2(self.survey.prisms[number][0] - self.axis[0], self.survey.prisms[number][1] - self.axis[1])
        else:
            way = math.atan2(self.axis[2] - self.axis[0], self.axis[3] - self.axis[1]) - math.pi / 2
        way += math.pi / 2 if direction == "tangential" else 0
        return math.sin(way), math.cos(way), 0.0

    def moved(self, cycle):
        found = {number: tuple(each * movement.at(cycle) for each in self.vector(number, movement.direction))
                 for number, movement in self.moves.items()}
        return found | ({self.moved_reference: self.reference_by} if cycle >= self.reference_begin else {})

    @cached_property
    def table(self):
        """The file of its rows."""
        return self.survey.table([{"moved": self.moved(cycle), "hidden": self.hidden.get(cycle, ())} for cycle in range(1, CYCLES + 1)])

    def text(self):
        end = self.survey.moment(EPOCH + 1)
        lines = [self.survey.line("reference", *REFERENCES), f"references at least 2 within {self.within:.9f} {self.within_metres:.6f}", "flat",
                 f"epoch {BEGIN.isoformat()} {end.isoformat()}", f"velocity {DAYS}", "faces at least 2 within 0.001"]
        return self.survey.text(*lines, *([f"axis {' '.join(map(str, self.axis))}"] if self.axis else []))

    def limits(self):
        for number in PRISMS:
            yield f"{number},references,3,1,1,1"
            for direction in self.directions:
                yield f"{number},moved_{direction}_m,0,{self.limit:.6f},2,3"
                yield f"{number},velocity_{direction}_m_per_day,0,{self.speed:.6f},2,3"

    def references(self, cycle):
        """How many are seen where they should be."""
        gone = {self.moved_reference} if cycle >= self.reference_begin else set()
        return len(set(REFERENCES) - gone - self.hidden.get(cycle, set()))

    def is_seen(self, number, cycle):
        return number not in self.hidden.get(cycle, set())

    def has_place(self, number, cycle):
        return self.is_seen(number, cycle) and self.references(cycle) >= 2

    def latest(self, number, first):
        """The second cycle with coordinates from this one on."""
        places = [cycle for cycle in range(first, CYCLES + 1) if self.has_place(number, cycle)]
        return places[1] if len(places) > 1 else None

    def wanted(self):
        """Each movement: its prism, the column that has to say it, and the last cycle that may."""
        for number, movement in self.moves.items():
            far = next((cycle for cycle in range(1, CYCLES + 1) if abs(movement.at(cycle)) >= 2 * self.limit), None)
            if far and self.latest(number, far):
                yield number, f"moved_{movement.direction}_m", self.latest(number, far)
            if movement.by_cycle and self.latest(number, movement.begin + WINDOW):
                yield number, f"velocity_{movement.direction}_m_per_day", self.latest(number, movement.begin + WINDOW)


def output_of(*words):
    found = ended([sys.executable, *map(str, words)], patience=3000)
    assert (found.status, found.messages) == (0, ""), found.messages
    return found.output.decode()


def rows_of(site):
    """The rows that a site's readings are reduced to."""
    reducer, cycles = reductions.Reducer(sites.site_of(site.text())), reductions.Cycles()
    table = csv.DictReader(io.StringIO(site.table.decode()))
    over = [cycle for fields in table for cycle in cycles.take(fields)]
    return [row for cycle in [*over, cycles.rows] if cycle for row in reducer.rows(cycle)]


def written(rows):
    """The table of rows."""
    text = io.StringIO()
    table = csv.DictWriter(text, reductions.NAMES, lineterminator="\n")
    table.writeheader()
    table.writerows(rows)
    return text.getvalue()


def reduced_by_command(site, folder):
    """The table that the command makes of a site."""
    (folder / "values.csv").write_bytes(site.table)
    (folder / "site").write_text(site.text(), encoding="ascii")
    return output_of(TOOLS / "reduce", folder / "values.csv", folder / "site")


def alarms_of(planted, tables, folder):
    """The alarms of some sites, as the command gives them for all their rows: by site targets, columns and cycles. Each site is a run of
    its own there, and has numbers of its own."""
    rows, limits = [], ["target,column,reference,tolerance,outside,of"]
    for place, (site, table) in enumerate(zip(planted, tables)):
        run = f"2026-10-31T23:59:50.{place:03}Z"
        rows += [row | {"target": str(100 * place + int(row["target"])), "run": run} for row in table]
        limits += [f"{100 * place + int(number)},{rest}" for number, rest in (line.split(",", 1) for line in site.limits())]
    (folder / "reduced.csv").write_text(written(rows), encoding="ascii")
    (folder / "limits").write_text("\n".join(limits) + "\n", encoding="ascii")
    output = output_of(TOOLS / "alarm", folder / "reduced.csv", folder / "limits", folder / "state", "--once", "--repeat")
    # Each row outside is judged; the ends of alarms aren't.
    lines = [line for line in output.splitlines() if " again; cycle " not in line]
    found = [LINE.search(line) for line in lines]
    assert all(found), [line for line, each in zip(lines, found) if not each]
    alarms = [[] for _ in planted]
    for each in found:
        alarms[int(each[1]) // 100].append((int(each[1]) % 100, each[2], int(each[4])))
    return alarms


def judge(site, rows, alarms):
    """What is wrong with a site's rows and alarms."""
    for number, column, latest in site.wanted():
        cycles = [cycle for *said, cycle in alarms if said == [number, column]]
        if not cycles or cycles[0] > latest:
            yield f"{number} {column} isn't alarmed up to cycle {latest}"
    for number, column, cycle in alarms:
        movement = site.moves.get(number)
        is_it = movement and cycle >= movement.begin and f"_{movement.direction}_m" in column
        if not is_it and not (column == "references" and site.is_seen(number, cycle) and site.references(cycle) < 2):
            yield f"{number} {column} is alarmed in cycle {cycle}"
    for row in rows:
        number, cycle = int(row["target"]), int(row["cycle"])
        if row["outcome"] == "answered" and row["rc"] == "0":
            yield from judge_row(site, number, cycle, row)
        elif site.is_seen(number, cycle):
            yield f"{number} has no row in cycle {cycle}"
        if number in PRISMS and site.is_seen(number, cycle) and site.references(cycle) < 2 and (number, "references", cycle) not in alarms:
            yield f"{number} references isn't alarmed in cycle {cycle}"


def judge_row(site, number, cycle, row):
    """What is wrong with a row of a prism that was seen."""
    has_place = bool(row["target_easting_m"])
    if has_place != site.has_place(number, cycle):
        yield f"{number} has {'a' if has_place else 'no'} place in cycle {cycle}"
    is_doubtful = cycle >= site.reference_begin or any(not site.is_seen(each, cycle) for each in REFERENCES)
    if (row["quality"] == "warning", bool(row["reason"])) != (is_doubtful, is_doubtful):
        yield f"{number} is {row['quality']} in cycle {cycle}: {row['reason']}"
    if has_place and site.has_place(number, cycle):
        if int(row["references"]) != site.references(cycle):
            yield f"{row['references']} references in cycle {cycle}"
        at = map(sum, zip(site.survey.prisms[number], site.moved(cycle).get(number, (0, 0, 0))))
        found = [float(row[f"target_{name}_m"]) for name in ("easting", "northing", "height")]
        if any(abs(one - other) > site.limit * 1.2 for one, other in zip(at, found)):
            yield f"{number} is at {found} in cycle {cycle}"


def tried(seeds):
    """What is wrong with the sites of these seeds, and what they have."""
    planted = [Planted(seed) for seed in seeds]
    tables = [rows_of(site) for site in planted]
    with tempfile.TemporaryDirectory() as folder:
        alarms = alarms_of(planted, tables, Path(folder))
    return [(site.seed, list(judge(site, *found)), len(found[0]), len(list(site.wanted())), site.moved_reference is not None)
            for site, *found in zip(planted, tables, alarms)]


def test_random_sites(pytestconfig, note):
    """Each planted movement is alarmed in time, each cycle with too few references, and nothing else."""
    first, many = pytestconfig.option.first, pytestconfig.option.sites
    batches = [range(begin, min(begin + 5, first + many)) for begin in range(first, first + many, 5)]
    with ProcessPoolExecutor(min(4, os.cpu_count())) as pool:
        found = [site for batch in pool.map(tried, batches) for site in batch]
    wrong = {f"site {seed}": faults[:5] for seed, faults, *_ in found if faults}
    rows, movements, references = (sum(each[place] for each in found) for place in (2, 3, 4))
    note(f"{len(found)} sites, {rows} rows, {movements} alarms of movements, {references} moved references, {len(wrong)} sites wrong")
    assert not wrong, wrong


def test_by_the_command(pytestconfig, folder):
    """The first site's rows are those of the command."""
    site = Planted(pytestconfig.option.first)
    is_same = reduced_by_command(site, folder) == written(rows_of(site))
    assert is_same
