"""Pictures of a page, as SVG within its HTML: what the commands of a day came to as a strip, and a quantity over some days with its limits.

A chart has a dot for each value, and none between them: where nothing was measured nothing is drawn. Of more values than it has places the
lowest and the highest of each place are drawn, so none that is outside is left out. Colours are classes of the page's style, where each is
light or dark.
"""

import datetime
import math
from html import escape

from outcomes import SORTS

# The size of a chart, and what is left beside it for the scale, in the unit of its coordinates.
WIDTH, HEIGHT, LEFT, TOP, BOTTOM = 360, 120, 44, 8, 16
# How many places of a day a strip has, and how many of its width a chart.
PARTS, PLACES = 96, 158
STRIP = 14
# What a quantity is shown as: the end of its column, by how much it is multiplied, and the unit.
UNITS = [("_m_per_day", 1e3, "mm/d"), ("_ppm", 1, "ppm"), ("_rad", 1e6, "µrad"), ("_m", 1e3, "mm")]


def unit_of(column):
    """By how much a quantity is multiplied where it is shown, and in which unit."""
    return next(((times, unit) for end, times, unit in UNITS if column.endswith(end)), (1, ""))


def words_of(column):
    """What a column is called: its name without its unit."""
    end = next((end for end, *_ in UNITS if column.endswith(end)), "")
    return column[: len(column) - len(end)].removeprefix("reference_").replace("_", " ")


def short(number):
    """A number with three digits, or two places, without zeros at its end."""
    text = format(number, f".{2 if abs(number) < 10 else 1 if abs(number) < 100 else 0}f")
    text = text.rstrip("0").rstrip(".") if "." in text else text
    return "0" if text in ("-0", "") else text.replace("-", "−")


def at(number):
    return format(number, ".1f").removesuffix(".0")


def parts_of(moments, span):
    """Into how many parts a strip is divided: each is as long as a cycle takes, or longer."""
    begun = [after - before for before, after in zip(moments, moments[1:]) if after - before >= 60]
    period = sorted(begun)[len(begun) // 2] if begun else 0
    return next((parts for parts in (PARTS, 48, 24, 12, 6) if span / parts >= period * 1.01), 4)


def shares(outcomes, begin, end, parts):
    """Of each part in which a command was due how high what it came to is, from the top, each with where it begins."""
    counted = {}
    for moment, sort in outcomes:
        if begin <= moment < end:
            part = counted.setdefault(int((moment - begin) / (end - begin) * parts), dict.fromkeys(SORTS, 0))
            part[sort] += 1
    for place, part in sorted(counted.items()):
        below, found = STRIP, []
        for sort in SORTS:
            high = STRIP * part[sort] / sum(part.values())
            below -= high
            found += [(sort, at(below), at(high))] if high else []
        yield place, tuple(found)


def strip(outcomes, begin, end, said):
    """What came of the commands from one moment until another, in parts of that time: in each the shares of what they came to, the good ones
    at the bottom. Where nothing was due nothing is drawn."""
    parts = parts_of([moment for moment, _ in outcomes], end - begin)
    # Parts that are alike and come one after the other are one.
    runs = []
    for place, found in shares(outcomes, begin, end, parts):
        if runs and runs[-1][1:] == [place, found]:
            runs[-1][1] += 1
        else:
            runs.append([place, place + 1, found])
    paths = dict.fromkeys(SORTS, "")
    for first, behind, found in runs:
        for sort, top, high in found:
            paths[sort] += f"M{first} {top}h{behind - first}v{high}h-{behind - first}z"
    drawn = "".join(f'<path class="{sort}" d="{path}"/>' for sort, path in paths.items() if path)
    return (f'<svg class="strip" role="img" viewBox="0 0 {parts} {STRIP}" preserveAspectRatio="none"><title>{escape(said)}</title>'
            f'<path class="none" d="M0 0h{parts}v{STRIP}h-{parts}z"/>{drawn}</svg>')


def steps(low, high, most=4):
    """Round numbers from a low one to a high one, at most so many or one more."""
    raw = max(high - low, 1e-12) / most
    power = 10 ** math.floor(math.log10(raw))
    step = next(power * times for times in (1, 2, 2.5, 5, 10) if power * times >= raw * 0.999)
    return [step * number for number in range(math.ceil(low / step - 1e-9), math.floor(high / step + 1e-9) + 1)]


def days(begin, end):
    """The midnights, in UTC, that are marked from one moment until another, each with its words; within three days hours, too."""
    span = end - begin
    step = next(step for step in (3600, 7200, 10_800, 21_600, 43_200, *(86_400 * many for many in (1, 2, 5, 7, 10, 14, 30, 60, 100, 200, 400, 800)), 1e12)
                if span / step <= 6)
    found = []
    for number in range(math.ceil(begin / step), math.floor(end / step) + 1):
        moment = datetime.datetime.fromtimestamp(number * step, datetime.timezone.utc)
        found.append((number * step, moment.strftime("%d %b" if step >= 86_400 or not number * step % 86_400 else "%H:%M")))
    return found


class Chart:
    """A quantity over time, in its unit, as it differs from a reference."""

    def __init__(self, series, begin, end, shown, bounds, least):
        """`shown` gives what a value is shown as, in the unit; `bounds` are the limits, each as its class, where it begins and where it ends;
        the scale spans `least` at least."""
        self.begin, self.end, self.bounds = begin, end, bounds
        self.points = [(moment, shown(value), is_sure) for moment, value, is_sure in zip(series.moments, series.values, series.sure)
                       if begin <= moment <= end]
        ends = [value for _, value, _ in self.points] + [each for _, *both in bounds for each in both] or [0]
        middle, half = (min(ends) + max(ends)) / 2, max(max(ends) - min(ends), least) / 2 * 1.08
        self.low, self.high = middle - half, middle + half

    def x(self, moment):
        return LEFT + (moment - self.begin) / (self.end - self.begin) * (WIDTH - LEFT - 2)

    def y(self, value):
        return TOP + (self.high - value) / (self.high - self.low) * (HEIGHT - TOP - BOTTOM)

    def dots(self):
        """The points that are drawn, by whether they are sure: of each place the lowest and the highest."""
        places = {}
        for moment, value, is_sure in self.points:
            places.setdefault((int((moment - self.begin) / (self.end - self.begin) * PLACES), is_sure), []).append((value, moment))
        paths = {True: [], False: []}
        for (_, is_sure), found in sorted(places.items()):
            for value, moment in sorted({min(found), max(found)}):
                paths[is_sure].append(f"M{at(self.x(moment))} {at(self.y(value))}h0")
        return "".join(f'<path class="{name}" d="{"".join(paths[is_sure])}"/>' for name, is_sure in (("doubtful", False), ("sure", True)) if paths[is_sure])

    def scale(self):
        """The lines and numbers of both scales."""
        right, below = WIDTH - 2, HEIGHT - BOTTOM
        found = [f'<path class="axis" d="M{LEFT} {at(self.y(value))}H{right}"/><text x="{LEFT - 4}" y="{at(self.y(value) + 3)}" text-anchor="end">{short(value)}</text>'
                 for value in steps(self.low, self.high)]
        found += [f'<path class="axis" d="M{at(self.x(moment))} {TOP}V{below}"/>'
                  f'<text x="{at(min(max(self.x(moment), LEFT + 12), right - 14))}" y="{HEIGHT - 4}" text-anchor="middle">{escape(said)}</text>'
                  for moment, said in days(self.begin, self.end)]
        return "".join(found)

    def limits(self):
        """A line for each bound."""
        found = []
        for name, *both in self.bounds:
            found += [f'<path class="limit {name}" d="M{LEFT} {at(self.y(value))}H{WIDTH - 2}"/>' for value in dict.fromkeys(both)]
        return "".join(found)

    def drawn(self, said):
        return (f'<svg class="chart" role="img" viewBox="0 0 {WIDTH} {HEIGHT}"><title>{escape(said)}</title>'
                f"{self.scale()}{self.limits()}{self.dots()}</svg>")
