"""A least-squares adjustment of a network of `gama-local`'s form, for trials: in floats, of its own, without a line of `tools`.

It knows points, directions, slope distances and zenith angles from one station, and gives the places, and of each observation its
residual over the residual's standard deviation.
"""

import math
import xml.etree.ElementTree as Tree

SPACE = "{http://www.gnu.org/software/gama/gama-local}"
GON = math.pi / 200


def solved(matrix):
    """The inverse of a regular matrix."""
    size = len(matrix)
    rows = [list(row) + [float(place == column) for column in range(size)] for place, row in enumerate(matrix)]
    for place in range(size):
        pivot = max(range(place, size), key=lambda row: abs(rows[row][place]))
        rows[place], rows[pivot] = rows[pivot], rows[place]
        rows[place] = [value / rows[place][place] for value in rows[place]]
        for other in range(size):
            if other != place and rows[other][place]:
                times = rows[other][place]
                rows[other] = [value - times * by for value, by in zip(rows[other], rows[place])]
    return [row[size:] for row in rows]


class Network:
    """The network of a text."""

    def __init__(self, text):
        top = Tree.fromstring(text)
        network = top.find(f"{SPACE}network/{SPACE}points-observations")
        self.points, self.free = {}, []
        for point in network.findall(f"{SPACE}point"):
            name = point.get("id")
            self.points[name] = [float(point.get(axis, "nan")) for axis in "xyz"]
            self.free += [(name, "xyz".index(axis)) for axis in point.get("adj", "")]
        angle, zenith = (float(network.get(name)) * 1e-4 * GON for name in ("direction-stdev", "zenith-angle-stdev"))
        a, b, c = map(float, network.get("distance-stdev").split())
        one, = network.findall(f"{SPACE}obs")
        self.station = one.get("from")
        self.observed = []
        for each in one:
            kind, value = each.tag.removeprefix(SPACE), float(each.get("val"))
            sigma = {"direction": angle, "z-angle": zenith}.get(kind) or (a + b * (value / 1000) ** c) / 1000
            self.observed.append((kind, each.get("to"), value * (1 if kind == "s-distance" else GON), sigma))
        self.zero = None

    def computed(self, kind, to):
        """What is observed, by the places, and its derivatives by those of the target; that of the zero of the circle is -1."""
        x, y, z = (there - here for there, here in zip(self.points[to], self.points[self.station]))
        along, slope = math.hypot(x, y), math.dist(self.points[to], self.points[self.station])
        if kind == "direction":
            return math.atan2(y, x), (-y / along**2, x / along**2, 0.0)
        if kind == "s-distance":
            return slope, (x / slope, y / slope, z / slope)
        return math.atan2(along, z), (x * z / (along * slope**2), y * z / (along * slope**2), -along / slope**2)

    def adjust(self):
        """The places by least squares, and the standardized residuals by kind and target."""
        # A fixed point whose height isn't said is high by what is measured to it, as an approximation.
        for _ in range(10):
            self.step()
        return self.points, self.standardized

    def step(self):
        unknowns = [*self.free, "zero"]
        if self.zero is None:
            kind, to, value, _ = next(each for each in self.observed if each[0] == "direction")
            self.zero = self.computed(kind, to)[0] - value
        rows = []
        for kind, to, value, sigma in self.observed:
            found, by = self.computed(kind, to)
            lacks = value - (found - self.zero if kind == "direction" else found)
            if kind != "s-distance":
                lacks = math.remainder(lacks, math.tau)
            row = [0.0] * len(unknowns)
            for place, unknown in enumerate(unknowns):
                if unknown == "zero":
                    row[place] = -1.0 * (kind == "direction")
                elif unknown[0] in (to, self.station):
                    row[place] = by[unknown[1]] * (1 if unknown[0] == to else -1)
            rows.append(([each / sigma for each in row], lacks / sigma))
        size = range(len(unknowns))
        inverse = solved([[sum(row[i] * row[j] for row, _ in rows) for j in size] for i in size])
        right = [sum(row[i] * lacks for row, lacks in rows) for i in size]
        change = [sum(inverse[i][j] * right[j] for j in size) for i in size]
        for unknown, by in zip(unknowns, change):
            if unknown == "zero":
                self.zero += by
            else:
                self.points[unknown[0]][unknown[1]] += by
        self.standardized = {}
        for (kind, to, _, _), (row, lacks) in zip(self.observed, rows):
            residual = sum(row[i] * change[i] for i in size) - lacks
            share = 1 - sum(row[i] * inverse[i][j] * row[j] for i in size for j in size)
            self.standardized[kind, to] = residual / math.sqrt(share) if share > 1e-9 else 0.0
