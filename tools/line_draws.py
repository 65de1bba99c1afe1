"""The generator of a bad line, as `docs/BAD-LINES.md`, defines it: splitmix64, by places. What is drawn for a line
follows from the seed, the direction and the line's number alone, whatever came before it, and when."""

MASK = 2**64 - 1
GOLDEN = 0x9E3779B97F4A7C15
WAYS = {"up": 1, "down": 2}
# How many draws a line has.
DRAWS = 16
# A share of a hundred has three places.
WHOLE = 100_000


def mixed(number: int) -> int:
    """The mixing step of splitmix64."""
    number &= MASK
    number = (number ^ number >> 30) * 0xBF58476D1CE4E5B9 & MASK
    number = (number ^ number >> 27) * 0x94D049BB133111EB & MASK
    return number ^ number >> 31


class Draw:
    """A draw: 64 bits, of which the upper half decides whether, and the lower half how much."""

    def __init__(self, bits: int) -> None:
        self.bits, self.upper, self.lower = bits, bits >> 32, bits & 0xFFFFFFFF

    def happens(self, share: int) -> bool:
        """Whether something happens whose share is so many thousandths of a hundredth."""
        return self.upper * WHOLE >> 32 < share

    def among(self, least: int, most: int) -> int:
        """A number from the least to the most one."""
        return least + (self.lower * (most - least + 1) >> 32)


def draw(seed: int, way: str, line: int, place: int) -> Draw:
    """The draw at a place, 1 to 16, for a line of a direction, whose lines are counted from 1."""
    start = mixed(seed + WAYS[way] * GOLDEN)
    return Draw(mixed(start + (DRAWS * (line - 1) + place) * GOLDEN))
