"""The text of a bad line: its words, what it refuses, and what it decides for a line. `docs/BAD-LINES.md`."""

import re
from typing import NamedTuple

from line_alter import Change, changes_drawn, changes_of
from line_draws import WAYS, draw

MOST_BYTES = 65_536
MOST_MS = 86_400_000
MOST_PIECE = 512
MOST_PLACE = 4_294_967_295
SHARE = re.compile(r"[0-9]{1,3}(\.[0-9]{1,3})?")
NUMBER = re.compile(r"[0-9]{1,10}")

# What happens to a line: words with their numbers, as `docs/BAD-LINES.md` has them after a line's place.
Fate = dict[str, int]


class Faulty(Exception):
    """A text that is refused: its line, counted from 1, and why."""


class Word(NamedTuple):
    """A word: what follows it, and after it at a place, and the place of its draw, where it has one. P is a share of a hundred, MS
    milliseconds, FROM and TO such, BYTES and N numbers, and CHANGES what becomes of a line's bytes."""

    behind: str
    placed: str | None
    draw: int | None


WORDS = {
    "lose": Word("P", "", 1),
    "repeat": Word("P", "", 2),
    "delay": Word("FROM TO", "MS", 3),
    "hold": Word("P MS", "MS", 4),
    "close": Word("P", "", 5),
    "refuse": Word("P MS", "MS", 6),
    "keep": Word("P FROM TO", "MS", 7),
    "restart": Word("P", "", 8),
    "late": Word("P FROM TO", None, 9),
    "cut": Word("P", "BYTES", 10),
    "behead": Word("P", "BYTES", 11),
    "echo": Word("P", "", 12),
    "pieces": Word("P BYTES", "BYTES", 13),
    # A share of the bytes; its draw begins the generator of theirs.
    "alter": Word("P", "CHANGES", 15),
    # Only at a place: a close by a reset. By chance every other close is one.
    "reset": Word("", "", None),
    "idle": Word("MS", None, None),
    # It is a rehearsal's: nothing is done here.
    "kill": Word("N", None, None),
}
# Words that are of no direction, and at no place.
WHOLE = ("idle", "kill")
# What is not a line's own matter alone: the client's and the instrument's ends see that it isn't in order and whole.
BEYOND = ("cut", "behead", "echo", "restart", "alter")
RANGES = {
    "P": "a share of a hundred, 0 to 100 with at most three places",
    "MS": f"milliseconds, 0 to {MOST_MS}",
    "FROM": f"milliseconds, 0 to {MOST_MS}",
    "TO": f"milliseconds, 0 to {MOST_MS}",
    "BYTES": f"bytes, 1 to {MOST_PIECE}",
    "N": "a number, 0 to 1000",
}
LIMITS = {"MS": (0, MOST_MS), "FROM": (0, MOST_MS), "TO": (0, MOST_MS), "BYTES": (1, MOST_PIECE), "N": (0, 1000)}


def number_of(kind: str, said: str) -> int:
    """A number of this kind; of a share its thousandths."""
    if kind == "P":
        if not SHARE.fullmatch(said):
            raise Faulty(f"{said} is not {RANGES[kind]}")
        whole, _, places = said.partition(".")
        number = 1000 * int(whole) + int(places.ljust(3, "0"))
        least, most = 0, 100_000
    else:
        if not NUMBER.fullmatch(said):
            raise Faulty(f"{said} is not {RANGES[kind]}")
        number = int(said)
        least, most = LIMITS[kind]
    if not least <= number <= most:
        raise Faulty(f"{said} is not {RANGES[kind]}")
    return number


def numbers_of(word: str, form: str, said: list[str]) -> list[int]:
    """The numbers after a word."""
    kinds = form.split()
    if len(said) != len(kinds):
        raise Faulty(f"behind {word} stands {form or 'nothing'} here")
    numbers = [number_of(kind, one) for kind, one in zip(kinds, said)]
    if kinds[-2:] == ["FROM", "TO"] and numbers[-2] > numbers[-1]:
        raise Faulty(f"{said[-2]} is above {said[-1]}")
    return numbers


def said_changes(said: list[str]) -> list[Change]:
    """The changes after `alter` at a place."""
    if len(said) != 1:
        raise Faulty("behind alter stands CHANGES here")
    try:
        return changes_of(said[0])
    except ValueError as why:
        raise Faulty(str(why)) from None


class Text:
    """What a text says: of each direction the words with their numbers, at places what happens there and what is altered, and `idle`."""

    def __init__(self) -> None:
        self.words: dict[str, dict[str, list[int]]] = {way: {} for way in WAYS}
        self.places: dict[tuple[str, int], Fate] = {}
        self.altered: dict[tuple[str, int], list[Change]] = {}
        self.whole: dict[str, int] = {}

    def read(self, line: str) -> None:
        """Takes one line."""
        first, *said = line.split(" ")
        said = [one for one in said if one]
        if first in WAYS and said and NUMBER.fullmatch(said[0]):
            self.read_place(first, said[0], said[1:])
        elif first in WAYS:
            if not said:
                raise Faulty(f"behind {first} stands a word, or a line's number and a word")
            self.read_word([first], said[0], said[1:])
        else:
            self.read_word(list(WAYS), first, said)

    def read_word(self, ways: list[str], word: str, said: list[str]) -> None:
        """A word that holds for all lines of these directions."""
        known = WORDS.get(word)
        if known is None or word == "reset":
            raise Faulty(f"there is no word {word}")
        if word in WHOLE and len(ways) == 1:
            raise Faulty(f"{word} is of no direction")
        if word == "echo":
            if ways == ["down"]:
                raise Faulty("echo is of the lines up alone")
            ways = ["up"]
        numbers = numbers_of(word, known.behind, said)
        if word in WHOLE:
            if word in self.whole:
                raise Faulty(f"{word} stands there already")
            self.whole[word] = numbers[0]
            return
        for way in ways:
            if word in self.words[way]:
                raise Faulty(f"{word} stands there already")
            self.words[way][word] = numbers

    def read_place(self, way: str, place: str, said: list[str]) -> None:
        """A word that holds for one line."""
        if not 1 <= int(place) <= MOST_PLACE:
            raise Faulty(f"{place} is not the number of a line, 1 to {MOST_PLACE}")
        if not said:
            raise Faulty(f"behind {way} {place} stands a word")
        word, *numbers = said
        known = WORDS.get(word)
        if known is None or known.placed is None:
            raise Faulty(f"there is no word {word} for one line")
        if word == "echo" and way == "down":
            raise Faulty("echo is of the lines up alone")
        fate = self.places.setdefault((way, int(place)), {})
        if word in fate:
            raise Faulty(f"{word} stands there already")
        if word == "alter":
            self.altered[way, int(place)] = said_changes(numbers)
            numbers = []
        fate[word] = sum(numbers_of(word, known.placed.replace("CHANGES", ""), numbers))

    def changes(self, seed: int, way: str, line: int, data: bytes) -> list[Change]:
        """What is altered of a line of this direction, with these bytes."""
        if (way, line) in self.places:
            return self.altered.get((way, line), [])
        share = self.words[way].get("alter")
        return changes_drawn(draw(seed, way, line, WORDS["alter"].draw or 0), share[0], data) if share else []

    def fate(self, seed: int, way: str, line: int, data: bytes) -> Fate:
        """What happens to a line of this direction, with these bytes. Where the text has it at its place, that alone does."""
        if (way, line) in self.places:
            return dict(self.places[way, line])
        fate: Fate = {"alter": 0} if self.changes(seed, way, line, data) else {}
        # What comes after a close is decided after it.
        for word, numbers in sorted(self.words[way].items(), key=lambda one: one[0] == "refuse"):
            drawn = draw(seed, way, line, WORDS[word].draw or 0)
            if word == "alter" or word != "delay" and not drawn.happens(numbers[0]):
                continue
            if word == "refuse" and not fate.keys() & {"close", "reset", "cut"}:
                continue
            if word == "close":
                fate["reset" if drawn.lower >> 31 else "close"] = 0
            elif word in ("delay", "late"):
                fate["delay"] = min(fate.get("delay", 0) + drawn.among(*numbers[-2:]), MOST_MS)
            elif word in ("cut", "behead"):
                fate[word] = drawn.among(1, max(1, min(len(data) - 1, MOST_PIECE)))
            elif word == "keep":
                fate[word] = drawn.among(*numbers[1:])
            elif word == "pieces":
                fate[word] = drawn.among(1, numbers[1])
            else:
                # Of `hold` and `refuse` so long; of the others nothing follows their share.
                fate[word] = sum(numbers[1:])
        return fate


def text_of(data: bytes) -> Text:
    """The text of these bytes."""
    if len(data) > MOST_BYTES:
        raise Faulty(f"more than {MOST_BYTES} bytes")
    text = Text()
    for number, line in enumerate(data.split(b"\n"), 1):
        said = line.removesuffix(b"\r").partition(b"#")[0].strip(b" ")
        if not said:
            continue
        try:
            if not said.isascii() or not said.decode("ascii").isprintable():
                raise Faulty("bytes that are no printable ASCII")
            text.read(said.decode("ascii"))
        except Faulty as why:
            raise Faulty(f"line {number}: {why}") from None
    return text


def lines_of(way: str, place: int, fate: Fate, changes: list[Change], behind: str = "") -> str:
    """What happened to a line, as lines of a text that has it happen again. `behind` is a comment on the one that alters it."""
    lines = []
    for word, number in sorted(fate.items()):
        said = f" {','.join(map(str, changes))}{behind}" if word == "alter" else f" {number}" if WORDS[word].placed else ""
        lines.append(f"{way} {place} {word}{said}\n")
    return "".join(lines)
