"""What is altered of a line's bytes: a byte is changed, is lost, or another one is put in. `docs/BAD-LINES.md`."""

import re
from typing import NamedTuple

from line_draws import GOLDEN, Draw, mixed

# The last byte of a line that can be named.
MOST = 4096
FORM = f"BYTE=XX, BYTE- or BYTE+XX: BYTE 1 to {MOST}, XX two hexadecimal digits"
CHANGE = re.compile(r"([0-9]{1,4})(?:(-)|([=+])([0-9A-Fa-f]{2}))")
BITS, BYTES = 8, 256


class Change(NamedTuple):
    """One change: the byte with this number, from 1, becomes another one (`=`) or is lost (`-`), or one is put in before it (`+`)."""

    at: int
    kind: str
    byte: int = 0

    def __str__(self) -> str:
        return f"{self.at}{self.kind}" + f"{self.byte:02x}" * (self.kind != "-")


def change_of(said: str) -> Change:
    """The change that this says. A ValueError says why it is none."""
    found = CHANGE.fullmatch(said)
    if not found or not 1 <= int(found[1]) <= MOST:
        raise ValueError(f"{said} is not {FORM}")
    return Change(int(found[1]), "-") if found[2] else Change(int(found[1]), found[3], int(found[4], 16))


def changes_of(said: str) -> list[Change]:
    """The changes of a line, in the order of its bytes."""
    changes = [change_of(one) for one in said.split(",")]
    if any(later.at <= one.at for one, later in zip(changes, changes[1:])):
        raise ValueError(f"the bytes of {said} are in no order")
    return changes


def changes_drawn(start: Draw, share: int, line: bytes) -> list[Change]:
    """What is drawn for the bytes of a line, each by two draws of a generator that begins with this draw."""
    changes = []
    for at, byte in enumerate(line[:MOST], 1):
        first, second = (Draw(mixed(start.bits + (2 * at - more) * GOLDEN)) for more in (1, 0))
        if first.happens(share):
            kind = "=-+"[first.among(0, 2)]
            new = {"=": byte ^ 1 << second.among(0, BITS - 1), "-": 0, "+": second.among(0, BYTES - 1)}[kind]
            changes.append(Change(at, kind, new))
    return changes


def altered(line: bytes, changes: list[Change]) -> bytes:
    """A line after these changes. Those of bytes that it hasn't do nothing."""
    parts = {change.at: change for change in changes}
    new = bytearray()
    for at, byte in enumerate(line, 1):
        change = parts.get(at)
        if change and change.kind != "-":
            new.append(change.byte)
        if not change or change.kind == "+":
            new.append(byte)
    return bytes(new)
