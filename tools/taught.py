"""A station's text in its file, and how a prism is added to it: at its end, and in one step, so that the file is whole at any moment. Nothing
that it has is changed. `docs/FORMATS.md`, "Commands", has its lines.
"""

import contextlib
import os
import stat
import tempfile
from decimal import Decimal

import angles
from asked import Command, Refused
from sighted import shown

# A text has so many names and places at most, and a target's number is at most this.
MOST, LARGEST = 64, 2**32 - 1
# Pointing takes this long on many instruments, in milliseconds.
DEADLINE = 35000
MEASURE = Command(17017, "2", "measure")
HEAD = b"# A station's text, by geocom-teach: geocom-schedule(5) has its lines. Angles are radians, lengths metres.\nchained\n"


def number(decimal, unit):
    """A number as a line has it: with as many places as it needs."""
    return angles.written(decimal, unit).rstrip("0").removesuffix(".")


def direction(angle):
    """A direction as a line has it, on the circle also once it is rounded."""
    rounded = Decimal(angles.written(angles.on_circle(angle), "rad"))
    return number(Decimal(0) if rounded >= angles.TURN else rounded, "rad")


def chain(hz, v, faces=2):
    """The commands of a prism in a cycle: turn to it and aim, and measure, in one face or both. The direction is as a line has it."""
    in_one = [Command(9027, f"{hz},{v},0,1,0", "turn, and aim at the prism"), MEASURE]
    return in_one + [Command(9028, "0,1,0", "change the face, and aim"), MEASURE] * (faces == 2)


class Text:
    """What a text says, of which the program has checked that it is one."""

    def __init__(self, data):
        self.data, self.names, self.places, self.targets = data, {}, {}, {0}
        self.is_setup, self.is_each, self.is_chained, self.has_deadline = False, True, True, False
        for line in data.decode("latin-1").split("\n"):
            if line and not line.startswith("#"):
                self.take(line.removesuffix("\r").split(" "))

    def take(self, words):
        if words[0] == "name":
            self.names[int(words[1])] = " ".join(words[2:])
        elif words[0] == "near":
            numbers = list(map(Decimal, words[2:]))
            self.places[int(words[1])] = (*numbers[:3], *(numbers[3:] or [None, None]))
        elif words[0].isdigit():
            self.targets.add(int(words[0]))
        elif words[0] in ("chained", "unchained"):
            self.is_chained = words[0] == "chained"
        elif words[0] in ("at", "each", "every"):
            self.is_setup, self.is_each = words[0] == "at", words[0] != "every" or words[1] == "1"
        self.has_deadline |= words[0] == "deadline"

    def next(self):
        """The number of the next target: above all that it has."""
        most = max(self.targets | self.names.keys() | self.places.keys())
        if max(len(self.names), len(self.places)) >= MOST or most == LARGEST:
            raise Refused(f"it has {len(self.names)} names and {len(self.places)} places: {MOST} are the most, and {LARGEST} is the greatest number")
        return most + 1

    def called(self, target):
        return f"{target} ({self.names[target]})" if target in self.names else str(target)

    def fault_of(self, name):
        """Why a new target can't have this name; nothing where it can."""
        if not name.isascii() or not name.isprintable() or "," in name or '"' in name:
            return "a name is printable ASCII, without commas and double quotes"
        if name[0] in "=+-@":
            return "a name can't begin with =, +, - or @, which a spreadsheet takes for a formula"
        if len(name) > 64:
            return "a name has at most 64 characters"
        if name in self.names.values():
            return f"there is a prism called {name} already"
        # (a broker has a target without a name by its number)
        if name.isdigit() and int(name) in self.targets:
            return f"{name} is the number of another prism"
        return ""

    def confused(self, sight, near):
        """The target whose place a prism would be confused with: their tolerances overlap in each angle, and in the distance if both have
        one."""
        for target, (hz, v, rad, distance, metres) in self.places.items():
            is_along = distance is None or abs(sight.distance - distance) <= near.m + metres
            if is_along and abs(angles.difference(sight.hz, hz)) <= near.rad + rad and abs(sight.v - v) <= near.rad + rad:
                return self.called(target)
        return None


class TextFile:
    """The file of a text at a path. `program` checks the text before it is written."""

    def __init__(self, path, program):
        self.named, self.path, self.program = path, os.path.realpath(path), program
        self.folder = os.path.dirname(self.path)

    def __str__(self):
        return str(self.named)

    def read(self):
        """Its bytes, none where it isn't there, or is empty."""
        try:
            if not stat.S_ISREG(os.stat(self.path).st_mode):
                raise Refused(f"{self} is no regular file")
            with open(self.path, "rb") as file:
                return file.read()
        except FileNotFoundError:
            return b""
        except OSError as why:
            raise Refused(f"{self}: {why.strerror}") from None

    def text(self):
        """What it says now. One that nothing can be added to plainly is refused."""
        data = self.read()
        if data and (found := self.program.found(data)):
            raise Refused(f"{self} isn't added to, since station --check has: {found}")
        text = Text(data)
        if text.is_setup or not text.is_each or not text.is_chained:
            wants = "chained" if text.is_each and not text.is_setup else "each cycle"
            end = "setup" if text.is_setup else "unchained" if text.is_each else "not for each cycle"
            raise Refused(f"{self} isn't added to, since its end is {end}: write a line `{wants}` there")
        return text

    def look(self):
        """Looks whether it can be written, before anybody aims."""
        try:
            with tempfile.TemporaryFile(dir=self.folder):
                pass
        except OSError as why:
            raise Refused(f"{self.folder}: {why.strerror}: the text can't be written there") from None

    def add(self, text, lines):
        """Adds lines at the end of its text. If they can't be, or it says something else meanwhile, it is as it was."""
        data = text.data or HEAD
        data += b"\n" * (not data.endswith(b"\n")) + "".join(f"{line}\n" for line in lines).encode("ascii")
        if found := self.program.found(data):
            raise Refused(f"station --check has: {found}: nothing was written")
        try:
            self.replace(text.data, data)
        except OSError as why:
            raise Refused(f"{self}: {why.strerror}: nothing was written") from None

    def replace(self, before, data):
        """Has these bytes in its place, if it has still those from before; with its mode, and if that is allowed its owner."""
        file, path = tempfile.mkstemp(prefix=f".{os.path.basename(self.path)}.", dir=self.folder)
        is_made = False
        try:
            with contextlib.suppress(FileExistsError):
                os.close(os.open(self.path, os.O_CREAT | os.O_EXCL | os.O_WRONLY, 0o666))
                is_made = True
            with open(file, "wb") as out:
                out.write(data)
                out.flush()
                of = os.stat(self.path)
                os.fchmod(file, stat.S_IMODE(of.st_mode))
                with contextlib.suppress(PermissionError):
                    os.fchown(file, of.st_uid, of.st_gid)
                os.fsync(file)
            if self.read() != before:
                raise Refused(f"{self} was changed meanwhile: nothing was written")
            os.replace(path, self.path)
        except BaseException:
            with contextlib.suppress(FileNotFoundError):
                os.unlink(path)
                if is_made:
                    os.unlink(self.path)
            raise
        folder = os.open(self.folder, os.O_RDONLY)
        try:
            os.fsync(folder)
        finally:
            os.close(folder)


def block(text, target, name, sight, near, faces, unit, moment):
    """The lines that a prism has in a text: its name, where it is, and its chain; what people read is a comment."""
    hz, v, distance = direction(sight.hz), number(sight.v, "rad"), number(sight.distance, "m")
    return [
        f"# {shown(sight.hz, unit)} {shown(sight.v, unit)} {unit}, {shown(sight.distance, 'm')} m, taught {moment}: "
        f"index error {shown(sight.index, unit)}, collimation error {shown(sight.collimation, unit)} {unit}",
        *[f"deadline {DEADLINE}"] * (not text.has_deadline), f"name {target} {name}",
        f"near {target} {hz} {v} {near.rad:f} {distance} {near.m:f}", *(command.line(target) for command in chain(hz, v, faces))]
