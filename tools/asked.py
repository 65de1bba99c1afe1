"""What `geocom` is asked to do: commands that an instrument gets by `geocom ask`, one at a time, and a station's text that `geocom station
--check` looks through. A refusal, a reply that doesn't read and a line that fails are raised, in words that name them.
"""

import contextlib
import os
import re
import select
import subprocess
import tempfile
import time
from dataclasses import dataclass

import program_help
import quantities
from return_codes import TEXTS

REPLY = re.compile(r"%R1P,(\d+)(?:,\d)?:(\d+)(?:,(.*))?")
SETTLED = re.compile(r"\d+ \d+ (?:answered (.*)|(lost))")
# The command that goes ahead: its answer may be a reply from before, and those after it are then their own.
NULL = "0 0"


class Refused(Exception):
    """Why what was asked for isn't there, in words."""


@dataclass(frozen=True)
class Command:
    """A procedure with its parameters, and what it does, for whoever reads that it was refused."""

    procedure: int
    params: str
    does: str

    def __str__(self):
        return f"{self.procedure} ({self.does})"

    def line(self, target):
        return f"{target} {self.procedure} {self.params}"


def meaning(code):
    """A code of the instrument, in words."""
    return f"{code}: {TEXTS.get(int(code), 'see the manual of the instrument')}"


def values_of(command, line):
    """The quantities that a reply has, by their names. A refusal is raised, and a reply that hasn't all of its procedure."""
    found = REPLY.fullmatch(line)
    if not found:
        raise Refused(f"{command}: no reply, but {line!r}")
    communication, code, values = found[1], found[2], found[3] or ""
    if int(communication):
        raise Refused(f"{command}: communication code {meaning(communication)}")
    if int(code):
        raise Refused(f"{command}: return code {meaning(code)}")
    fields = {"procedure": command.procedure, "quality": "ok", "values": values}
    if command.procedure in quantities.QUANTITIES and not quantities.is_whole(fields):
        raise Refused(f"{command}: the values don't read: {values!r}")
    return quantities.quantities(fields)


class Program:
    """The program, and where its instrument is. A command that isn't settled within the patience, in seconds, ends the asking."""

    def __init__(self, program, where, patience):
        self.program, self.where, self.patience = program, where, patience
        try:
            self.faults = dict(re.findall(r"^  (\d\d)  (.*)$", program_help.help_of(program), re.M))
        except (OSError, subprocess.CalledProcessError) as why:
            raise Refused(f"{program}: {getattr(why, 'strerror', None) or why}: the program of the package geocom is wanted") from None

    def found(self, text):
        """What looks wrong with a station's text, or with the place: what `station --check` writes as messages."""
        words = [self.program, "station", self.where, "--check"]
        checked = subprocess.run(words, input=text, capture_output=True, check=False)
        messages = checked.stderr.decode(errors="replace").strip()
        return messages or (f"station --check: status {checked.returncode}" if checked.returncode else "")

    def ask(self, commands):
        """The quantities that each command's answer has. The first one that wasn't answered well is raised, once all are settled."""
        given = "\n".join([NULL, *(command.line(0) for command in commands), ""]).encode("ascii")
        come = []
        with tempfile.TemporaryFile() as messages, subprocess.Popen(
                [self.program, "ask", self.where], stdin=subprocess.PIPE, stdout=subprocess.PIPE, stderr=messages) as asking:
            try:
                # (it may have ended, as where the device is held)
                with contextlib.suppress(BrokenPipeError):
                    asking.stdin.write(given)
                    asking.stdin.flush()
                with contextlib.suppress(BrokenPipeError):
                    asking.stdin.close()
                is_late = not self.take(asking, come)
            finally:
                asking.kill()
            why = "" if is_late else self.why(messages)
        values = [values_of(command, line) for command, line in zip(commands, come[1:])]
        if is_late:
            why = f"no answer within {self.patience:g} s. It may still act: wait until it is at rest"
        if why or len(values) < len(commands):
            waited = commands[len(values)] if come and len(values) < len(commands) else "the first request"
            raise Refused(f"{waited}: {why or 'geocom ask ended'}")
        return values

    def take(self, asking, come):
        """Takes the lines that were settled, as they come, up to one that was lost; whether each was within the patience."""
        rest, end = b"", time.monotonic() + self.patience
        while select.select([asking.stdout], [], [], max(0.0, end - time.monotonic()))[0]:
            data = os.read(asking.stdout.fileno(), 4096)
            if not data:
                asking.wait(self.patience)
                return True
            *lines, rest = (rest + data).split(b"\n")
            for line in lines:
                found = SETTLED.fullmatch(line.decode(errors="backslashreplace"))
                if found and not found[2]:
                    come.append(found[1])
                    end = time.monotonic() + self.patience
        return False

    def why(self, messages):
        """Why the asking ended: its fault with the meaning, and what else was said; nothing where it came to its end."""
        messages.seek(0)
        lines = messages.read().decode(errors="replace").splitlines()
        said = []
        for line in lines:
            fault = re.fullmatch(r"geocom: fault (\d+)(.*)", line)
            said.append(f"fault {fault[1]}{fault[2]}: {self.faults.get(fault[1], '')}" if fault else line.removeprefix("geocom: "))
        return "; ".join(said)
