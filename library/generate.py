#!/usr/bin/env python3
"""Writes what the Python package and the tools have of the tables of docs/PROTOCOL.md: generate.py [--check], from the top of the repository. It
compares them with the columns of rows in crates/gc_cases/data/columns.csv.

`codes.py` has the return codes, `results.py` the procedures with the tuples that they answer, and `named.py`, of the package and of
`aio`, a method for each procedure; `tools/return_codes.py` has the codes' meanings. With --check it writes nothing, and ends with status 1 where a file differs.
"""

import csv
import re
import sys
import textwrap
from pathlib import Path

sys.dont_write_bytecode = True
sys.path.insert(0, "tools")

from procedures import rows

PACKAGE = Path("library/python/geocom")
UNITS = {"radians": "rad", "metres": "m", "milliseconds": "ms", "degrees Celsius": "c"}
PLAIN = {
    "horizontal direction": "hz",
    "vertical angle": "v",
    "slope distance": "distance",
    "temperature inside the instrument": "temperature",
    "serial number": "serial",
    "name": "instrument",
}
# What would have the name of another thing: of the class of a station, and of two enums.
RENAMED = {"TMC_GetStation": "StationPoint", "TMC_GetFace": "TelescopeFace", "BAP_GetPrismType": "Prism"}
REWORDED = {18: "the battery is nearly empty, and the instrument goes off soon"}
# What a caller has to know of a procedure besides: from memory, not from the manual.
NOTES = {2117: " It measures in tracking mode: not for monitoring (from memory)."}
# The enums of modes, in `modes.py`, of the procedures' parameters.
MODES = {
    (2008, "command"): "MeasureCommand",
    (2008, "mode"): "InclinationMode",
    (2107, "mode"): "InclinationMode",
    (2108, "mode"): "InclinationMode",
    (17017, "mode"): "DistanceMode",
} | {(number, f"{name}_mode"): enum for number in (9027, 9028)
     for name, enum in [("positioning", "PositioningMode"), ("target_recognition", "RecognitionMode")]}
WARNINGS = {1283, 1284, 1285, 1288, 1289}
DATE = "year month day hour minute second".split()
NUMBER = "Decimal"
TYPES = {"Double": NUMBER, "Long": "int", "Short": "int", "Byte": "int", "Boolean": "bool", "String": "str"}
READERS = {"Double": NUMBER, "Long": "int", "Short": "int", "Byte": "byte", "String": "text"}
ENUMS = {"face": "Face", "prism_type": "PrismType"}
GROUPS = {
    "COM": "What concerns the communication, and the instrument's software.",
    "CSV": "What the instrument is: its number, name, clock and temperature.",
    "TMC": "Angles, distances and coordinates.",
    "BAP": "Measurements as the instrument's own programs make them.",
    "AUT": "What moves the telescope.",
}


def fields(cell):
    """The parameters of a cell of the table: the name of each, and its kind."""
    found = []
    for words, kinds in re.findall(r"([^()]+)\((?:\d+ )?(\w+?)s?\)", "" if cell == "none" else cell):
        pending = []
        for phrase in words.split(":")[0].strip(", ").split(", "):
            phrase, _, unit = phrase.partition(" in ")
            pending.append(PLAIN.get(phrase, phrase).replace(" ", "_"))
            if unit:
                found += [(f"{name}_{UNITS[unit]}", kinds) for name in pending]
                pending = []
        found += [(name, kinds) for name in pending]
    return found


def snake(name):
    return re.sub(r"(?<=[a-z])(?=[A-Z])|(?<=[A-Z])(?=[A-Z][a-z])", "_", name).lower()


class Procedure:
    def __init__(self, number, name, parameters, answer):
        self.number, self.name = int(number), name.split(" ")[0]
        self.group, self.call = self.name.split("_")
        self.parameters, self.answer = fields(parameters), fields(answer)
        self.takes, self.gives = parameters, answer
        self.result = RENAMED.get(self.name, self.call.removeprefix("Get")) if self.answer else "None"
        self.is_date = [name for name, _ in self.answer] == DATE

    def type_of(self, name, kind):
        return ENUMS.get(name, TYPES[kind])

    def reading(self):
        if not self.answer:
            return "nothing"
        if self.is_date:
            return f"lambda items: {self.result}(moment(items))"
        return f"reader({', '.join([self.result] + [n if n in ENUMS else READERS[k] for n, k in self.answer])})"


def read_procedures(text):
    return [Procedure(*row[:4]) for row in rows(text)]


def head(what, *imports):
    return "\n".join([f'"""{what}', "", "Written by `library/generate.py` of the tables of `docs/PROTOCOL.md`.", '"""', "", *imports, ""])


def results(procedures):
    out = [head("The procedures, and the named tuples that they answer.", "from __future__ import annotations", "",
                "import datetime", "from collections.abc import Callable, Sequence", "from decimal import Decimal",
                "from typing import Any, NamedTuple", "",
                "from .values import Face, PrismType, face, moment, prism_type, reader, text")]
    seen = set()
    for each in procedures:
        if not each.answer or each.result in seen:
            continue
        seen.add(each.result)
        same = ", ".join(f"{p.number} {p.name}" for p in procedures if p.result == each.result)
        body = ["moment: datetime.datetime"] if each.is_date else [f"{n}: {each.type_of(n, k)}" for n, k in each.answer]
        out.append("\n".join(["", f"class {each.result}(NamedTuple):", *wrapped(f"{same}: {each.gives}.", 4), ""] + [f"    {line}" for line in body] + [""]))
    out.append(textwrap.dedent('''

        class Procedure(NamedTuple):
            """A procedure: its name, the kinds of its parameters, and how its answer is read."""

            name: str
            kinds: tuple[str, ...]
            read: Callable[[Sequence[str]], Any]


        def nothing(_: Sequence[str]) -> None:
            """The answer of a procedure that answers nothing."""


        #: The table, by the procedures' numbers.
        TABLE: dict[int, Procedure] = {'''))
    for each in procedures:
        kinds = "".join(f'"{kind}", ' for _, kind in each.parameters).rstrip(" ")
        kinds = f"({kinds if len(each.parameters) == 1 else kinds.rstrip(',')})"
        entry = f'    {each.number}: Procedure("{each.name}", {kinds}, {each.reading()}),'
        if len(entry) > 100:
            entry = f'    {each.number}: Procedure(\n        "{each.name}",\n        {kinds},\n        {each.reading()},\n    ),'
        out.append(entry)
    out.append("}\n")
    return "\n".join(out).replace("\n\n\n\n", "\n\n\n")


def wrapped(text, indent):
    """A docstring of at most 100 columns."""
    lines = textwrap.wrap(text, 100 - indent - 6)
    pad = " " * indent
    if len(lines) == 1:
        return [f'{pad}"""{lines[0]}"""']
    return [f'{pad}"""{lines[0]}', *[pad + line for line in lines[1:]], f'{pad}"""']


def method(each, is_async):
    if each.number == 5007:
        given, passed, names = ["moment: datetime.datetime"], "", []
    else:
        names = [name for name, _ in each.parameters]
        given = []
        for name, kind in each.parameters:
            kind = "Parameter" if kind == "Double" else TYPES[kind]
            given.append(f"{name}: {kind}" + (" = False" if name == "dummy" else ""))
    given = "".join(f", {each}" for each in given)
    head = f"    {'async ' if is_async else ''}def {snake(each.call)}("
    options = "target: int = 0, timeout: Optional[float] = None"
    one = f"{head}self{given}, *, {options}) -> {each.result}:"
    if len(one) > 100:
        one = f"{head}\n        self{given}, *, {options}\n    ) -> {each.result}:"
        if max(map(len, one.split("\n"))) > 100:
            parts = ["self", *given[2:].split(", "), "*", *options.split(", ")]
            one = f"{head}\n" + "".join(f"        {part},\n" for part in parts) + f"    ) -> {each.result}:"
    takes = "" if each.takes == "none" else f" Takes {each.takes}."
    gives = "" if each.gives == "none" else f" Answers {each.gives}."
    gives += NOTES.get(each.number, "")
    if modes := [f"`{MODES[each.number, name]}`" for name, _ in each.parameters if (each.number, name) in MODES]:
        takes += f" Modes: {', '.join(modes)}."
    values = "date_parts(moment)" if each.number == 5007 else f"({', '.join(names)}{',' if len(names) == 1 else ''})"
    call = f"{'await ' if is_async else ''}self._value({each.number}, {values}, target, timeout)"
    body = f"        {call}" if each.result == "None" else f"        return cast({each.result}, {call})"
    if len(body) > 100 and each.result == "None":
        body = body.replace("_value(", "_value(\n            ")[:-1] + "\n        )"
    elif len(body) > 100:
        body = f"        return cast(\n            {each.result}, {call}\n        )"
    return "\n".join([one, *wrapped(f"{each.number} {each.name}.{takes}{gives}", 8), body, ""])


def named(procedures, is_async):
    dots = ".." if is_async else "."
    names = sorted({p.result for p in procedures if p.answer})
    imported = f"from {dots}results import {', '.join(names)}"
    if len(imported) > 100:
        imported = f"from {dots}results import (\n" + "".join(f"    {name},\n" for name in names) + ")"
    out = [head("The procedures by their names" + (", for asyncio." if is_async else "."), "from __future__ import annotations", "",
                "import datetime", "from typing import Any, Optional, Protocol, cast", "", imported,
                f"from {dots}values import Parameter, date_parts")]
    way = "async " if is_async else ""
    out.append(textwrap.dedent(f'''
        class _Asker(Protocol):
            {way}def value_of(
                self,
                number: int,
                parameters: tuple[Parameter, ...],
                target: int,
                timeout: Optional[float],
            ) -> Any:
                ...


        class _Group:
            def __init__(self, station: _Asker):
                self._value = station.value_of
    '''))
    for group, says in GROUPS.items():
        out.append(f'\nclass {group.capitalize()}(_Group):\n    """{says}"""\n')
        out += [method(each, is_async) for each in procedures if each.group == group]
    return "\n".join(out).rstrip("\n") + "\n"


def read_codes(text):
    """The codes of the tables: number, name, meaning."""
    found = []
    for numbers, names, says in re.findall(r"^\| ([\d, ]+) \| (`GRC_[^|]*) \| (.*) \|$", text, re.M):
        numbers, names = numbers.split(", "), re.findall(r"`(\w+)`", names)
        parts = re.split(r"; ", says) if len(numbers) > 1 and says.count(";") == 1 else [says] * len(numbers)
        found += list(zip(map(int, numbers), names, parts))
    return [(0, "GRC_OK", "done")] + sorted(found)


def texts(found, name):
    """A dictionary of what the codes say."""
    return "\n".join([f"{name} = {{", *(f'    {number}: "{REWORDED.get(number, says)}",' for number, _, says in found), "}\n"])


def codes(found):
    out = [head("The return codes and the communication codes, with the manual's names.", "from __future__ import annotations", "",
                "from .values import OpenEnum")]
    out.append(textwrap.dedent('''
        class RC(OpenEnum):
            """A return code or a communication code of `docs/PROTOCOL.md`; others are `UNKNOWN_N`.

            >>> RC(1283).is_warning, RC(1285).text
            (True, 'the angles are valid, and there is no distance')
            """
    '''))
    out += [f"    {name} = {number}" for number, name, _ in found]
    out.append(textwrap.indent(textwrap.dedent('''
        @property
        def text(self) -> str:
            """What it says, in a few words."""
            return _TEXTS.get(int(self), "see the instrument's manual")

        @property
        def is_warning(self) -> bool:
            """Whether values may come with it, on many instruments: see yours."""
            return int(self) in _WARNINGS
    '''), "    ", lambda line: line.strip() != "") + "\n")
    out.append(f"_WARNINGS = {{{', '.join(map(str, sorted(WARNINGS)))}}}")
    out.append(texts(found, "_TEXTS"))
    return "\n".join(out)


def main():
    text = Path("docs/PROTOCOL.md").read_text(encoding="utf-8")
    procedures = read_procedures(text)
    # The quantities of the answers are called what the columns of a station's rows are called.
    with open("crates/gc_cases/data/columns.csv", encoding="utf-8", newline="") as file:
        columns = {column["name"] for column in csv.DictReader(file) if column["procedures"]}
    answered = {name for each in procedures for name, _ in each.answer}
    if answered != columns:
        sys.exit(f"generate.py: the columns of rows and the answers differ in {sorted(answered ^ columns)}")
    found = read_codes(text)
    meanings = head("What the return codes and the communication codes of an instrument say, in a few words.")
    files = {
        PACKAGE / "codes.py": codes(found),
        PACKAGE / "results.py": results(procedures),
        PACKAGE / "named.py": named(procedures, False),
        PACKAGE / "aio/named.py": named(procedures, True),
        Path("tools/return_codes.py"): f"{meanings}{texts(found, 'TEXTS')}",
    }
    differ = [path for path, made in files.items() if not path.exists() or path.read_text(encoding="utf-8") != made]
    if "--check" in sys.argv:
        if differ:
            sys.exit(f"generate.py: not as it is written: {', '.join(map(str, differ))}")
        print(f"the table: {len(procedures)} procedures, as docs/PROTOCOL.md has them")
        return
    for path in differ:
        path.write_text(files[path], encoding="utf-8")
        print(f"written: {path}")


main()
