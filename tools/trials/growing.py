"""A file of rows that grows as a station's does, for trials: whole rows and rows in pieces, torn ones that are cut off again, and
every outcome. Rows differ from one another, and some have quotes, commas and bytes that were no ASCII. They are those of a table,
without or with `--columns`, or objects of `--json`.
"""

import csv
import datetime
import json
import os
import random
import threading

from outcomes import COUNTED, JUDGED, UNSENT
from records import ANSWER_COLUMNS, COLUMNS, GOOD, HEAD, LAST, NUMBERS, UNCONFIRMED, line_of, moment_text, with_columns

TARGETS = [(7, b"pier 4", 2.25, 1.625, 110.0625), (8, b"", 0.5, 1.5, 25.125), (9, b"a/b+c #1", 4.0, 1.5, 48.5)]
COMMANDS = [b"9027", b"2008", b"2108", b"2107", b"5004"]
BEGIN = datetime.datetime(2026, 11, 24, 20, 0, tzinfo=datetime.timezone.utc)
RUN = b"2026-11-24T19:59:50.000Z"


def stamp(moment):
    """A moment as a row has it."""
    return moment_text(moment).encode()


def row(chance, number):
    """A row: its number, counted from 0, is in its time and its cycle."""
    moment = BEGIN + datetime.timedelta(milliseconds=number * 20_000)
    target, name, hz, v, distance = TARGETS[number // len(COMMANDS) % len(TARGETS)]
    place = number % (len(COMMANDS) * len(TARGETS))
    procedure = COMMANDS[number % len(COMMANDS)]
    outcome = chance.choices([*map(str.encode, COUNTED)], [80, 3, 3, 6, 1, 2, *(1 for _ in JUDGED)])[0]
    fault = rc_com = rc = values = quality = b""
    if outcome == b"answered":
        rc_com, rc, quality = b"0", b"0", b"ok"
        sway = chance.gauss(0, 1)
        if procedure == b"2108" and chance.random() < 0.05:
            rc, quality = b"1285", b"refused"
        elif procedure == b"2108":
            if chance.random() < 0.05:
                rc, quality = b"1283", b"warning"
            values = b'"%.9f,%.9f,%.5f"' % (hz + sway * 4e-6, v + chance.gauss(0, 3e-6), distance + chance.gauss(0, 8e-4))
        elif procedure == b"2107":
            values = b'"%.9f,%.9f"' % (hz + sway * 4e-6, v + chance.gauss(0, 3e-6))
        elif procedure == b"5004":
            values = b'"""SIM %d"""' % number
        if quality == b"ok" and number % 11 == 5:
            quality = b"unconfirmed"
    elif outcome == b"unreadable":
        fault, rc_com, rc, values = b"11", b"0", b"0", rb'"x,\xff\x00%d"' % number
    elif outcome.decode() in JUDGED:
        rc_com, rc, values = b"0", b"0", b'"%.9f,%.9f"' % (hz + 0.5, v)
    sent = b"" if outcome.decode() in UNSENT else stamp(moment - datetime.timedelta(milliseconds=1_234))
    fields = {
        "run": RUN, "sent": sent, "time": stamp(moment), "cycle": b"%d" % (number // (len(COMMANDS) * len(TARGETS)) + 1), "step": b"%d" % place,
        "target": b"%d" % target, "name": name, "procedure": procedure, "outcome": outcome, "fault": fault, "rc_com": rc_com, "rc": rc,
        "values": values, "quality": quality, "attempt": b"2" if number % 7 == 3 else b"1",
        "request": b'"%%R1Q,%b,%d:"' % (procedure, number % 8) if sent else b"",
    }
    return b",".join(fields.get(column, b"") for column in COLUMNS) + b"\n"


def parted(line):
    """The fields of a row by the names of their columns, and the items of its answer by those of their quantities."""
    fields = dict(zip(COLUMNS, next(csv.reader([line.decode("latin-1")[:-1]]))))
    names = {"2107": ANSWER_COLUMNS[:2], "2108": ANSWER_COLUMNS[:3], "5004": ["instrument"]}.get(fields["procedure"], [])
    return fields, dict(zip(names, fields["values"].split(","))) if fields["quality"] in (*GOOD, UNCONFIRMED) else {}


def plain(name, item):
    """A quantity as a station writes it."""
    return item.strip('"') if name == "instrument" else item.rstrip("0").removesuffix(".")


def row_of_columns(chance, number):
    """The same row as `row` makes, as `--columns` writes it."""
    fields, items = parted(row(chance, number))
    return line_of(fields | {name: plain(name, item) for name, item in items.items()}, with_columns(ANSWER_COLUMNS))


def row_of_json(chance, number):
    """The same row as `row` makes, as `--json` writes it."""
    fields, items = parted(row(chance, number))
    members = []
    for name, item in items.items():
        is_text = name == "instrument"
        members += [(name, json.dumps(plain(name, item)) if is_text else plain(name, item))] + [(f"{name}_text", json.dumps(item))] * (not is_text)
    return object_of(fields, members)


def object_of(fields, members):
    """The object of JSON that a row with these fields is, without the empty ones. Before the last ones it has these members, each a name and
    its JSON."""
    texts = {name: field for name, field in fields.items() if field or name == "values" and fields["rc_com"]}
    written = [(name, field if name in NUMBERS else json.dumps(field)) for name, field in texts.items()]
    front = [each for each in written if each[0] not in LAST]
    return ("{" + ",".join(f'"{name}":{field}' for name, field in [*front, *members, *written[len(front):]]) + "}\n").encode()


class Growing:
    """A file that grows at random until it is ended. It counts its rows, and how often one was torn and cut off."""

    def __init__(self, path, seed, rest=0.02, most=20, head=HEAD, line=row):
        self.path, self.rest, self.most, self.head, self.line = path, rest, most, head, line
        self.chance = random.Random(seed)
        self.rows = self.torn = 0
        self.ending = threading.Event()
        self.thread = threading.Thread(target=self.grow, daemon=True)
        self.thread.start()

    def grow(self):
        with open(self.path, "ab", buffering=0) as file:
            file.write(self.head[:9])
            self.ending.wait(self.rest)
            file.write(self.head[9:])
            while not self.ending.wait(self.chance.uniform(0, 2 * self.rest)):
                for _ in range(self.chance.randint(1, self.most)):
                    self.add(file)

    def add(self, file):
        """Adds a row: in one piece, in two, or torn first, as after a crash, and cut off at the next start."""
        line = self.line(self.chance, self.rows)
        how = self.chance.random()
        cut = self.chance.randint(1, len(line) - 1)
        if how < 0.02:
            whole = os.fstat(file.fileno()).st_size
            file.write(line[:cut])
            self.ending.wait(self.chance.uniform(0, 0.02))
            os.ftruncate(file.fileno(), whole)
            self.torn += 1
        if how < 0.05:
            file.write(line[:cut])
            self.ending.wait(self.chance.uniform(0, 0.02))
            line = line[cut:]
        file.write(line)
        self.rows += 1

    def end(self):
        self.ending.set()
        self.thread.join()


def first_rows(count, seed=5):
    """The first rows of a table that grows by this seed."""
    chance = random.Random(seed)
    return [row(chance, number) for number in range(count)]
