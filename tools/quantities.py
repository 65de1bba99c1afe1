"""What the values of a row are, by the table of procedures in `docs/PROTOCOL.md`: the names of its quantities, with their units.

They are there where a row's answer is `ok` or a `warning` and its values read, and nowhere else: what is `unconfirmed` counts only once its
command was sent once more, by the row of that. Rows of earlier versions say no quality: there they are where both codes are 0. An answer to a
procedure outside the table, if the station's text describes it, has them in the row's own columns of these names.
"""

import re

from records import COLUMNS, GOOD, NEEDED, RETURNED

# How a number is spelt, for python and for PostgreSQL. What isn't spelt so is no quantity.
NUMBER = r"^[-+]?(?:[0-9]+\.?[0-9]*|\.[0-9]+)(?:[eE][-+]?[0-9]{1,3})?$"
# Of each procedure that measures or returns a quantity, what is at each place of its values.
QUANTITIES = {number: [name for name in RETURNED[number] if name != "mode"] for number in (2107, 2108, 2117, 17017, 2009, 2011, 2026, 5011)}
POINT = QUANTITIES[2108]
# A column that each row of a target that `tools/reduce` writes has filled: such a row has the direction and the distance as its values,
# whatever its procedure. (It has no request. A station's row has one, and may have a described column of this name.)
PAIRS = "pairs"
NAMES = list(dict.fromkeys(name for names in QUANTITIES.values() for name in names))
# The procedures that measure where a target is; the others tell of the instrument.
MEASURING = [procedure for procedure, names in QUANTITIES.items() if "hz_rad" in names]


def has_values(fields):
    """Whether a row was answered well, so that its values read, and isn't unconfirmed."""
    if fields.get("quality"):
        return fields["quality"] in GOOD
    return fields["outcome"] == "answered" and fields["rc_com"] == "0" and fields["rc"] == "0"


def is_reduced(fields):
    """Whether a row is one of a target that `tools/reduce` wrote."""
    return bool(fields.get(PAIRS)) and not fields.get("request")


def quantities(fields):
    """The quantities of a row, each as the text that came; of a procedure outside the table as its columns have them."""
    if not has_values(fields):
        return {}
    names = POINT if is_reduced(fields) else QUANTITIES.get(int(fields["procedure"]))
    if names is None:
        return {name: fields[name] for name in NAMES if re.match(NUMBER, fields.get(name, ""))}
    items = [item.strip(" ") for item in fields["values"].split(",")]
    return {name: item for name, item in zip(names, items) if re.match(NUMBER, item)}


def is_whole(fields):
    """Whether a row has each quantity of its procedure, and its procedure has one. A described answer has all of its quantities, or none."""
    found = quantities(fields)
    return bool(found) and found.keys() >= set(QUANTITIES.get(int(fields["procedure"]), []))


def measures(fields):
    """Whether a row is of a procedure that measures where a target is, whatever came of it; outside the table, whether its answer says where."""
    return int(fields["procedure"]) in MEASURING or {"hz_rad", "v_rad"} <= quantities(fields).keys()


class Measuring:
    """Which procedures measure where a target is: those of the table, and each other one from the first answer on that says where, of which
    some may be known."""

    def __init__(self, known=()):
        self.procedures = {*MEASURING, *known}

    def known(self):
        """Those that aren't in the table."""
        return sorted(self.procedures - {*MEASURING})

    def take(self, fields):
        """Takes a row; says whether it is of such a procedure, whatever came of it."""
        if measures(fields):
            self.procedures.add(int(fields["procedure"]))
        return int(fields["procedure"]) in self.procedures


# `has_values` in SQL.
HAS_VALUES = f"""(quality IN ({', '.join(f"'{word}'" for word in GOOD)})
    OR quality IS NULL AND outcome = 'answered' AND rc_com = 0 AND rc = 0)"""

# Whether a row `one` is of the last attempt of its command in a cycle, and not of the set-up.
IS_LAST = """one.cycle > 0 AND NOT EXISTS (
    SELECT 1 FROM record AS other WHERE other.source = one.source AND other.run = one.run AND other.cycle = one.cycle
        AND other.step = one.step AND other.attempt > one.attempt)"""
# What is looked for: times, a target over time, and the attempts of a command.
INDEXES = [
    "CREATE INDEX IF NOT EXISTS record_time ON record (time)", "CREATE INDEX IF NOT EXISTS record_target ON record (target, time)",
    "CREATE INDEX IF NOT EXISTS record_command ON record (source, run, cycle, step, attempt)",
]


def lacking(names):
    """The column without which rows can't go into a table `record` that has these, if there is one and the table is a follower's: one of an
    earlier build has the steps of its rows under another name."""
    return next((column for column in NEEDED if {"source", "line"} <= names and column not in names), None)


def view(item, cast, further):
    """The columns of a view: what distinguishes a row from others, and between its step and its attempt a column a quantity. `item` gives the
    SQL of the value at a place, `cast` that of its number, and `further` that of the text in a further column, which a described answer has."""
    columns = [", ".join(["source", "line", *COLUMNS[: COLUMNS.index("outcome")]])]
    for name in NAMES:
        cases = {}
        for procedure, names in QUANTITIES.items():
            if name in names:
                cases.setdefault(names.index(name), []).append(str(procedure))
        # (`is_reduced` in SQL)
        reduced = f" OR {further(PAIRS)} <> '' AND request IS NULL" if name in POINT else ""
        whens = " ".join(f"WHEN procedure IN ({', '.join(of)}){reduced} THEN {cast(item(place))}" for place, of in cases.items())
        columns.append(f"CASE {whens} ELSE {cast(further(name))} END AS {name}")
    # (it comes last: PostgreSQL adds columns to a view there alone)
    return ",\n    ".join([*columns, "attempt"])
