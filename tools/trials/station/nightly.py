"""Judges the rows of a night (`night.py`): each command of each attempt has one row, in order; a chain is repeated exactly where its
text says so, unless its cycle is abandoned; nothing is sent after a command that wasn't answered well, and no command of a cycle before
the set-up of its connection; and what a row says of an answer was made on executing that row's very request."""

import collections
import datetime
import itertools

from measuring import counts_of
from night import AGAIN, CHAIN, COMMANDS, PRISMS, RETRIES, SETUP, TOLERANCE
from outcomes import REPLIED, UNSENT
from pointing import apart
from records import GOOD, moment

# The procedures whose replies have the number of their execution.
NUMBERED = ["2108", "2167", "2028"]


def milliseconds(text):
    """A moment of a row, in milliseconds since 1970."""
    return round(1000 * moment(text).timestamp())


def clock_set(sent):
    """The parameters of 5007 for the moment of a row."""
    at = moment(sent).astimezone(datetime.timezone.utc)
    return ",".join([str(at.year), *(f"'{part:02x}'" for part in (at.month, at.day, at.hour, at.minute, at.second))])


def params_of(row):
    """What the request of a row asked with."""
    commands = SETUP if row["cycle"] == "0" else COMMANDS
    params = commands[int(row["step"])][2]
    return clock_set(row["sent"]) if params is None else params


def is_well(row):
    return row["outcome"] == "answered" and row["quality"] in GOOD


def goes_again(row):
    """Whether the text says that a chain with this row is repeated."""
    return row["outcome"] in AGAIN or row["outcome"] == "answered" and row["rc"] in AGAIN


def numbers_of(rows, asked):
    """Of each row that was sent the number of its request on the line: the first that came after the row's moment, with its procedure and
    its parameters, before the next such row's moment, or before the row was answered. A request that was cut has none."""
    sent, numbers, at = collections.defaultdict(list), {}, collections.defaultdict(int)
    for n, row in enumerate(rows):
        if row["sent"]:
            sent[int(row["procedure"]), params_of(row)].append((milliseconds(row["sent"]), n))
    for number, one in enumerate(asked):
        key = one.rpc, one.params
        mine, place = sent[key], at[key]
        while place + 1 < len(mine) and mine[place + 1][0] <= one.utc + 1:
            row = rows[mine[place][1]]
            if mine[place][1] not in numbers and row["outcome"] in REPLIED and one.utc <= milliseconds(row["time"]) + 1:
                break  # it is answered after this request came, though the next one like it goes out in the same millisecond
            place += 1
        at[key] = place
        if mine and mine[place][0] <= one.utc + 1:
            numbers.setdefault(mine[place][1], number)
    return numbers


def faults_of_answers(rows, night):
    """Rows whose answers are of another request, or were measured off target and don't say so."""
    numbers, made = numbers_of(rows, night.line.asked), night.requests()
    executed = set(made)
    for n, row in enumerate(rows):
        number = numbers.get(n)
        if row["outcome"] in REPLIED and number not in executed:
            yield f"{row}: its request wasn't executed"
        elif row["outcome"] in REPLIED and row["procedure"] in NUMBERED and row["values"]:
            *_, execution = row["values"].split(",")
            if made[int(execution) - 1] != number:
                yield f"{row}: its line was made for request {made[int(execution) - 1]}, and it is {number}"
        # The values of a raw answer stay text: `near` doesn't look at them.
        if row["procedure"] == "2108" and is_well(row) and not is_near(row):
            yield f"{row}: it was measured off target"


def is_near(row):
    hz, v = map(float, row["values"].split(",")[:2])
    return apart((hz, v), tuple(map(float, PRISMS[int(row["target"])]))) <= TOLERANCE


def faults_of_cycles(cycles):
    """What is wrong with these cycles, which follow one another. The one behind a cycle that is abandoned is missed."""
    for some, later in itertools.zip_longest(cycles, cycles[1:]):
        yield from faults_of_cycle(int(some[0]["cycle"]), some, not later or later[0]["outcome"] == "missed")


def are_skipped(rows):
    return all(row["outcome"] == "skipped" for row in rows)


def faults_of_cycle(cycle, rows, may_be_abandoned):
    """What is wrong with a cycle: its chains, each with its attempts, and the command by itself. Of one that is abandoned all that is left is
    skipped, and no chain is repeated."""
    if rows[0]["outcome"] == "missed":
        if [row["outcome"] for row in rows] != ["missed"] * len(COMMANDS):
            yield f"cycle {cycle} is missed in part"
        return
    left = list(rows)
    for chain in range(len(PRISMS)):
        for attempt in itertools.count(1):
            one, left = left[: len(CHAIN)], left[len(CHAIN) :]
            places = [(int(row["step"]), int(row["attempt"])) for row in one]
            if places != [(chain * len(CHAIN) + n, attempt) for n in range(len(CHAIN))]:
                yield f"cycle {cycle}, chain {chain}, attempt {attempt} has {places}"
                return
            yield from faults_of_chain(one, may_be_abandoned and are_skipped(one + left))
            if not any(map(goes_again, one)) or attempt > RETRIES or may_be_abandoned and are_skipped(left):
                break
    if [(row["procedure"], row["attempt"]) for row in left] != [(str(COMMANDS[-1][1]), "1")]:
        yield f"cycle {cycle} ends with {left}"


def faults_of_chain(rows, is_abandoned):
    for before, row in itertools.pairwise(rows):
        if row["sent"] and not is_well(before):
            yield f"{row}: it was sent behind {before}"
    if rows[0]["outcome"] in UNSENT and not is_abandoned:
        yield f"{rows[0]}: a chain begins so"


def faults_of_setup(rows, night):
    """A command of a cycle that came over a connection whose set-up wasn't answered well; attempts of a set-up that don't count up."""
    numbers, done = numbers_of(rows, night.line.asked), collections.defaultdict(list)
    attempts = []
    for n, row in enumerate(rows):
        over = night.line.asked[numbers[n]].connection if n in numbers else None
        if row["cycle"] == "0":
            attempts.append((int(row["attempt"]), int(row["step"])))
            if is_well(row):
                done[over].append(int(row["step"]))
        elif over is not None and done[over][-len(SETUP) :] != list(range(len(SETUP))):
            yield f"{row}: it went out over connection {over}, whose set-up is {done[over]}"
    starts = [n for n, one in enumerate(attempts) if one[1] == 0]
    for number, (start, end) in enumerate(zip(starts, [*starts[1:], len(attempts)]), 1):
        if attempts[start:end] != [(number, place) for place in range(end - start)]:
            yield f"attempt {number} of the set-up is {attempts[start:end]}"


def faults_of_run(rows, night):
    """What is wrong with the rows of one run, of which the last cycle may be cut."""
    yield from faults_of_setup(rows, night)
    cycles = [(int(cycle), list(some)) for cycle, some in itertools.groupby((row for row in rows if row["cycle"] != "0"), key=lambda row: row["cycle"])]
    if [cycle for cycle, _ in cycles] != list(range(1, len(cycles) + 1)):
        yield f"the cycles are {[cycle for cycle, _ in cycles]}"
    yield from faults_of_cycles([some for _, some in cycles])


def counted(rows):
    """What the rows are, in words."""
    setups = [row for row in rows if row["cycle"] == "0"]
    good = sum(is_well(row) and int(row["step"]) == len(SETUP) - 1 for row in setups)
    qualities = collections.Counter(row["quality"] for row in rows if row["quality"])
    again = collections.Counter(row["attempt"] for row in rows if row["cycle"] != "0")
    return (f"{len(rows)} rows; {counts_of(rows)}; qualities {dict(qualities)}; rows of attempts {dict(again)}; "
            f"{len(setups)} rows of set-ups, of which {good} were done")
