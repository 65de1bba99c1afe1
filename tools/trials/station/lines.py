"""Stations over a bad line: how each is run, and what is wrong with what it wrote."""

import sys
import tempfile
import time
from contextlib import contextmanager, nullcontext
from dataclasses import dataclass
from pathlib import Path

from judge import Plan, cycles_begun, judge, rows_of
from knowing import KNOWN
from line_log import read_log
from programs import Run, ended, free_port, is_listening, until
from records import counts_line

HERE = Path(__file__).resolve().parent
# Each target, its procedure and parameters, and the right values.
COMMANDS = [
    (11, "5003", "123456"),
    (12, "5004", '"GEOCOM SIM"'),
    (13, "110", "1,0,0"),
    (14, "5034", "1,2,0"),
    (15, "5011", "21.0"),
    (16, "2009", "0.0,0.0,0.0,0.0"),
    (17, "2026", "0"),
    (18, "108", "15"),
    (19, "5008", "1996,'07','19','10','13','2f'"),
    (20, "2011", "0.0"),
    (21, "2107 0", "0.0,0.0"),
]
# The targets of the same commands where some are in chains.
CHAINS = [11, 12, 12, 12, 13, 13, 14, 14, 14, 15, 16]
# The commands where most ask for procedures that aren't in the table, of an instrument that knows these: target recognition, the
# atmosphere, the tilts after a measurement, and others. Nine are in a row, which is more than a client has ids.
RAWS = [(target, call, KNOWN[int(call.removeprefix("raw ").split()[0])]) for target, call in [
    (11, "raw 18005 1"), (11, "raw 2028"), (11, "2107 0"), (11, "raw 2167 5000,1"), (12, "5003"), (12, "raw 2165 1"), (13, "raw 2124"),
    (13, "raw 5051"), (14, "raw 17020"), (14, "raw 18007"), (14, "raw 9018 0"), (15, "raw 2003"), (15, "raw 2020"), (16, "raw 2022"),
]]
ACCEPTED = "accept 1283 1284\n"
REFUSED = "geocom: fault 59"


@dataclass
class BadLine:
    """A run of a station over a bad line. `line` are words of `relay.py`, `words` those of the station. Without `cycles` it has a seventh
    of all cycles. The line is at an address, which the station is given as `host`, or, where that is empty, by a port alone. The
    times are in milliseconds, `every` in seconds. Where answers are tagged each has its request's number."""

    name: str
    words: str
    line: str
    cycles: int | None = None
    is_tagged: bool = False
    address: str = "127.0.0.1"
    host: str = ""
    deadline: int = 400
    quiet: int = 250
    every: int = 0
    is_chained: bool = False
    is_device: bool = False
    is_raw: bool = False

    def calls(self):
        """Each target with its procedure and parameters."""
        if self.is_raw:
            return [(target, call) for target, call, _ in RAWS]
        targets = CHAINS if self.is_chained else [target for target, _, _ in COMMANDS]
        return [(target, call) for target, (_, call, _) in zip(targets, COMMANDS)]

    def text(self):
        """The commands of the station."""
        return (ACCEPTED * self.is_raw + "".join(f"{target} {call}\n" for target, call in self.calls())).encode()

    def plan(self, cycles):
        """What the station is to do, where all runs together have so many cycles."""
        commands = [(target, int(call.removeprefix("raw ").split()[0])) for target, call in self.calls()]
        right = [value.split(",", 1) for _, _, value in RAWS] if self.is_raw else [("0", value) for _, _, value in COMMANDS]
        codes, values = zip(*right)
        return Plan(commands, values, self.deadline, self.quiet, self.every, self.cycles or cycles // 7 + 1, self.is_tagged, codes)


def relay(case, program, plan, port, log):
    """The running line."""
    procedures = ",".join(str(procedure) for _, procedure in plan.commands)
    return Run([
        sys.executable, HERE / "relay.py", "--at", case.address, "--listen", port, "--geocom", program, "--procedures", procedures,
        "--deadline", plan.deadline, "--settle", plan.quiet, "--log", log, *case.line.split(), *(["--tag"] if plan.is_tagged else []),
        *(["--knowing"] if case.is_raw else [])])


def measure(case, program, cycles):
    """Measures over a line, and judges; gives what is to be said of it."""
    plan, port = case.plan(cycles), free_port()
    with tempfile.TemporaryDirectory() as folder:
        log = Path(folder, "log")
        with relay(case, program, plan, port, log) as line:
            until(lambda: is_listening(port), "the line isn't there", 30)
            near = f"{case.host}:{port}" if case.host else port
            with bridge(port, Path(folder, "device")) if case.is_device else nullcontext(near) as place:
                status, written, messages = measured(case, program, plan, place, line)
            # The line notes a reply once it went over, and the station ends with its last one.
            time.sleep(1)
            line.terminate()
            seen = line.messages().strip()
        rows = rows_of(written.decode())
        verdict = judge(plan, rows, messages, read_log(log, plan.deadline, cycles_begun(rows)))
    assert status == 0, f"status {status} behind {verdict.counts}"
    if verdict.faults:
        raise AssertionError("\n".join([*verdict.faults[:10], verdict.counts]))
    if case.name == "good":
        assert counts_line().partition(")")[2] + ", " in verdict.counts and " 0 cycles not done in time, " in verdict.counts
    return f"station at {place}, {case.words}, {plan.cycles} cycles; {verdict.counts}; line: {seen}"


def measured(case, program, plan, place, line):
    """How a station ended there, whose line has to be there as long. At a device a second one is refused."""
    words = ["--deadline", plan.deadline, "--settle", plan.quiet, "--cycles", plan.cycles, "--retries", 1000, *(["--every", plan.every] if plan.every else [])]
    with Run([program, "station", place, *words, "--csv", *case.words.split()], case.text()) as run:
        if case.is_device:
            time.sleep(3)
            # Where it isn't refused it begins at once.
            second = ended([program, "station", place, "--silent"], case.text())
            assert (second.status, second.output, second.messages.splitlines()[:1]) == (1, b"", [REFUSED]), second
        until(lambda: not line.is_running() or run.ends_within(1), "the station doesn't end", 3000)
        assert line.is_running(), line.messages()
        return run.status(), run.output(), run.messages()


@contextmanager
def bridge(port, path):
    """A device whose line goes to a port."""
    with Run([sys.executable, HERE.parents[1] / "bridge.py", path, port]):
        until(path.exists, "the device isn't there", 30)
        yield path
