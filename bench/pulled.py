"""Measures what `docs/BENCHMARKS.md` says of a line that is pulled for a minute: how many of 24 cycles of five seconds it costs.

    pulled.py GEOCOM

*Pulled* is a line whose connection ends, and at which none can be made for a minute. *Mute* is one behind a port that stays, as at a
bridge: connections stand, and each request is lost. A cycle has three commands, and costs where one of them isn't answered. The minute
begins 31 seconds after the first request. Each is measured with the defaults, and with `--deadline 2000 --retries always`, side by side.
"""

import csv
import os
import sys
import threading
import time

sys.dont_write_bytecode = True
TOOLS = os.path.join(os.path.dirname(os.path.abspath(__file__)), "../tools")
# The parts of the scripts in tools/.
sys.path[:1] = [TOOLS, f"{TOOLS}/trials"]

from far_end import LOSES, good, standing
from measuring import measuring

CYCLES, EVERY, BEHIND, AWAY = 24, 5, 31, 60
COMMANDS = b"7 5003\n8 5004\n9 2026\n"


def cost(kind, words):
    """How many cycles it cost, and how many of these were missed."""

    def answers(request):
        if not began:
            began.append(time.monotonic())
            if kind == "pulled":
                threading.Thread(target=pull).start()
        is_away = BEHIND <= time.monotonic() - began[0] < BEHIND + AWAY
        return LOSES if kind == "mute" and is_away else good(request)

    def pull():
        time.sleep(BEHIND)
        far.pull()
        time.sleep(AWAY)
        far.plug()

    began = []
    with standing(answers) as far:
        with measuring(sys.argv[1], far.port, f"--every {EVERY} --cycles {CYCLES} {words}", COMMANDS) as station:
            status = station.status(10 * EVERY * CYCLES)
            rows = list(csv.DictReader(station.output().decode().splitlines()))
    costs = {row["cycle"] for row in rows if row["outcome"] != "answered"}
    missed = {row["cycle"] for row in rows if row["outcome"] == "missed"}
    # The line and its end at once: two threads print.
    print(f"{kind}, {words or 'with the defaults'}: {len(costs)} of {CYCLES} cycles, {len(missed)} of them missed; status {status}\n", end="", flush=True)


def main():
    cases = [(kind, words) for kind in ("pulled", "mute") for words in ("", "--deadline 2000 --retries always")]
    measures = [threading.Thread(target=cost, args=case) for case in cases]
    for measure in measures:
        measure.start()
    for measure in measures:
        measure.join()


main()
