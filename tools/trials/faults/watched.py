"""A station whose file of rows is watched by all that reports of it: an alarm, `alive`, and a follower to a broker. What each of them says,
and how many seconds after something was broken.

Its period, its deadlines and the limits of those who watch are a few seconds, so that each trial is short.
"""

import csv
import datetime
import json
import os
import pwd
import re
import shutil
import tempfile
import threading
import time
from contextlib import ExitStack, contextmanager
from pathlib import Path

import freshness
from due import Arrivals, bound, due_by, first_due, latest, missing
from programs import Run, connect, free_port
from records import MOMENT, is_of_setup

TOOLS = Path(__file__).resolve().parents[2]
STAMP = MOMENT.pattern
# Of the station, in seconds: its period, its deadline, and how long a line has to be quiet.
EVERY, DEADLINE, QUIET = 1, 0.5, 0.1
# Of those who watch: an alarm's silence, and how old the last row and a measurement may be.
SILENCE, WITHIN, MEASURED = 3, 5, 3
# How much longer than that a line is waited for; what a program may take that has little to do, on a machine that is busy.
PATIENCE, SLACK = 8, 1.5
TEXT = b"name 7 pier 4\nname 8 crest\n7 17017 2\n8 17017 2\n9 5003\n"
COMMANDS = 3
LIMITS = f"target,column,reference,tolerance,outside,of\n*,silence,,,,{SILENCE}s\n7,silence,,,,{SILENCE}s\n8,silence,,,,{SILENCE}s\n"


@contextmanager
def broker():
    """The port of a mosquitto of the trials' own."""
    user = {"user": "nobody", "group": pwd.getpwnam("nobody").pw_gid, "extra_groups": []} if os.geteuid() == 0 else {}
    port = free_port()
    with tempfile.TemporaryDirectory() as place:
        os.chmod(place, 0o755)
        (Path(place) / "conf").write_text(f"listener {port} 127.0.0.1\nallow_anonymous true\n", encoding="utf-8")
        with Run([shutil.which("mosquitto", path="/usr/sbin:/usr/bin"), "-c", Path(place) / "conf"], cwd="/", **user):
            connect(port).close()
            yield port


class Listening:
    """A client of the broker that keeps what comes of a station. Its topic is the trial's own, since messages are retained."""

    def __init__(self, port, topic):
        from paho.mqtt import client as mqtt

        self.came = []
        ready = threading.Event()
        self.client = mqtt.Client()
        self.client.on_connect = lambda client, *_: client.subscribe([(f"{topic}/cycle", 1), (f"{topic}/state/#", 1)])
        self.client.on_subscribe = lambda *_: ready.set()
        self.client.on_message = lambda client, data, one: self.came.append(self.said(one.topic, one.payload.decode()))
        self.client.connect("127.0.0.1", port)
        self.client.loop_start()
        assert ready.wait(10), "the broker doesn't answer"

    @staticmethod
    def said(topic, text):
        """A message as a line: of a cycle what was measured, else the state."""
        if not topic.endswith("/cycle"):
            return f"state {text}"
        cycle = json.loads(text)
        return f"cycle {cycle['cycle']} good {cycle['good']} measured {cycle['measured']} unmeasured {cycle['unmeasured']}"

    def close(self):
        self.client.disconnect()
        self.client.loop_stop()


class Watched:
    """A station that runs, those who watch it, and what they said: lines, each with its source and the second of a clock that nobody sets."""

    def __init__(self, program, where, folder, broker_port, words="--retries always", text=TEXT, shell="", path=None, quiet=QUIET):
        self.path, self.stack, self.said, self.lock = path or folder / "north.csv", ExitStack(), [], threading.Lock()
        self.setup = text.count(b"\n", text.find(b"at start"), text.find(b"each cycle")) - 1 if b"at start" in text else 0
        words = f"--every {EVERY} --cycles unlimited --deadline {1000 * DEADLINE:.0f} --settle {1000 * quiet:.0f} {words}".split()
        self.command = [program, "station", where, *words, "--append", self.path, "--fsync"], text
        self.broken = self.began = time.monotonic()
        (folder / "limits").write_text(LIMITS, encoding="utf-8")
        self.came = self.stack.enter_context(Arrivals(self.path))
        self.listening = Listening(broker_port, folder.name)
        self.stack.callback(self.listening.close)
        self.station = self.stack.enter_context(Run(*self.command, shell=shell))
        self.alarm = self.stack.enter_context(Run([TOOLS / "alarm", self.path, folder / "limits", folder / "state", "--rest", "0.05"]))
        self.follower = self.stack.enter_context(Run([TOOLS / "to-mqtt", self.path, folder.name, "--port", broker_port, "--rest", "0.05"]))
        self.ending = threading.Event()
        self.thread = threading.Thread(target=self.look, daemon=True)
        self.thread.start()

    def __enter__(self):
        return self

    def __exit__(self, *_):
        self.ending.set()
        self.thread.join()
        self.stack.close()

    def sources(self):
        """All lines so far of each source."""
        yield "journal", self.station.messages().split("\n")[:-1] + ([] if self.station.is_running() else [f"status {self.station.process.returncode}"])
        yield "alarm", self.alarm.output().decode().split("\n")[:-1] + self.alarm.messages().split("\n")[:-1]
        yield "follower", self.follower.messages().split("\n")[:-1]
        yield "broker", list(self.listening.came)

    def look(self):
        """Looks at each source. A line of `alive` counts where it differs in more than its seconds."""
        counts, last = {}, None
        while not self.ending.wait(0.02):
            now = time.monotonic()
            for source, lines in self.sources():
                self.add(now, source, lines[counts.get(source, 0):])
                counts[source] = len(lines)
            found, line, _, _ = freshness.judged(self.path, datetime.datetime.now(datetime.timezone.utc), WITHIN, MEASURED)
            line = f"{freshness.WORDS[found]}: {line}"
            if last != (last := re.sub(r"\d+ s", "", line)):
                self.add(now, "alive", [line])

    def add(self, now, source, lines):
        with self.lock:
            self.said += [(now, source, line) for line in lines]

    def breaks(self):
        """From now on something is broken."""
        self.broken = time.monotonic()

    def found(self, source, pattern):
        """When a source said that first since something was broken, and its line."""
        with self.lock:
            return next(((at - self.broken, line) for at, who, line in self.said if who == source and at >= self.broken and re.search(pattern, line)), None)

    def expect(self, source, pattern, within, least=0.0):
        """Expects that a source says that so many seconds after something was broken, and not earlier than `least`."""
        while not self.found(source, pattern):
            assert time.monotonic() < self.broken + within + PATIENCE, f"{source} doesn't say {pattern!r}, but {self.all_of(source)}"
            time.sleep(0.05)
        after, line = self.found(source, pattern)
        assert least <= after <= within + SLACK, f"{source} said {line!r} after {after:.1f} s, of {least} to {within} s"
        return after

    def expect_none(self, source, pattern="."):
        """Expects that a source said nothing of that kind since something was broken."""
        assert not self.found(source, pattern), self.found(source, pattern)

    def all_of(self, source):
        with self.lock:
            return [f"{at - self.broken:.1f} {line}" for at, who, line in self.said if who == source]

    def well(self):
        """Waits until all is well: the station measures, and everybody says so."""
        self.expect("broker", r"cycle \d+ good 3 measured \['pier 4', 'crest'\] unmeasured \[\]", 20)
        self.expect("alive", "^OK: ", 20)
        # On a busy machine a first answer may be late.
        if self.found("alarm", "."):
            self.expect("alarm", "all is well$", 20)

    def rows(self):
        """The whole rows of its file."""
        head, *lines = self.path.read_text(encoding="ascii").split("\n")[:-1]
        return list(csv.DictReader([head, *lines]))

    def expect_rows_in_time(self, *outcomes):
        """Expects that each command of each cycle that was due has its row in time, and that those of cycles that were due since something
        was broken end so. How late the latest one came."""
        now, rows = time.time(), self.rows()
        rows = rows[: len(self.came.moments)]
        most, first = bound(EVERY, DEADLINE, self.setup, SLACK), first_due(rows, EVERY)
        late, row = latest(rows, self.came.moments[: len(rows)], EVERY)
        assert late <= most, f"{row} came {late:.1f} s after its cycle was due"
        assert not missing(rows, COMMANDS, due_by(rows, EVERY, now - most)), rows[-COMMANDS:]
        broken = time.time() - time.monotonic() + self.broken
        since = {row["outcome"] for row in rows if not is_of_setup(row) and first + (int(row["cycle"]) - 1) * EVERY >= broken}
        assert since and since <= set(outcomes), since
        return late
