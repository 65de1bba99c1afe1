"""Starts programs, waits for what they do, and ends them: geocom, simulators, followers, servers. It knows the ports of this machine."""

import os
import random
import signal
import socket
import subprocess
import tempfile
import time
from contextlib import contextmanager, suppress
from pathlib import Path
from typing import NamedTuple

# How long a script waits for what has to come, in seconds.
PATIENCE = 5
STREAMS = ["input", "output", "messages"]


def until(holds, why, patience=PATIENCE):
    """Waits until that holds."""
    end = time.monotonic() + patience
    while not holds():
        assert time.monotonic() < end, why
        time.sleep(0.02)


def free_ports(count):
    """Ports that nothing listens on, each another. They lie below those that the system gives to connections and for port 0: so none is
    given away before it is used. Each is drawn, since other programs may be looking at the same time."""
    ports = []
    while len(ports) < count:
        port = random.SystemRandom().randrange(10_000, 32_000)
        with suppress(OSError), socket.create_server(("127.0.0.1", port)):
            ports += [port] * (port not in ports)
    return ports


def free_port():
    """A port that nothing listens on."""
    return free_ports(1)[0]


def is_listening(port):
    """Whether somebody listens, without a connection to it."""
    rows = Path("/proc/net/tcp").read_text(encoding="ascii").splitlines()[1:]
    return any(row.split()[1].endswith(f":{port:04X}") and row.split()[3] == "0A" for row in rows)


def connect(port, patience=PATIENCE):
    """A connection to a port, once somebody listens."""
    end = time.monotonic() + patience
    while True:
        try:
            return socket.create_connection(("127.0.0.1", port), patience)
        except ConnectionRefusedError:
            assert time.monotonic() < end, "nobody listens"
            time.sleep(0.01)


def processor_seconds(pid):
    """How long a process has kept a processor busy."""
    fields = Path(f"/proc/{pid}/stat").read_text(encoding="ascii").rsplit(")", 1)[1].split()
    return (int(fields[11]) + int(fields[12])) / os.sysconf("SC_CLK_TCK")


class Run:
    """A running program. Its standard streams are files, so that no pipe fills up; they are taken away in the end.

    `closed` are the numbers of the streams that it begins without. `shell` is what bash does before it, as `ulimit`. The `options`
    are those of `subprocess.Popen`.
    """

    def __init__(self, words, given=b"", closed=(), shell="", **options):
        self.folder = tempfile.TemporaryDirectory()
        self.files = [open(Path(self.folder.name, name), "w+b") for name in STREAMS]
        self.files[0].write(given)
        self.files[0].seek(0)
        words = list(map(str, words))
        if closed or shell:
            closing = " ".join(["<&-", ">&-", "2>&-"][stream] for stream in closed)
            words = ["bash", "-c", f'{shell or ":"}; exec "$@" {closing}', "bash", *words]
        self.process = subprocess.Popen(words, stdin=self.files[0], stdout=self.files[1], stderr=self.files[2], **options)
        self.pid = self.process.pid

    def __enter__(self):
        return self

    def __exit__(self, *_):
        self.end()

    def end(self):
        """Ends it, where it runs, and takes its files away."""
        self.kill()
        for file in self.files:
            file.close()
        self.folder.cleanup()

    def is_running(self):
        return self.process.poll() is None

    def ends_within(self, seconds):
        """Whether it ends in this time."""
        try:
            self.process.wait(seconds)
            return True
        except subprocess.TimeoutExpired:
            return False

    def status(self, patience=PATIENCE):
        """Its status, once it has ended."""
        assert self.ends_within(patience), f"it doesn't end; its messages are {self.messages()!r}"
        return self.process.returncode

    def send_signal(self, number):
        self.process.send_signal(number)

    def terminate(self, patience=PATIENCE):
        """Its status, after a SIGTERM."""
        self.process.terminate()
        return self.status(patience)

    def kill(self):
        """Ends it at once, where it runs."""
        self.process.kill()
        self.process.wait()

    @contextmanager
    def stopped(self):
        """It stands still meanwhile."""
        self.send_signal(signal.SIGSTOP)
        yield
        self.send_signal(signal.SIGCONT)

    def bytes_read(self):
        """How many bytes of its input it has read."""
        return os.lseek(self.files[0].fileno(), 0, os.SEEK_CUR)

    def output_path(self):
        """The file that is its standard output."""
        return Path(self.files[1].name)

    def output(self):
        """What it has written to standard output."""
        return self.output_path().read_bytes()

    def messages(self):
        """What it has written to standard error."""
        return Path(self.files[2].name).read_text(encoding="utf-8")

    def open_files(self):
        """The paths that it has open."""
        found = []
        for number in os.listdir(f"/proc/{self.pid}/fd"):
            # It may be closed meanwhile.
            with suppress(OSError):
                found.append(os.readlink(f"/proc/{self.pid}/fd/{number}"))
        return found

    def seconds(self):
        """How long it has kept a processor busy."""
        return processor_seconds(self.pid)


class Ended(NamedTuple):
    """How a program ended: its status, its standard output and its standard error."""

    status: int
    output: bytes
    messages: str


def ended(words, given=b"", patience=PATIENCE, **options):
    """How a program ended by itself."""
    with Run(words, given, **options) as run:
        return Ended(run.status(patience), run.output(), run.messages())


@contextmanager
def simulator(program, *words):
    """The port of a simulated instrument, `geocom serve --keep` where no words are given, once it listens."""
    port = free_port()
    with Run([program, "serve", port, *(words or ["--keep"])]):
        until(lambda: is_listening(port), "the simulator doesn't listen")
        yield port
