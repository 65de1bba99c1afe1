"""Disks under a file of rows: what is synced before the next bytes are sent, a full disk, and a limit of a file's size."""

import re
import shutil
import signal
import subprocess
from pathlib import Path

import pytest

from programs import ended
from stations import COMMANDS, PATIENCE, appended, instrument, numbers, split
from unit_line import settings, words

UNIT = Path(__file__).resolve().parents[3] / "packaging/systemd/geocom-station@.service"

needs_strace = pytest.mark.skipif(not shutil.which("strace"), reason="strace is missing")


@needs_strace
def test_syncs(program, folder):
    """With `--fsync` each row is synced before the next bytes are sent, and without it nothing is."""
    trace = folder / "trace"
    shell = f'set -- strace -f -e trace=write,sendto,fdatasync,fsync -o {trace} "$@"'
    for words in ["--fsync"], []:
        with instrument() as far:
            found = appended(program, far, folder / "synced.csv", *words, cycles=3, shell=shell)
        assert found[0] == 0, f"{words}: {found}"
        open_rows = synced = 0
        for line in trace.read_text().splitlines():
            if re.search(r' write\(\d+, "2\d{3}-', line):
                open_rows += 1
            elif re.search(r" f(data)?sync\(\d+\) += 0", line):
                synced, open_rows = synced + 1, 0
            elif re.search(r'"(%R1Q|\\n)', line):
                assert not (words and open_rows), f"bytes went out behind {open_rows} rows that weren't synced"
        assert bool(synced) == bool(words), f"{words}: {synced} syncs"


@needs_strace
def test_syncs_its_folder(program, folder):
    """With `--fsync` the file's own folder is synced once the file is there, and before anything is written into it; also of a new file
    at the path. Without `--fsync` no folder is."""
    place, trace = folder / "place", folder / "trace"
    place.mkdir()
    shell = f'cd {folder}; set -- strace -f -y -e trace=?open,openat,write,fdatasync,fsync -o {trace} "$@"'
    for words in ["--fsync"], []:
        for name, parent in [(place / "rows.csv", place), (Path("own.csv"), folder)]:
            path = folder / name
            path.unlink(missing_ok=True)
            with instrument() as far:
                found = appended(program, far, name, *words, cycles=1, shell=shell)
            assert found[0] == 0, f"{words} {name}: {found}"
            lines = trace.read_text().splitlines()
            own, parent = re.escape(str(path.resolve())), re.escape(str(parent.resolve()))
            made = [at for at, line in enumerate(lines) if re.search(rf" open(at)?\(.*O_CREAT.*= \d+<{own}>", line)]
            wrote = [at for at, line in enumerate(lines) if re.search(rf" write\(\d+<{own}>", line)]
            synced = [at for at, line in enumerate(lines) if re.search(rf" fsync\(\d+<{parent}>\) += 0", line)]
            assert len(made) == 1 and wrote, f"{words} {name}: made at {made}, and written at {wrote}"
            if words:
                assert any(made[0] < at < wrote[0] for at in synced), f"{name}: made at {made}, written at {wrote[:1]}, synced at {synced}"
            else:
                assert not any(" fsync(" in line for line in lines), f"{name}: something is synced"


@pytest.fixture
def small_disk(folder):
    """A disk of 16 kB."""
    disk = folder / "small"
    disk.mkdir()
    mount = ["mount", "-t", "tmpfs", "-o", "size=16k", "none", disk]
    if subprocess.run(mount, stderr=subprocess.DEVNULL, check=False).returncode:
        pytest.skip("a full disk wants root")
    yield disk
    subprocess.run(["umount", disk], check=False)


def test_is_full(program, small_disk):
    """A disk that is full ends the run with fault 55: what is there stays, and with room again the table goes on."""
    path = small_disk / "rows.csv"
    for words in ["--fsync"], []:
        with instrument() as far:
            status, output, messages = appended(program, far, path, *words)
            assert (status, output) == (1, b""), messages
            assert messages.endswith(f"geocom: fault 55\ngeocom: {path}: No space left on device (os error 28)\n"), messages
        rows, _ = split(path.read_bytes())
        if words:
            assert far.followed and far.followed <= set(numbers(rows)), "a row is missing"
            before = rows
    assert rows[: len(before)] == before, "a row of before is gone"
    assert rows and len(path.read_bytes()) <= 16384, "it isn't full"
    subprocess.run(["mount", "-o", "remount,size=64k", small_disk], check=True)
    with instrument() as far:
        found = appended(program, far, path, cycles=1)
        assert found[0] == 0, f"with room again: {found}"
    again = split(path.read_bytes())[0]
    assert again[:-3] == rows and len(again) == len(rows) + 3, "the table doesn't go on"


def expect_limited(program, path, is_ignored, command, shell):
    """A station that reaches a limit of its file's size: the system ends it by a signal, without a word; where that is ignored the run ends
    with fault 55. No row is lost, and the table goes on in the next run. `command` is its command line at an instrument."""
    with instrument() as far:
        status, output, messages = ended(command(far), COMMANDS, PATIENCE, shell=shell)
        assert (status, output) == (1 if is_ignored else -signal.SIGXFSZ, b""), f"{shell}: {messages!r}"
        assert ("geocom: fault 55\n" in messages) == is_ignored and is_ignored == bool(messages), f"{shell}: {messages!r}"
        rows, _ = split(path.read_bytes())
        assert rows and far.followed <= set(numbers(rows)), f"{shell}: a row is lost"
    with instrument() as far:
        found = appended(program, far, path, cycles=1)
        assert found[0] == 0, f"{shell}, behind it: {found}"
        assert len(split(path.read_bytes())[0]) == len(rows) + 3, f"{shell}, behind it"


def test_is_limited(program, folder):
    """After a limit of a file's size (`ulimit -f`), with the signal ignored and not."""
    for is_ignored in True, False:
        path = folder / f"limited{is_ignored}.csv"
        words = ["--append", path, "--cycles", "unlimited", "--settle", "10", "--retries", "always", "--silent", "--fsync"]
        shell = "ulimit -f 4; trap '' XFSZ" if is_ignored else "ulimit -f 4"
        expect_limited(program, path, is_ignored, lambda far, words=words: [program, "station", far.port, *words], shell)


def test_a_unit_is_limited(program, folder):
    """The command line of the unit ignores that signal itself."""
    path, unit = folder / "north.csv", settings(UNIT, "north")

    def command(far):
        known = {"FILE": path.name, "WHERE": str(far.port), "WORDS": "--cycles unlimited --settle 10 --retries always --silent"}
        found = " ".join(words(unit["ExecStart"], known))
        for name, place in ("@BIN@/geocom", program), ("/var/lib/geocom", folder), ("%t", folder):
            assert name in found, name
            found = found.replace(name, str(place))
        return found.split()

    expect_limited(program, path, True, command, "ulimit -f 4")
