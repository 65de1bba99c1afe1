"""What is reported where rows can't be written, or their file is moved: by the station, which ends or goes on, and by all who read the file."""

import shutil
import subprocess

import pytest

from far_end import standing
from watched import EVERY, SILENCE, STAMP, WITHIN

SHORT = f"no row for {WITHIN + 1} s \\({WITHIN} allowed\\)"


def expect_end(site, path, why, within=2 * EVERY):
    """The run ends with the path and the system's reason, and its whole rows stay."""
    site.expect("journal", "^geocom: fault 55$", within)
    site.expect("journal", rf"^geocom: {path}: {why}$", within)
    site.expect("journal", "^status 1$", within)
    assert all(None not in row.values() for row in site.rows())


def expect_no_rows(site):
    """Those who read the file report that no row comes; at the broker nothing changes."""
    site.expect("alarm", rf"station: no good row for {SILENCE} s; the last was at {STAMP}$", SILENCE)
    site.expect("alive", f"^CRITICAL: {SHORT}; ", WITHIN + 1)
    site.expect_none("follower")
    site.expect_none("broker", "state")


@pytest.fixture
def small_disk(folder):
    """A disk of 1 MB."""
    disk = folder / "small"
    disk.mkdir()
    if subprocess.run(["mount", "-t", "tmpfs", "-o", "size=1m", "none", disk], stderr=subprocess.DEVNULL, check=False).returncode:
        pytest.skip("a full disk wants root")
    yield disk
    subprocess.run(["umount", "--lazy", disk], check=False)


@pytest.mark.title("the disk is full")
def test_disk_is_full(watched, small_disk):
    path = small_disk / "north.csv"
    with standing() as far:
        site = watched(far.port, path=path)
        site.well()
        site.breaks()
        with open(small_disk / "other", "wb", buffering=0) as other:
            for size in 4096, 1:
                try:
                    while other.write(b"x" * size):
                        pass
                except OSError:
                    pass
        # What is left of the page that the file ends in.
        site.expect("journal", "^status 1$", 4096 / 300 * EVERY)
        expect_end(site, path, r"No space left on device \(os error 28\)", within=4096 / 300 * EVERY)
        site.expect("alive", f"^CRITICAL: {SHORT}; ", 4096 / 300 * EVERY + WITHIN + 1)
        site.expect("alarm", rf"station: no good row for {SILENCE} s; the last was at {STAMP}$", 4096 / 300 * EVERY + SILENCE)


@pytest.mark.title("the file reaches a size limit")
def test_file_reaches_a_size_limit(watched):
    """With SIGXFSZ ignored, as the unit has it."""
    with standing() as far:
        site = watched(far.port, shell="ulimit -f 1; trap '' XFSZ")
        site.expect("journal", "^status 1$", 8 * EVERY)
        expect_end(site, site.path, r"File too large \(os error 27\)", within=8 * EVERY)
        site.breaks()
        expect_no_rows(site)


@pytest.mark.skipif(not shutil.which("strace"), reason="strace is missing")
@pytest.mark.title("a sync fails")
def test_sync_fails(watched, folder):
    """`FILE.open` stays, so that the next start copies the rows."""
    with standing() as far:
        site = watched(far.port, shell=f'set -- strace -f -qq -e trace=fdatasync -e inject=fdatasync:error=EIO:when=9 -o {folder}/trace "$@"')
        site.expect("journal", "^status 1$", 12 * EVERY)
        expect_end(site, site.path, r"Input/output error \(os error 5\)", within=12 * EVERY)
        site.breaks()
        expect_no_rows(site)
        assert site.path.with_name("north.csv.open").exists()


@pytest.mark.title("the file of rows is moved")
def test_file_is_moved(watched):
    """The station goes on at the path; those who follow the file refuse it, and end."""
    with standing() as far:
        site = watched(far.port)
        site.well()
        site.breaks()
        site.path.rename(site.path.with_suffix(".1"))
        site.expect("journal", "^geocom: the file of records was moved or deleted: rows continue in a new one at its path$", EVERY)
        for source, who in ("alarm", "alarm"), ("follower", "to-mqtt"):
            site.expect(source, rf"^{who}: {site.path} was (replaced by another file|taken away)$", 2 * EVERY)
        site.expect("broker", "^state offline$", 2 * EVERY)
        assert site.alarm.status() == site.follower.status() == 1
        site.expect("alive", "^OK: ", 2 * EVERY)
