"""Syncs that fail, and stations that are killed: the next start goes on in a copy, since no later sync says that what such a file holds is
on the disk."""

import os
import re
import shutil
import time

import pytest

from programs import until
from records import HEAD, counts_line
from stations import PATIENCE, appended, appending, copied_line, instrument, mark_of, numbers, split, torn_line
from test_files_of_rows import ANSWERED

pytestmark = pytest.mark.skipif(not shutil.which("strace"), reason="strace is missing")
COUNTS = counts_line(answered=3) + "\n"
# The calls of renaming and of removing: 64-bit ARM has those alone that end in `at`. strace passes over an unknown one with a `?`.
RENAME, UNLINK = "?rename,renameat,renameat2", "?unlink,unlinkat"


def injecting(path, *calls):
    """What makes calls of the system fail, or kills at them: the words of strace, which follows those that a program makes to a file."""
    injected = " ".join(f"-e inject={call}" for call in calls)
    return f'set -- strace -f -qq -y -e trace=write,fdatasync,fsync,{RENAME},{UNLINK},openat,?open {injected} -o {path} "$@"'


def failed(program, folder, path):
    """A run whose third sync fails: the rows that are in the file then."""
    with instrument() as far:
        shell = injecting(folder / "trace", "fdatasync:error=EIO:when=3")
        status, output, messages = appended(program, far, path, "--fsync", shell=shell)
        assert (status, output) == (1, b""), messages
        assert messages.endswith(f"geocom: fault 55\ngeocom: {path}: Input/output error (os error 5)\n"), messages
    assert mark_of(path.resolve()).exists(), "nothing says that a sync failed"
    rows = split(path.read_bytes())[0]
    assert len(rows) >= 2, rows
    return rows


def expect_copy(program, path, rows, *words, torn=0):
    """Expects that the next start goes on in a copy of these rows."""
    before = path.stat()
    with instrument() as far:
        found = appended(program, far, path, *words, cycles=1)
    assert found == (0, b"", copied_line(len(rows)) + torn_line(torn) + COUNTS), words
    assert path.stat().st_ino != before.st_ino, "it went on in the same file"
    assert path.stat().st_mode == before.st_mode, "the copy has another mode"
    after, torn = split(path.read_bytes())
    assert after[:-3] == rows and len(after) == len(rows) + 3 and torn == b"", "the table doesn't go on"
    expect_none_beside(path)


def expect_none_beside(path):
    assert sorted(path.parent.glob(path.name + ".*")) == [], "a file is left beside it"


def test_copies_behind_a_failed_sync(program, folder):
    """After a sync that failed the next start copies the rows to a new file, with `--fsync` or without; after a good end none does."""
    path = folder / "rows.csv"
    for words in ["--fsync"], []:
        path.unlink(missing_ok=True)
        rows = failed(program, folder, path)
        path.chmod(0o640)
        expect_copy(program, path, rows, *words)
        before = path.stat().st_ino
        with instrument() as far:
            assert appended(program, far, path, *words, cycles=1) == (0, b"", COUNTS), words
        assert path.stat().st_ino == before, "it is copied behind a good end"
        expect_none_beside(path)


def test_copies_before_it_appends(program, folder):
    """The copy is synced before it takes the file's place, and that is on the disk before a row is written."""
    path, trace = folder / "rows.csv", folder / "trace"
    failed(program, folder, path)
    with instrument() as far:
        found = appended(program, far, path, "--fsync", cycles=1, shell=injecting(trace))
    assert found[0] == 0, found
    lines = trace.read_text().splitlines()

    def places(pattern):
        return [at for at, line in enumerate(lines) if re.search(pattern, line)]

    own, copy = re.escape(str(path)), re.escape(f"{path}.copy")
    [renamed] = places(rf'rename(?:at2?)?\((?:AT_FDCWD\S*, )?"{copy}", (?:AT_FDCWD\S*, )?"{own}"')
    synced = places(rf"fdatasync\(\d+<{copy}>\) += 0")
    folders = places(rf"fsync\(\d+<{re.escape(str(folder))}>\) += 0")
    rows = places(r' write\(\d+<.*>, "2\d{3}-')
    copied = places(rf" write\(\d+<{copy}>")
    behind = [at for at in rows if at > renamed]
    assert copied and behind and max(copied) < min(synced) < renamed, "it isn't synced before it takes the place"
    assert any(renamed < at < min(behind) for at in folders), "rows are written before its name is on the disk"
    assert not [at for at in places(rf" write\(\d+<{own}>") if at < renamed], "the old file is written"


def test_has_its_mark_before_a_row(program, folder):
    """The mark is on the disk before anything is written into the file, and goes once all is synced; without `--fsync` there is none."""
    trace = folder / "trace"
    for words in ["--fsync"], []:
        path = folder / f"rows{len(words)}.csv"
        with instrument() as far:
            found = appended(program, far, path, *words, cycles=1, shell=injecting(trace))
        assert found[0] == 0, found
        lines = trace.read_text().splitlines()
        own, mark = re.escape(str(path)), re.escape(str(mark_of(path)))
        written = [at for at, line in enumerate(lines) if re.search(rf" write\(\d+<{own}>", line)]
        marked = [at for at, line in enumerate(lines) if re.search(rf" fsync\(\d+<{mark}>\) += 0", line)]
        cleared = [at for at, line in enumerate(lines) if re.search(rf'unlink(?:at)?\((?:AT_FDCWD\S*, )?"{mark}"(?:, 0)?\) += 0', line)]
        synced = [at for at, line in enumerate(lines) if re.search(rf" fdatasync\(\d+<{own}>\) += 0", line)]
        if words:
            assert len(marked) == len(cleared) == 1, f"{marked}, {cleared}"
            assert marked[0] < written[0] and written[-1] < synced[-1] < cleared[0], f"{marked}, {written}, {synced}, {cleared}"
        else:
            assert marked == cleared == [], f"{marked}, {cleared}"


@pytest.mark.parametrize("words", [["--fsync"], []], ids=["synced", "plain"])
def test_copies_wholly_or_not(program, folder, words):
    """Where a call of the copying fails, or the program is killed at it, the old file stands, and the next start copies it."""
    path = folder / "rows.csv"
    rows = failed(program, folder, path)
    with path.open("ab") as file:
        file.write(ANSWERED[:30])
    data = path.read_bytes()
    for call in ["fdatasync", "fsync", RENAME, "write"]:
        for what in ["error=EIO", "signal=KILL"]:
            with instrument() as far:
                found = appended(program, far, path, *words, shell=injecting(folder / "trace", f"{call}:{what}:when=1"))
                assert far.answered == 0, f"{call} {what}: it measures"
            assert found[0] in ([1] if what == "error=EIO" else [137, -9]), f"{call} {what}: {found}"
            assert found[2].startswith("geocom: fault 55\n" if what == "error=EIO" else ""), f"{call} {what}: {found}"
            assert mark_of(path).exists(), f"{call} {what}: nothing says that the file is in doubt"
            assert path.read_bytes() == data, f"{call} {what}: it holds something else"
    expect_copy(program, path, rows, *words, torn=30)


def test_is_held_while_it_is_copied(program, folder):
    """A file that another station holds is not copied, though its mark is there."""
    path = folder / "rows.csv"
    with instrument() as far, instrument() as other:
        with appending(program, far, path, "--fsync") as first:
            until(lambda: far.answered > 5, "nothing is answered", PATIENCE)
            before = path.stat().st_ino
            assert appended(program, other, path, "--fsync") == (1, b"", "geocom: fault 65\n")
            assert path.stat().st_ino == before and mark_of(path).exists()
            first.kill()
    rows = split(path.read_bytes())[0]
    expect_copy(program, path, rows, "--fsync")


def test_copies_where_its_link_leads(program, folder):
    """Of a link the mark and the copy are beside the file that it leads to, and the link stays."""
    place, link = folder / "place", folder / "rows.csv"
    place.mkdir()
    path = place / "values.csv"
    link.symlink_to(path)
    rows = failed(program, folder, link)
    expect_copy(program, link, rows, "--fsync")
    expect_none_beside(path)
    assert link.is_symlink() and not path.is_symlink()


def test_wants_its_mark(program, folder):
    """Where the mark can't be made nothing is measured, and the file is as it was."""
    path = folder / "rows.csv"
    path.write_bytes(HEAD)
    mark_of(path).mkdir()
    with instrument() as far:
        status, output, messages = appended(program, far, path, "--fsync", cycles=1)
        assert (status, output, far.answered) == (1, b"", 0), messages
    assert messages.startswith("geocom: fault 55\n"), messages
    assert path.read_bytes() == HEAD


def test_copies_a_hundred_megabytes(program, folder, note):
    """How long a start takes that copies a file of 100 MB."""
    path = folder / "rows.csv"
    for marked in False, True:
        path.write_bytes(HEAD + ANSWERED * (100_000_000 // len(ANSWERED)))
        os.sync()
        if marked:
            mark_of(path).touch()
        with instrument() as far:
            began = time.monotonic()
            with appending(program, far, path, "--fsync", cycles=1) as run:
                until(lambda: far.came, "it makes no connection", 60)
                took = time.monotonic() - began
                assert run.status(PATIENCE) == 0, run.messages()
        note(f"{'with' if marked else 'without'} a copy {took:.2f} s to the first connection")
