"""Files of rows that are moved, deleted or replaced while a station appends to them."""

import os

from programs import until
from records import HEAD
from stations import PATIENCE, appending, instrument, rows_in, torn_line

# What is told where rows go on in a new file, and where they can't.
MOVED = "geocom: the file of records was moved or deleted: rows continue in a new one at its path\n"
ASTRAY = "geocom: the file of records was moved or deleted, and no new one can be opened at its path: rows are still written to the old one\n"


def move(path):
    path.rename(path.with_suffix(".1"))


def replace(path, held=b""):
    """Puts a new file in its place at once, since the station makes one where there is none."""
    fresh = path.with_suffix(".new")
    fresh.write_bytes(held)
    os.link(path, path.with_suffix(".1"))
    fresh.replace(path)


def replace_by_half_a_row(path):
    replace(path, HEAD + b"2026-11")


def numbers_of_both(path, form):
    """The numbers of the whole rows in the old file, and in the new one."""
    wholes = [data[: data.rindex(b"\n") + 1] for data in (path.with_suffix(".1").read_bytes(), path.read_bytes())]
    return [[int(row["values"]) for row in rows_in(whole, form)] for whole in wholes]


def expect_none_lost(found, answered):
    """The rows of both files are those of all answers, once and in order; the last one may be in flight."""
    assert found == list(range(1, len(found) + 1))
    assert len(found) >= answered - 1


def test_follows_its_path(program, folder):
    """Where the file is moved, deleted or replaced the rows go on at its path, head and all, and that is reported: no row is lost, and none
    double."""
    path = folder / "rows.csv"
    for words in [], ["--fsync"], ["--json"]:
        for change in move, replace, replace_by_half_a_row:
            if words == ["--json"] and change is replace_by_half_a_row:
                continue
            for old in path, path.with_suffix(".1"):
                old.unlink(missing_ok=True)
            what = f"{change.__name__} {words}"
            with instrument() as far, appending(program, far, path, *words) as run:
                until(lambda: far.answered > 5, f"{what}: nothing is answered", PATIENCE)
                change(path)
                before = far.answered
                until(lambda: path.exists() and path.read_bytes().count(b"\n") > 5, f"{what}: no row came at the path", PATIENCE)
                run.kill()
                assert run.messages() == MOVED + torn_line(7 if change is replace_by_half_a_row else 0), what
                old, new = numbers_of_both(path, "--json" if words == ["--json"] else "--csv")
                assert len(old) <= before + 2, f"{what}: rows in the old file, of {before} answers where it was moved"
                expect_none_lost(old + new, far.answered)


def test_tells_where_its_path_leads_astray(program, folder):
    """Where no file can be had at the path that is reported, and the rows go on in the old one; once one can be had they go there."""
    path, place, link = folder / "rows.csv", folder / "place", folder / "link"
    place.mkdir()
    link.symlink_to(place)
    with instrument() as far, appending(program, far, path) as run:
        until(lambda: far.answered > 5, "nothing is answered", PATIENCE)
        # At once, since the station makes a file where there is none.
        os.link(path, path.with_suffix(".1"))
        link.replace(path)
        until(lambda: ASTRAY in run.messages(), "it isn't told", PATIENCE)
        before = far.answered
        until(lambda: far.answered > before + 5, "it stands still", PATIENCE)
        path.unlink()
        until(lambda: path.is_file() and path.read_bytes().count(b"\n") > 3, "no row came at the path", PATIENCE)
        run.kill()
        assert run.messages() == ASTRAY + MOVED
        old, new = numbers_of_both(path, "--csv")
        expect_none_lost(old + new, far.answered)


def test_tells_each_time_that_its_path_leads_astray(program, folder):
    """Where the path leads to the old file again the rows go on there. A second loss of the path is reported at once, too."""
    path, place = folder / "rows.csv", folder / "place"
    place.mkdir()
    with instrument() as far, appending(program, far, path) as run:
        until(lambda: far.answered > 5, "nothing is answered", PATIENCE)
        old = path.with_suffix(".1")
        os.link(path, old)
        for time_of in 1, 2:
            # At once, since the station makes a file where there is none.
            link = folder / f"link{time_of}"
            link.symlink_to(place)
            link.replace(path)
            until(lambda count=time_of: run.messages() == count * ASTRAY, f"time {time_of} isn't told", PATIENCE)
            again = folder / f"again{time_of}"
            os.link(old, again)
            again.replace(path)
            before = far.answered
            until(lambda least=before: far.answered > least + 5, "it stands still", PATIENCE)
        run.kill()
        assert run.messages() == 2 * ASTRAY
        rows = rows_in(path.read_bytes()[: path.read_bytes().rindex(b"\n") + 1], "--csv")
        expect_none_lost([int(row["values"]) for row in rows], far.answered)
