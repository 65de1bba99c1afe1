"""Mutants that break no clause: the case or the trial that is there for one fails with it, and passes without."""

import subprocess
from pathlib import Path

import pytest

from mutants import ROOT, apply, build, copy_crates

HERE = Path(__file__).resolve().parent
# A mutant, with its crate; the crate that plays the case; the case's file, in the folder of its part; and the beginning of its name.
MUTANTS = [("gc_world/fills_the_window_only_at_the_end", "gc_cases", "cases/pushes.world", "eight sends and a restart")]
# A mutant of the program, with its crate; and the trial that is there for it, by its command and its words.
PROGRAMS = [("gc_console/removes_its_rows_at_the_end", "try-records", "starts_whole")]


def played(player, file):
    """The status and the lines of a player that plays one file of cases. It is built without proofs."""
    part = Path(file).parent.name
    ran = subprocess.run(["rt", "try", "--data", f"{file}=data/{file}", "--", part], cwd=player, stdin=subprocess.DEVNULL, capture_output=True, text=True, timeout=1800, check=False)
    return ran.returncode, ran.stdout + ran.stderr


@pytest.mark.title("{mutant}: a case fails with it, and passes without")
@pytest.mark.parametrize(("mutant", "player", "file", "case"), MUTANTS)
def test_a_case_fails(folder, mutant, player, file, case):
    crates = copy_crates(folder)
    name = Path(file).name
    status, said = played(crates / player, file)
    assert status == 0 and f"{name}: " in said, f"without it, a case fails: {said[-1000:]}"
    apply(HERE / f"{mutant}.edit", crates / Path(mutant).parent)
    status, said = played(crates / player, file)
    assert f"{name}: " in said, f"with it, no case is played: {said[-1000:]}"
    assert any(line.startswith(case) and ": do is " in line for line in said.splitlines()), f"with it, the case passes: {said[-1000:]}"
    assert status == 1


@pytest.mark.title("{mutant}: {command} fails with it, and passes without")
@pytest.mark.parametrize(("mutant", "command", "words"), PROGRAMS)
def test_a_trial_fails(folder, mutant, command, words):
    crates = copy_crates(folder)
    for is_planted in False, True:
        if is_planted:
            apply(HERE / f"{mutant}.edit", crates / Path(mutant).parent)
        program = build(crates, folder)
        assert program, "it doesn't build"
        tried = subprocess.run([ROOT / "tools" / command, *program, words], stdin=subprocess.DEVNULL, capture_output=True, text=True, timeout=1800, check=False)
        assert "of 1 trials failed" in tried.stdout, f"no trial is made: {tried.stdout[-1000:]}{tried.stderr[-1000:]}"
        assert tried.returncode == int(is_planted), f"{'with' if is_planted else 'without'} it: {tried.stdout[-1000:]}"
        Path(*program).unlink()
