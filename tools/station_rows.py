"""Whether a file of rows is that of a station which measures the three targets of packaging/station: station_rows.py FILE CYCLES PERIOD

It is a table with one header, or has an object of JSON on each line. It has so many whole cycles at least, nine rows each, all
answered and with what the simulated instrument measures, in order; and cycles that follow one another are so many seconds apart. Each
command was sent after the beginning of its run and before its end was reported, the cycles of a run follow one another from 1, and a run
begins after the one before it.
"""

import sys
from pathlib import Path

import records

MEASURED = ["0.5,1.5,25.125", "2.25,1.625,110.0625", "4.0,1.5,48.5"]
NAMES = ["north prism"] * 3 + ["dam crest"] * 3 + ["south prism"] * 3


def moment(row, column="time"):
    return records.moment(row[column])


def runs_of(rows):
    """The rows of each run, in order. A run's rows are together."""
    runs = {}
    for row in rows:
        runs.setdefault(row["run"], []).append(row)
    assert [row for run in runs.values() for row in run] == rows, "the rows of two runs are mixed"
    assert list(runs) == sorted(runs), f"the runs begin at {list(runs)}"
    return runs.values()


def main():
    path, cycles, period = sys.argv[1], int(sys.argv[2]), float(sys.argv[3])
    *lines, torn = Path(path).read_bytes().split(b"\n")
    assert not torn, torn
    form = records.form_of(lines[0], records.COLUMNS)
    if isinstance(form, records.Table):
        assert form.names == records.COLUMNS, form.names
        lines.pop(0)
    rows = [form.row(line) for line in lines]
    assert None not in rows, "a second header"
    assert {row["outcome"] for row in rows} == {"answered"} and {row["rc"] for row in rows} == {"0"}, rows
    for row in rows:
        assert row["attempt"] == "1" and row["request"].startswith(f"%R1Q,{row['procedure']},"), row
        assert moment(row, "run") <= moment(row, "sent") <= moment(row), row
    # A run that was ended leaves a part of its last cycle.
    whole, apart = [], []
    for run in runs_of(rows):
        places = [(int(row["cycle"]), int(row["step"])) for row in run]
        assert places == [(number // 9 + 1, number % 9) for number in range(len(run))], places
        begun = [run[first : first + 9] for first in range(0, len(run) - 8, 9)]
        whole += begun
        apart += [(moment(b[0]) - moment(a[0])).total_seconds() for a, b in zip(begun, begun[1:])]
    assert len(whole) >= cycles, f"{len(whole)} whole cycles"
    for one in whole:
        assert [row["target"] for row in one] == list("111222333") and [row["name"] for row in one] == NAMES, one
        assert [row["values"] for row in one[2::3]] == MEASURED, one
    assert apart and all(abs(gap - period) < 0.5 for gap in apart), apart
    print(f"    {path.rsplit('/', 1)[-1]}: {len(whole)} cycles of three targets, all answered, {', '.join(f'{gap:.3f}' for gap in apart)} s apart")


if __name__ == "__main__":
    main()
