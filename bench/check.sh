#!/usr/bin/env bash
# How fast `geocom check` names the frames of a recording of 100 MB, requests with their replies, beside `grep -c` of a
# pattern that doesn't occur in it; the instructions for a frame; and what it makes of nothing and of 1 MB of noise. It wants
# rt, python3, grep, and for the instructions valgrind.
set -eu
cd "$(dirname "$0")"
. ./built.sh
. ./instructions.sh
work=$(mktemp -d)
trap 'rm -rf "$work"' EXIT

built geocom exec
python3 recording.py "$geocom" 100000000 >"$work/recording"
echo "$(stat -c %s "$work/recording") bytes, $(wc -l <"$work/recording") frames, the best of five runs"

# Prints what a command takes on the recording: seconds on the clock, in the program, and in the system; and MB a second, on
# the clock and of processor time, which cares less what else runs.
measure() {
    local name=$1
    shift
    : >"$work/times"
    for _ in 1 2 3 4 5; do
        (
            TIMEFORMAT='%R %U %S'
            time "$@" <"$work/recording" >"$work/output" || true
        ) 2>>"$work/times"
    done
    sort -n "$work/times" | head -1 | {
        read -r real user system
        rate=$(python3 -c "print(round(100 / max($real, 0.001)))")
        pure=$(python3 -c "print(round(100 / max($user + $system, 0.001)))")
        echo "$name: $real s (program $user s, system $system s), $rate MB/s, $pure of processor time"
    }
}

measure 'geocom check' "$geocom" check
measure 'grep -c, a word' grep -c 'no such word'
measure 'grep -c, an expression' grep -cE 'x[0-9]+y'
measure 'wc -l' wc -l

: >"$work/nothing"
python3 -c "import random, sys; sys.stdout.buffer.write(random.Random(1).randbytes(1000000))" >"$work/noise"
for input in nothing noise; do
    status=0
    "$geocom" check <"$work/$input" >"$work/verdicts" || status=$?
    echo "$input: status $status, $(tr -cd '\n' <"$work/$input" | wc -c) line feeds, $(wc -l <"$work/verdicts") verdicts"
done

command -v valgrind >/dev/null || exit 0
python3 recording.py "$geocom" 1 >"$work/once"
cat "$work/once" "$work/once" >"$work/twice"
once=$(instructions "$geocom" check <"$work/once")
twice=$(instructions "$geocom" check <"$work/twice")
echo "$(((twice - once) / $(wc -l <"$work/once"))) instructions for a frame"
