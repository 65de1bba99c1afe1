#!/usr/bin/env bash
# The time of `geocom exec` on a stream of 16 MB that mixes 22 of the 25 procedures beside that of a plain C loop, and the
# instructions that a request of each kind takes. It wants rt, python3, cc, and for the instructions valgrind.
set -eu
cd "$(dirname "$0")"
. ./built.sh
. ./instructions.sh
work=$(mktemp -d)
trap 'rm -rf "$work"' EXIT

built geocom exec
cc -O2 -o "$work/loop" loop.c
python3 requests.py mixed 16777216 >"$work/large"
echo "$(wc -l <"$work/large") requests, the best of five runs"

# Prints what a command takes on the large stream: seconds on the clock, in the program, and in the system.
measure() {
    local name=$1 output=$2
    shift 2
    : >"$work/times"
    for _ in 1 2 3 4 5; do
        (
            TIMEFORMAT='%R %U %S'
            time "$@" <"$work/large" >"$output"
        ) 2>>"$work/times"
    done
    sort -n "$work/times" | head -1 | {
        read -r real user system
        echo "$name: $real s (program $user s, system $system s)"
    }
}

measure 'geocom exec, output thrown away' /dev/null "$geocom" exec
measure 'C loop, output thrown away' /dev/null "$work/loop"
measure 'geocom exec, output to a file' "$work/replies" "$geocom" exec
measure 'C loop, output to a file' "$work/replies" "$work/loop"

command -v valgrind >/dev/null || exit 0

# Prints a row of the table: what a request takes, where the first stream has so many of them and the second twice as many.
row() {
    local name=$1 count=$2 once twice
    shift 2
    once=$(instructions "$@" <"$work/once")
    twice=$(instructions "$@" <"$work/twice")
    echo "| $name | $(((twice - once) / count)) |"
}

# 880 requests are five blocks of the mixed stream.
echo '| Request | Instructions |'
echo '|---|---|'
python3 requests.py mixed 1 >"$work/block"
for _ in 1 2 3 4 5; do cat "$work/block"; done >"$work/once"
cat "$work/once" "$work/once" >"$work/twice"
row 'C loop, mixed stream' 880 "$work/loop"
row 'mixed stream' 880 "$geocom" exec
python3 requests.py names | while read -r name; do
    python3 requests.py only "$name" 400 >"$work/once"
    python3 requests.py only "$name" 800 >"$work/twice"
    row "$name" 400 "$geocom" exec
done
