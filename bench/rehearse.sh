#!/usr/bin/env bash
# The time of `geocom rehearse` for a month of sixty targets, a command each, every five minutes, over a line that loses, repeats, holds
# and closes, with a kill a night; and the instructions of a row. It wants rt, and for the instructions valgrind.
set -eu
cd "$(dirname "$0")"
. ./built.sh
. ./instructions.sh
work=$(mktemp -d)
trap 'rm -rf "$work"' EXIT

built geocom rehearse --help
for target in $(seq 60); do echo "$target 2107 1"; done >"$work/commands"
printf '%s\n' 'delay 100 400' 'lose 1' 'repeat 0.2' 'hold 0.1 30000' 'close 0.1' 'kill 1' >"$work/line"
words=(rehearse --every 300 --line "$work/line" --seed 7)

TIMEFORMAT=%R
seconds=$({ time "$geocom" "${words[@]}" --nights 30 <"$work/commands" >/dev/null 2>"$work/said"; } 2>&1)
rows=$(sed -n '1s/.* rows \([0-9]*\) false 0$/\1/p' "$work/said")
killed=$(sed -n '1s/.* killed \([0-9]*\) .*/\1/p' "$work/said")
echo "rehearse: $seconds s, $rows rows of 30 nights, $killed kills, none false"

command -v valgrind >/dev/null || exit 0
once=$(instructions "$geocom" "${words[@]}" --nights 1 --cycles 50 <"$work/commands")
twice=$(instructions "$geocom" "${words[@]}" --nights 1 --cycles 100 <"$work/commands")
echo "$(((twice - once) / (50 * 60))) instructions for a row"
