#!/usr/bin/env bash
# The instructions that the parts take once: a double read and written, a request sent and its reply heard, with each
# window. It wants rt and valgrind.
set -eu
cd "$(dirname "$0")"
. ./built.sh
. ./instructions.sh
count=1000

built gc_bench read 1

# Prints a row of the table: what a part takes once. What stands before `--` goes to callgrind.
row() {
    local name=$1 once twice
    shift
    once=$(instructions "$@" "$count")
    twice=$(instructions "$@" $((2 * count)))
    echo "| $name | $(((twice - once) / count)) |"
}

echo '| Part | Instructions |'
echo '|---|---|'
row 'a double of 12 digits read' "$parts" read
row 'a double of 12 digits written' "$parts" write
for window in ring slots; do
    row "a request sent, with $window" --toggle-collect='*sending::send_one*' "$parts" "send-$window"
    row "an answered reply, with $window" --toggle-collect='*sending::hear_reply*' "$parts" "send-$window"
done
