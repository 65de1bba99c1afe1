#!/usr/bin/env bash
# The instructions of `geocom drill` for one event: the difference between a schedule of 30,000 bytes and one of 60,000,
# divided by the events between them; and the time of the longer one. It wants rt, python3 and valgrind.
set -eu
cd "$(dirname "$0")"
. ./built.sh
. ./instructions.sh
folder=$(mktemp -d)
trap 'rm -rf "$folder"' EXIT

built geocom drill

for bytes in 30000 60000; do
    python3 schedule.py "$bytes" >"$folder/$bytes"
done
short=$(instructions "$geocom" drill <"$folder/30000")
long=$(instructions "$geocom" drill <"$folder/60000")
events=$(($(wc -l <"$folder/60000") - $(wc -l <"$folder/30000")))
echo "| $(wc -l <"$folder/60000") events | $((long)) instructions | $(((long - short) / events)) for an event |"
time "$geocom" drill <"$folder/60000" >/dev/null
