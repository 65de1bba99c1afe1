#!/usr/bin/env bash
# Rows a second that are appended to a file, with and without a sync of each, beside a plain C program of the same writes and syncs:
# the best of five runs. The files stand in FOLDER, or in a folder of /var/tmp. It wants rt and cc.
#
#     bench/rows.sh [FOLDER]
set -eu
cd "$(dirname "$0")"
. ./built.sh
work=$(mktemp -d -p "${1:-/var/tmp}")
trap 'rm -rf "$work"' EXIT

built gc_bench read 1
cc -O2 -o "$work/appends" appends.c

# Prints the rows a second of a command that appends so many to the file: the best of five runs.
measure() {
    local name=$1 count=$2
    shift 2
    : >"$work/times"
    for _ in 1 2 3 4 5; do
        rm -f "$work/rows"
        (
            TIMEFORMAT='%R'
            time "$@" >"$work/told"
        ) 2>>"$work/times"
        [ "$(grep -c answered "$work/rows")" -eq "$count" ]
    done
    sort -n "$work/times" | head -1 | {
        read -r real
        echo "$name: $count rows in $real s, $(echo "$count $real" | awk '{ printf "%d", $1 / $2 }') a second"
    }
}

measure 'gc_files' 200000 "$parts" rows 200000 "$work/rows"
measure 'C program' 200000 "$work/appends" 200000 "$work/rows"
measure 'gc_files, synced' 1000 "$parts" rows-sync 1000 "$work/rows"
measure 'C program, synced' 1000 "$work/appends" 1000 "$work/rows" sync
