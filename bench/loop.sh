#!/usr/bin/env bash
# Exchanges a second of `geocom loop` over one loopback connection, beside a plain C program of the same reads and writes.
# It wants rt and cc; where libmodbus is there (Debian's libmodbus-dev), its exchanges stand beside them.
set -eu
cd "$(dirname "$0")"
. ./built.sh
work=$(mktemp -d)
trap 'rm -rf "$work"' EXIT
count=9000

built geocom loop
cc -O2 -o "$work/exchanges" exchanges.c
for _ in $(seq "$count"); do echo '7 5003'; done >"$work/commands"

# Prints the exchanges a second of a command: the best of nine runs.
measure() {
    local name=$1
    shift
    : >"$work/times"
    for _ in 1 2 3 4 5 6 7 8 9; do
        (
            TIMEFORMAT='%R'
            time "$@" <"$work/commands" >"$work/told"
        ) 2>>"$work/times"
    done
    [ "$(wc -l <"$work/told")" -eq "$count" ]
    sort -n "$work/times" | head -1 | {
        read -r real
        echo "$name: $real s, $(echo "$count $real" | awk '{ printf "%d", $1 / $2 }') exchanges a second"
    }
}

measure 'geocom loop' "$geocom" loop
cp "$work/told" "$work/first"
measure 'C program' "$work/exchanges" "$count"
cmp "$work/told" "$work/first"

if pkg-config --exists libmodbus 2>/dev/null; then
    cc -O2 -o "$work/modbus" modbus.c $(pkg-config --cflags --libs libmodbus)
    measure 'libmodbus' "$work/modbus" "$count"
fi
