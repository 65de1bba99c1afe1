#!/usr/bin/env bash
# Memory. First each allocation is refused in turn, in a run of all examples and in the runs of the program: refused.py says what each may
# answer then, and anything else ends this script. Then the resident memory of the program on 1 GB of requests and of a recording, and
# while it serves a million requests and a thousand connections. It wants rt, python3 and cc, and takes some minutes.
#
#     bench/memory.sh [resident]      with the word, allocations are refused in one run of `geocom exec` alone, which takes a minute
set -eu
cd "$(dirname "$0")"
. ./built.sh
work=$(mktemp -d)
trap 'rm -rf "$work"' EXIT

[ "${1-}" = resident ] || built gc_cases once
built geocom exec

cc -O2 -Wall -Wextra -shared -fPIC -o "$work/refuse.so" refuse.c
if [ "${1-}" = resident ]; then
    python3 refused.py "$work/refuse.so" "$geocom"
else
    python3 refused.py "$work/refuse.so" "$cases" "$geocom" ../crates/gc_cases/data
fi

python3 requests.py mixed 16777216 >"$work/requests"
python3 resident.py "$geocom" exec "$work/requests"
python3 recording.py "$geocom" 16777216 >"$work/recording"
python3 resident.py "$geocom" check "$work/recording"
python3 resident.py "$geocom" serve
