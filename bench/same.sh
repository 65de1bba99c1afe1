#!/usr/bin/env bash
# Whether two programs give the same: `same.sh BEFORE AFTER` runs both on every example and on random streams of a million
# lines, and compares what they write and how they end. It wants python3.
set -eu
cd "$(dirname "$0")"
before=$1 after=$2
work=$(mktemp -d)
trap 'rm -rf "$work"' EXIT

# Runs one with words on an input, which is a file; what it writes and tells, and its status, stand under a name.
ran() {
    local name=$1 program=$2 input=$3 status=0
    shift 3
    "$program" "$@" <"$input" >"$work/$name.out" 2>"$work/$name.told" || status=$?
    echo "status $status" >>"$work/$name.told"
}

# Runs both with the same words on the same input.
same() {
    ran before "$before" "$@"
    ran after "$after" "$@"
    cmp "$work/before.out" "$work/after.out"
    cmp "$work/before.told" "$work/after.told"
}

for stream in ../examples/*.requests; do same "$stream" exec; done
for schedule in ../examples/*.schedule; do same "$schedule" drill --totals; done
for seed in 1 2 3 4; do
    python3 random_lines.py 250000 "$seed" >"$work/stream"
    same "$work/stream" exec
    echo "seed $seed: $(wc -l <"$work/stream") lines, $(wc -l <"$work/after.out") replies, the same"
done
