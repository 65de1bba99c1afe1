#!/usr/bin/env bash
# What a station writes to a disk, for docs/SITE-COMPUTER.md: bench/writes.sh PROGRAM [CYCLES]. It wants to be root, and loop devices,
# mkfs.ext4 and strace.
#
# A station measures twenty simulated targets, three commands each, every 40 seconds, which is longer than the kernel keeps what it hasn't
# written. The rows go to a file system of ext4 in a file, which is mounted by a loop device. What the kernel wrote to that device, by its
# /sys/block/LOOP/stat, is divided by the rows: with and without --fsync, and with --log. A run before counts the calls by strace.
set -eu
export LC_ALL=C
program=$(realpath "$1") cycles=${2:-3}
work=$(mktemp -d)
server='' device='' mounted=''
finish() {
    [ -z "$server" ] || kill "$server" 2>/dev/null || true
    [ -z "$mounted" ] || umount "$work/disk"
    [ -z "$device" ] || losetup -d "$device"
    rm -rf "$work"
}
trap finish EXIT
for target in $(seq 1 20); do
    printf '%s 9027 2.25,1.625,0,1,0\n%s 2008 1,1\n%s 2108 5000,1\n' "$target" "$target" "$target"
done >"$work/commands"
"$program" serve 4040 --keep 2>/dev/null &
server=$!
truncate -s 1G "$work/image"
mkfs.ext4 -q -E lazy_itable_init=0,lazy_journal_init=0 "$work/image"
device=$(losetup --find --show "$work/image")
mkdir "$work/disk"
mount -o noatime "$device" "$work/disk"
mounted=yes
sleep 1
station() { "$program" station 4040 --every 40 --cycles "$cycles" --silent --append "$work/disk/values.csv" "$@" <"$work/commands" 2>/dev/null; }
# Bytes that were written to the device since it was made.
written() { sync -f "$work/disk"; echo $(($(awk '{ print $7 }' "/sys/block/${device#/dev/}/stat") * 512)); }
rows=$((cycles * 60))

strace -f -o "$work/calls" "$program" station 4040 --cycles 2 --silent --append "$work/disk/values.csv" --fsync <"$work/commands" 2>/dev/null
echo "calls for 120 rows: $(grep -c 'fdatasync(\|fsync(' "$work/calls") syncs, $(grep -c '[^a-z]write(' "$work/calls") writes"
for words in '--fsync' '' "--fsync --log $work/disk/lines.log" "--log $work/disk/lines.log"; do
    rm -f "$work"/disk/values.* "$work/disk/lines.log"
    before=$(written)
    # shellcheck disable=SC2086
    station $words
    after=$(written)
    bytes=$(wc -c <"$work/disk/values.csv")
    name=${words// $work\/disk\/lines.log/}
    name=${name//--log $work\/disk\/lines.log/--log}
    [ "$(grep -c ',answered,' "$work/disk/values.csv")" = "$rows" ] || { echo "$words: not all was answered" >&2; exit 1; }
    echo "${name:-neither}: $rows rows of $((bytes / rows)) bytes, $(((after - before) / rows)) bytes written for each"
done
