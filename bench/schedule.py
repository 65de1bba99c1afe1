#!/usr/bin/env python3
"""Writes a schedule of at most BYTES bytes: rounds of a send, its delivery and its reply's, one round in seven with a
repeat and a loss. Usage: schedule.py BYTES"""
import sys

PLAIN = "send 1 9 0\nup deliver\ndown deliver\n"
ROUGH = "send 2 9 5003\nup deliver\ndown repeat 0\ndown deliver\ndown lose 0\n"

left = int(sys.argv[1])
place = 0
while True:
    text = ROUGH if place % 7 == 6 else PLAIN
    if len(text) > left:
        break
    sys.stdout.write(text)
    left -= len(text)
    place += 1
