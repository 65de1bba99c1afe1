#!/usr/bin/env python3
"""Measures targets again and again, and writes a line of CSV for each command, in radians.

station.py /dev/ttyUSB0 --targets 1:0.5,1.5 2:2.25,1.625 --every 300
"""

import argparse
import csv
import logging
import sys

import geocom


def target(word: str) -> geocom.Chain:
    """The chain of a target: it is aimed at, measured and read."""
    number, angles = word.split(":")
    hz_rad, v_rad = angles.split(",")
    return geocom.Chain.measuring(int(number), hz_rad, v_rad)


options = argparse.ArgumentParser(description="Measures targets again and again.")
options.add_argument("port", help="a device, HOST:PORT, or a port of this machine")
options.add_argument("--targets", type=target, nargs="+", required=True, help="NUMBER:HZ,V")
options.add_argument("--every", type=float, default=300, help="seconds between two cycles")
options.add_argument("--cycles", type=int, help="stop after so many, from 1 on; without it go on")
given = options.parse_args()
if given.cycles is not None and given.cycles < 1:
    options.error("--cycles takes a number from 1 on; without it cycles go on")

logging.basicConfig(level=logging.INFO)
rows = csv.writer(sys.stdout, lineterminator="\n")
station = geocom.Station(given.port)
for cycle in station.cycles(given.targets, given.every, given.cycles):
    for row in cycle.rows:
        items = row.settlement.items if row.settlement else ()
        rows.writerow([row.time.isoformat(), row.target, row.procedure, row.outcome, *items])
    sys.stdout.flush()
