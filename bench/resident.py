#!/usr/bin/env python3
"""The resident memory of the program, in kB as the system counts it at its highest, while it reads and while it serves.

resident.py GEOCOM exec|check FILE   reads FILE again and again, 1 GB of it, and stays under 4 MB
resident.py GEOCOM serve             answers a million requests on one connection, and a thousand connections of one request
                                     each, without growing
"""

import os
import sys

sys.dont_write_bytecode = True
# The parts of the scripts in tools/.
sys.path[0] = os.path.join(os.path.dirname(os.path.realpath(__file__)), "../tools")

import subprocess
import threading

from programs import connect, free_port

GIGABYTE = 1_000_000_000
LIMIT = 4096
REQUEST = b"%R1Q,5003,1:\r\n"
REPLY = b"%R1P,0,1:0,123456\r\n"


def highest(process):
    """The most resident memory that a running process has had, in kB."""
    with open(f"/proc/{process.pid}/status", encoding="ascii") as status:
        return next(int(line.split()[1]) for line in status if line.startswith("VmHWM:"))


def reads(geocom, word, name):
    """1 GB through a command."""
    with open(name, "rb") as file:
        piece = file.read()
    with subprocess.Popen([geocom, word], stdin=subprocess.PIPE, stdout=subprocess.DEVNULL) as process:
        given = 0
        while given < GIGABYTE:
            given += process.stdin.write(piece)
        process.stdin.flush()
        peak = highest(process)
        process.stdin.close()
    print(f"{word}: {given} bytes, {peak} kB, status {process.returncode}")
    if process.returncode != 0 or peak >= LIMIT:
        sys.exit(f"{word}: it should stay under {LIMIT} kB, and end with status 0")


def ask(link, count):
    """Sends so many requests, and takes their replies."""
    sender = threading.Thread(target=link.sendall, args=(REQUEST * count,))
    sender.start()
    wanted, got = REPLY * count, bytearray()
    while len(got) < len(wanted):
        piece = link.recv(1 << 16)
        if not piece:
            break
        got += piece
    sender.join()
    if got != wanted:
        sys.exit("another answer")


def serves(geocom, connections, rounds, count):
    """Serves so many connections with so many rounds of requests on each: its memory after the first requests, and at the end."""
    port = free_port()
    words = [geocom, "serve", str(port), "--connections", str(connections)]
    with subprocess.Popen(words) as process:
        first = None
        for _ in range(connections):
            with connect(port) as link:
                for _ in range(rounds):
                    ask(link, count)
                    first = first or highest(process)
                last = highest(process)
    asked = connections * rounds * count
    print(f"serve, {connections} connections, {asked} requests: {first} kB, then {last} kB, status {process.returncode}")
    if process.returncode != 0 or last > first:
        sys.exit("serve: it should not grow, and end with status 0")


def main():
    geocom, word = sys.argv[1:3]
    if word == "serve":
        serves(geocom, 1, 1000, 1000)
        serves(geocom, 1000, 1, 1)
    else:
        reads(geocom, word, sys.argv[3])


main()
