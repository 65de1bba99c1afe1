"""Stops `geocom station` while it waits for its second connection to be quiet, lets a reply of the first one come then, and
continues it: that reply must be dropped, and the line be quiet once more before a command is sent.
"""

import csv
import socket
import time

from measuring import measuring

STALE, OWN = "111111", "222222"
QUIET = 1.5


def begin(line):
    """Answers null procedures until the first command came."""
    while b"%R1Q,5003,1:" not in (data := line.recv(100)):
        if data.lstrip(b"\n").startswith(b"%R1Q,0,"):
            line.sendall(b"%R1P,0," + data.lstrip(b"\n")[7:8] + b":0\r\n")


def answer(line):
    """Answers all that comes, to its end. When the first request came."""
    first = None
    while data := line.recv(100):
        for request in data.splitlines():
            first = first or time.monotonic()
            procedure, number = request[5:-1].split(b",")
            line.sendall(b"%R1P,0," + number + (b":0\r\n" if procedure == b"0" else f":0,{OWN}\r\n".encode()))
    return first


def stop(program):
    """Stops it, and looks what it booked, and when it went on."""
    with socket.create_server(("127.0.0.1", 0)) as port:
        words = f"--deadline 6000 --settle {1000 * QUIET:.0f}"
        with measuring(program, port.getsockname()[1], words, b"7 5003\n8 5003\n") as run:
            # The first connection ends with the first command.
            line, _ = port.accept()
            with line:
                begin(line)
            # The second one: the line feed, and while the station is stopped the reply to that command, within the quiet time.
            line, _ = port.accept()
            with line:
                line.recv(100)
                time.sleep(0.3)
                with run.stopped():
                    time.sleep(0.3)
                    line.sendall(f"%R1P,0,1:0,{STALE}\r\n".encode())
                    time.sleep(2)
                continued = time.monotonic()
                line.settimeout(10)
                first = answer(line)
            run.status(20)
            rows = [(row["target"], row["outcome"], row["values"]) for row in csv.DictReader(run.output().decode().splitlines())]
    assert rows == [("7", "lost", ""), ("8", "answered", OWN)]
    assert first >= continued + QUIET - 0.1, "a command went out early"
    return f"{rows}"
