"""Holds a request of `geocom station` back over a close, and hands it to a restarted instrument before all that the station sends
on its new connection: each answer must be that of its own request. So it does with each request in turn, those of the beginning first.
"""

import csv
import select
import socket

from measuring import measuring
from programs import connect, simulator

# How many null procedures go ahead: eight of the beginning, and one more.
BEGINNING = 9
COMMANDS = b"7 5003\n8 5004\n9 2026\n"
VALUES = [("7", "123456"), ("8", '"GEOCOM SIM"'), ("9", "0")]


def carry(near, far, before):
    """Carries both directions until one ends, or until a request comes after so many. Gives that one, and how many came."""
    came = 0
    while True:
        for end in select.select([near, far], [], [])[0]:
            try:
                data = end.recv(4096)
            except ConnectionResetError:
                data = b""
            if not data:
                return b"", came
            # The line feed of a new connection may come first.
            if end is near and data.lstrip(b"\n").startswith(b"%R1Q,"):
                if came == before:
                    return data, came
                came += 1
            (far if end is near else near).sendall(data)


def rows_where_held(program, instrument, before):
    """The target, outcome and values of each row where the request after so many is held back."""
    with socket.create_server(("127.0.0.1", 0)) as port:
        port.settimeout(0.1)
        with measuring(program, port.getsockname()[1], "--deadline 300 --settle 300", COMMANDS) as run:
            held = b""
            while run.is_running():
                try:
                    near, _ = port.accept()
                except TimeoutError:
                    continue
                with near, connect(instrument) as far:
                    far.sendall(held)
                    held, came = carry(near, far, before)
                    before -= came + bool(held)
            return [(row["target"], row["outcome"], row["values"]) for row in csv.DictReader(run.output().decode().splitlines())]


def hold(program):
    """Holds each request in turn."""
    with simulator(program, "--connections", "100") as instrument:
        for request in range(BEGINNING + len(VALUES)):
            # A null procedure of the beginning is sent again, and the one after them is followed by another; a command is sent once.
            right = [(target, *(("lost", "") if place == request - BEGINNING else ("answered", value)))
                     for place, (target, value) in enumerate(VALUES)]
            assert rows_where_held(program, instrument, request) == right, f"where request {request} is held"
    return f"{BEGINNING + len(VALUES)} requests held in turn"
