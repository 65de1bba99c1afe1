"""What a call of `ask` costs over loopback, beside what the simulator takes: cost.py PORT [COUNT]. Medians, in microseconds."""

import itertools
import socket
import statistics
import sys
import time

import geocom

port, count = sys.argv[1], int(sys.argv[2]) if len(sys.argv) > 2 else 3000


def timed(call):
    """The median of so many calls."""
    took = []
    for _ in range(count):
        begun = time.perf_counter()
        call()
        took.append(time.perf_counter() - begun)
    return statistics.median(took) * 1e6


with socket.create_connection(("127.0.0.1", int(port))) as plain:
    plain.setsockopt(socket.IPPROTO_TCP, socket.TCP_NODELAY, 1)
    ids = itertools.cycle(range(8))

    def bare():
        plain.sendall(b"%%R1Q,5003,%d:\r\n" % next(ids))
        came = b""
        while not came.endswith(b"\n"):
            came += plain.recv(4096)

    simulator = timed(bare)
with geocom.Station(port) as station:
    asked = timed(lambda: station.ask(5003))
    named = timed(station.csv.get_instrument_no)
print(f"cost: ask {asked:.1f} µs, by name {named:.1f}; without it {simulator:.1f}, so ask costs {asked - simulator:.1f}")
