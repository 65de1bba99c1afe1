"""An instrument that knows procedures beside those of the table. As `geocom serve` does, it keeps the reply to the last request that it
executed, and a request with that id gets the kept reply. Each connection gets one that restarts.

    knowing.py PORT --connections N
"""

import re
import socket
import sys

REQUEST = re.compile(rb"%R1Q,(\d+),(\d):[^\r\n]*\r$")
# What each procedure is answered with, after the colon: a return code and values. Some are warnings.
KNOWN = {
    0: "0", 5003: "0,123456", 2107: "0,0.0,0.0",
    # Target recognition, the atmosphere, a measurement with the tilts, and others.
    18005: "0,1", 2028: "0,1013.25,15.0,0.0,0.6585", 2167: "1283,0.0,1.5,25.125,0.0012,-0.0034", 2165: "1284,0.5,1.5,\"a,b\"",
    2124: "0,1", 5051: "1284,7", 17020: "0,2", 18007: "0,0", 9018: "0,1", 2003: "1283,0.0,1.5,0.0,1.5", 2020: "0,1", 2022: "0,0.0",
}


def serve(near):
    """Answers what comes on a connection, until it ends."""
    kept, rest = (None, b""), b""
    while data := near.recv(65536):
        *lines, rest = (rest + data).split(b"\n")
        for found in filter(None, map(REQUEST.match, lines)):
            if kept[0] != found[2]:
                kept = found[2], b"%%R1P,0,%s:%s\r\n" % (found[2], KNOWN[int(found[1])].encode())
            near.sendall(kept[1])


def main():
    port, connections = int(sys.argv[1]), int(sys.argv[3])
    with socket.create_server(("127.0.0.1", port)) as listener:
        for _ in range(connections):
            near, _ = listener.accept()
            near.setsockopt(socket.IPPROTO_TCP, socket.TCP_NODELAY, 1)
            with near:
                try:
                    serve(near)
                except OSError:
                    pass


if __name__ == "__main__":
    main()
