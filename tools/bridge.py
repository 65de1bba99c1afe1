"""A device whose line goes to a port of 127.0.0.1: makes a pseudo terminal with LINK as its name, and carries what comes and goes
between it and one connection to PORT, until that ends. What is in flight in it goes over closes of the device.

    bridge.py LINK PORT
"""

import os
import select
import socket
import sys
import tty

far, near = os.openpty()
tty.setraw(near)
port = socket.create_connection(("127.0.0.1", int(sys.argv[2])))
port.setsockopt(socket.IPPROTO_TCP, socket.TCP_NODELAY, 1)
os.symlink(os.ttyname(near), sys.argv[1])
while True:
    for end in select.select([far, port], [], [])[0]:
        if end is far:
            port.sendall(os.read(far, 4096))
        elif data := port.recv(4096):
            os.write(far, data)
        else:
            sys.exit()
