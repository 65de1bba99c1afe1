#!/usr/bin/env python3
"""What three clients report when one reply comes late.

    docs/pictures/others.py [PROGRAM]

Two are Modbus clients, libmodbus (also with its error recovery) and pymodbus, over a serial line (a pseudo terminal) and over TCP. They read registers 1 to 5, which
hold 1001 to 1005. The third is `geocom station`, where the program is named: targets 1 to 5 have the numbers 1001 to 1005. Each waits
a second at most. The far end holds back its reply to the first request until it has the second one; then it sends both, in order, and
answers each further request 50 ms after it came. It wants Linux, and Debian's libmodbus5, python3-pymodbus, python3-serial and
python3-serial-asyncio.
"""

import ctypes
import logging
import os
import socket
import subprocess
import sys
import threading
import time
import tty

PATIENCE = 1
WORK = 0.05
REGISTERS = range(1, 6)
# libmodbus: MODBUS_ERROR_RECOVERY_LINK and MODBUS_ERROR_RECOVERY_PROTOCOL
LINK, PROTOCOL = 2, 4


def crc(data):
    value = 0xFFFF
    for byte in data:
        value ^= byte
        for _ in range(8):
            value = value >> 1 ^ (0xA001 if value & 1 else 0)
    return value.to_bytes(2, "little")


def requests(read, size):
    """The requests as they come: so many bytes each, or lines."""
    rest = b""
    while piece := read(256):
        rest += piece
        while (end := size or rest.find(b"\r\n") + 2) <= len(rest) and end > 1:
            yield rest[:end]
            rest = rest[end:]


def serve(read, write, size, answered):
    """The far end. A request that its client sends again is still the first."""
    first, held = None, []
    for request in requests(read, size):
        key, reply = answered(request)
        first = first or key
        if key and key == first:
            held.append(reply)
            continue
        for each in (*held, reply):
            time.sleep(WORK)
            write(each)
        held.clear()


def register(data):
    return (1000 + int.from_bytes(data, "big")).to_bytes(2, "big")


def over_tcp(request):
    body = request[6:8] + b"\x02" + register(request[8:10])
    return request[8:10], request[:4] + len(body).to_bytes(2, "big") + body


def over_serial(request):
    body = request[:2] + b"\x02" + register(request[2:4])
    return request[2:4], body + crc(body)


def as_instruments():
    """Null procedures are answered at once, and have no key; each other request gets the next number."""
    count = 0

    def answered(request):
        nonlocal count
        procedure, number = request.strip().removeprefix(b"%R1Q,").rstrip(b":").split(b",")
        if procedure == b"0":
            return None, b"%%R1P,0,%s:0\r\n" % number
        count += 1
        return b"%d" % count, b"%%R1P,0,%s:0,%d\r\n" % (number, 1000 + count)

    return answered


def tcp():
    listener = socket.create_server(("127.0.0.1", 0))

    def go():
        while True:
            connection, _ = listener.accept()
            threading.Thread(target=serve, args=(connection.recv, connection.sendall, 12, over_tcp), daemon=True).start()

    threading.Thread(target=go, daemon=True).start()
    return listener.getsockname()[1]


def terminal(size, answered):
    far, near = os.openpty()
    tty.setraw(far)
    tty.setraw(near)
    threading.Thread(target=serve, args=(lambda n: os.read(far, n), lambda data: os.write(far, data), size, answered), daemon=True).start()
    return os.ttyname(near)


def libmodbus(is_tcp, recovers=False):
    library = ctypes.CDLL("libmodbus.so.5", use_errno=True)
    library.modbus_new_tcp.restype = library.modbus_new_rtu.restype = ctypes.c_void_p
    library.modbus_strerror.restype = ctypes.c_char_p
    if is_tcp:
        bus = ctypes.c_void_p(library.modbus_new_tcp(b"127.0.0.1", tcp()))
    else:
        bus = ctypes.c_void_p(library.modbus_new_rtu(terminal(8, over_serial).encode(), 19200, ctypes.c_char(b"N"), 8, 1))
    library.modbus_set_slave(bus, 1)
    if recovers:
        library.modbus_set_error_recovery(bus, LINK | PROTOCOL)
    library.modbus_set_response_timeout(bus, PATIENCE, 0)
    if library.modbus_connect(bus) != 0:
        sys.exit("libmodbus: no connection")
    for number in REGISTERS:
        value = ctypes.c_uint16()
        if library.modbus_read_registers(bus, number, 1, ctypes.byref(value)) == 1:
            yield number, value.value
        else:
            yield number, library.modbus_strerror(ctypes.get_errno()).decode()


def libmodbus_with_recovery(is_tcp):
    return libmodbus(is_tcp, recovers=True)


def pymodbus(is_tcp):
    from pymodbus.client import ModbusSerialClient, ModbusTcpClient
    logging.disable(logging.CRITICAL)
    if is_tcp:
        client = ModbusTcpClient("127.0.0.1", port=tcp(), timeout=PATIENCE)
    else:
        client = ModbusSerialClient(port=terminal(8, over_serial), baudrate=19200, timeout=PATIENCE)
    client.connect()
    for number in REGISTERS:
        answer = client.read_holding_registers(number, 1, slave=1)
        yield number, answer if answer.isError() else answer.registers[0]


def main():
    for client in (libmodbus, libmodbus_with_recovery, pymodbus):
        for is_tcp in (False, True):
            print(f"{client.__name__.replace('_', ' ')}, {'TCP' if is_tcp else 'serial line'}")
            for number, said in client(is_tcp):
                print(f"    register {number}: {said}")
    if len(sys.argv) > 1:
        print("geocom station, serial line", flush=True)
        commands = "".join(f"{number} 5003\n" for number in REGISTERS)
        subprocess.run([sys.argv[1], "station", terminal(0, as_instruments()), "--deadline", str(1000 * PATIENCE)],
                       input=commands, text=True, check=True)


if __name__ == "__main__":
    main()
