"""As examples.c, through the Python module: examples.py PIECE WIDTH < STEPS."""

import sys

import geocom


ANSWERS = b"".join(b"%%R1P,0,%d:0\r\n" % id for id in (6, 5, 4, 3, 2, 1, 0, 7))


def synchronized(client):
    client.synchronize(ANSWERS)
    return client


def line_of(line):
    return f" {line.decode('latin-1')[:-2]}" if line else ""


def told(settlements):
    return "".join(
        f" [{s.target} {s.procedure} {s.outcome} {int(s.reading)} {s.code} {s.line or ''}" + "".join(f" <{i}>" for i in s.items) + "]"
        for s in settlements
    )


def feed(client, data, piece):
    text = ""
    for at in range(0, len(data), piece):
        before, faults = dict(client.counts), dict(client.line_faults)
        settled = client.feed(data[at : at + piece])
        for kind in geocom.Kind:
            if kind != geocom.Kind.MORE and client.counts[kind] > before.get(kind, 0):
                text += f" kind {int(kind)}"
        for fault, count in client.line_faults.items():
            if count > faults.get(fault, 0):
                text += f" fault {fault}"
        text += told(settled)
    return text


def main():
    piece, width = int(sys.argv[1]), int(sys.argv[2])
    client = synchronized(geocom.Client(width))
    for step in sys.stdin.read().splitlines():
        name, _, rest = step.partition(" ")
        if name == "send":
            target, deadline, procedure, *params = rest.split(" ", 3)
            try:
                line = client.send(int(target), int(deadline), int(procedure), "".join(params))
                text = " " + line.decode("latin-1")[:-2]
            except geocom.Fault as fault:
                text = f" fault {fault.number}"
        elif name == "raw":
            target, deadline, procedure, *params = rest.split(" ", 3)
            try:
                line = client.send_raw(int(procedure), "".join(params), target=int(target), deadline=int(deadline))
                text = " " + line.decode("latin-1")[:-2]
            except geocom.Fault as fault:
                text = f" fault {fault.number}"
        elif name == "feed":
            text = feed(client, rest.encode("latin-1") + b"\r\n", piece)
        elif name == "hex":
            text = told(client.feed(bytes.fromhex(rest)))
        elif name == "cleared":
            text = feed(client, rest.encode("latin-1") + b"\n", piece)
        elif name == "expire":
            text = "".join(f" {target}" for target in client.expire(int(rest)))
        elif name == "restart":
            text = told(client.restart())
            synchronized(client)
        elif name == "new":
            client, text = geocom.Client(int(rest)), ""
        elif name == "init":
            client, text = synchronized(geocom.Client(int(rest))), ""
        elif step == "synchronize":
            text = line_of(client.synchronize())
        elif name == "synchronize":
            data = rest.encode("latin-1") + b"\r\n"
            text = "".join(line_of(client.synchronize(data[at : at + piece])) for at in range(0, len(data), piece))
        else:
            next_deadline = client.next_deadline()
            text = " none" if next_deadline is None else f" {next_deadline}"
        print(f"{text}; {client.outstanding} wait")


main()
