#!/usr/bin/env python3
"""Request lines by a seed, the same each time: right ones, and ones with every fault that a line can have.
Usage: random_lines.py LINES SEED"""
import random
import sys

# Each procedure's number, and the kinds of its parameters: s short, l long, b byte, d double, o boolean.
PROCEDURES = [
    (0, ""), (107, "s"), (108, ""), (110, ""), (5003, ""), (5004, ""), (5007, "sbbbbb"), (5008, ""), (5011, ""),
    (5034, ""), (2008, "ll"), (2009, ""), (2010, "dddd"), (2011, ""), (2012, "d"), (2026, ""), (2107, "l"),
    (2108, "ll"), (17017, "l"), (9027, "ddllo"), (9028, "llo"), (9037, "ddo"), (2117, ""), (17008, "l"), (17009, ""), (65535, ""),
]
NOISE = b" ,:'\"%+-.eE0123456789aFRPQx\r\\\x00\xff"

chance = random.Random(int(sys.argv[2]))


def digits(most):
    return "".join(chance.choice("0123456789") for _ in range(chance.randint(1, most)))


def double():
    if chance.random() < 0.3:
        return chance.choice(["0.5", "1.5", "2.25", "1.625", "4.0", "0.0", "-0.1"])
    sign = chance.choice(["", "", "", "-", "+"])
    text = sign + chance.choice([digits(14), digits(14) + ".", "." + digits(26), digits(13) + "." + digits(26)])
    if chance.random() < 0.1:
        text += chance.choice("eE") + chance.choice(["", "-", "+"]) + digits(3)
    return text


def item(kind):
    match kind:
        case "d":
            return double()
        case "s" | "l":
            return chance.choice(["", "-", "+"]) + chance.choice([digits(2), digits(5), digits(11)])
        case "b":
            return "'" + "".join(chance.choice("0123456789abcdefABCDEF") for _ in range(2)) + "'"
        case "o":
            return chance.choice(["0", "1", "01", "+1", "-0", "2"])


def spaced(text):
    return text if chance.random() < 0.9 else " " * chance.randint(0, 3) + text + " " * chance.randint(0, 3)


def request():
    number, kinds = chance.choice(PROCEDURES)
    items = [spaced(item(kind)) for kind in kinds]
    if chance.random() < 0.05:
        items.append(chance.choice(["", "0", '"a,b"', '"', "x"]))
    if items and chance.random() < 0.03:
        items.pop()
    mark = "" if chance.random() < 0.1 else f",{chance.randint(0, 9 if chance.random() < 0.1 else 7)}"
    return f"%R1Q,{number:0{chance.choice([1, 1, 1, 5, 6])}d}{mark}:{','.join(items)}".encode("ascii")


def damaged(line):
    line = bytearray(line)
    for _ in range(chance.randint(1, 3)):
        place = chance.randrange(len(line) + 1)
        match chance.randrange(3):
            case 0:
                line[place:place + 1] = b""
            case 1:
                line[place:place] = bytes([chance.choice(NOISE)])
            case 2:
                line[place:place + 1] = bytes([chance.choice(NOISE)])
    return bytes(line)


for _ in range(int(sys.argv[1])):
    line = request()
    if chance.random() < 0.2:
        line = damaged(line)
    if chance.random() < 0.002:
        line += b" " * chance.choice([480, 500, 505, 520, 1100])
    sys.stdout.buffer.write(line + (b"\n" if chance.random() < 0.02 else b"\r\n"))
