#!/usr/bin/env python3
"""Refuses each allocation of a run in turn, until a run meets none, and stops where a run ends otherwise than it may.

refused.py REFUSE.so GC_CASES GEOCOM FOLDER
refused.py REFUSE.so GEOCOM        a run of `geocom exec` alone

A run of all examples (`gc_cases once`) may give another line than with ample memory for one of them: that it found no
memory and sent and wrote nothing, or that a port of the tests couldn't store. Or it ends before its next example, where a
file of the folder couldn't be read for want of memory. A run of `geocom` writes all of its output, or ends with fault 52,
and has written nothing then.
"""

import collections
import os
import socket
import subprocess
import sys
import tempfile
import threading
import time

MAY = ("no memory", "a port could not store")
MOST = 100000

Run = collections.namedtuple("Run", "met status output messages")


def run(library, number, folder, words, text=b""):
    """Runs a program with its allocation of this number refused; 0 refuses none."""
    with tempfile.TemporaryFile() as met:
        # The library writes to descriptor 9.
        os.dup2(met.fileno(), 9)
        done = subprocess.run(
            words,
            input=text,
            capture_output=True,
            cwd=folder,
            env={"LD_PRELOAD": library, "REFUSE": str(number)},
            pass_fds=(9,),
            timeout=60,
            check=False,
        )
        os.close(9)
        met.seek(0)
        return Run(met.read() != b"", done.returncode, done.stdout, done.stderr)


def refusals(library, folder, words, text=b""):
    """The runs with the first allocation refused, the second, and so on, until a run meets none."""
    for number in range(1, MOST):
        done = run(library, number, folder, words, text)
        if not done.met:
            return
        yield number, done
    sys.exit(f"{words}: more than {MOST} allocations")


def outcomes(output):
    """The examples of a run with what each gave, in order."""
    return [line.rsplit(": ", 1) for line in output.decode().splitlines()]


def examples(library, folder, program):
    """Each allocation of the run of all examples, and for each example how its refusals ended."""
    words = [program, "once"]
    ample = run(library, 0, folder, words)
    names = [name for name, outcome in outcomes(ample.output) if outcome == "its answer"]
    if ample.status != 0 or len(names) != len(outcomes(ample.output)):
        sys.exit(f"with ample memory:\n{ample.output.decode()}")
    ends = {name: collections.Counter() for name in names}
    whole = unread = 0
    for number, done in refusals(library, folder, words):
        given = outcomes(done.output)
        others = [(name, outcome) for name, outcome in given if outcome != "its answer"]
        in_order = [name for name, _ in given] == names[: len(given)]
        is_whole = done.status == 0 and in_order and len(given) == len(names)
        if is_whole and not others:
            whole += 1
        elif is_whole and len(others) == 1 and others[0][1] in MAY:
            ends[others[0][0]][others[0][1]] += 1
        elif done.status == 1 and in_order and not others and done.messages == b"Error: Kind(OutOfMemory)\n":
            unread += 1
        else:
            sys.exit(f"allocation {number} refused: {done}")
    for name, counts in ends.items():
        told = ", ".join(f"{counts[end]} {end}" for end in MAY if counts[end])
        print(f"{name}: {told or 'takes none'}")
    print(f"{unread} refused before an example, as its files were read; {whole} after which each gave its answer")


def program(library, words, text, expected):
    """Each allocation of a run of the program, which gives this output with ample memory."""
    full, none = (0, expected, b""), (1, b"", b"geocom: fault 52\n")
    if run(library, 0, "/", words, text)[1:] != full:
        sys.exit(f"{words}: another output with ample memory")
    counts = collections.Counter()
    for number, done in refusals(library, "/", words, text):
        if done[1:] not in (full, none):
            sys.exit(f"{words}, allocation {number} refused: {done}")
        counts[done[1:] == none] += 1
    return counts


ENGINES = {
    ".requests": (["exec"], ".replies"),
    ".recording": (["check"], ".verdicts"),
    ".schedule": (["drill", "--totals"], ".expected"),
}

LOOPED = b"7 5003\n8 9028 0,0,0\n9 2026\n"
TOLD = b"0 7 answered %R1P,0,0:0,123456\n1 8 answered %R1P,0,1:0\n2 9 answered %R1P,0,2:0,1\n"


def runs(geocom, folder):
    """The runs of the program: its words, its input and its output."""
    for name in sorted(os.listdir(folder)):
        stem, ending = os.path.splitext(name)
        if ending in ENGINES:
            words, output = ENGINES[ending]
            with open(os.path.join(folder, name), "rb") as file:
                text = file.read()
            with open(os.path.join(folder, stem + output), "rb") as file:
                yield name, [geocom, *words], text, file.read()
    yield "three commands", [geocom, "loop"], LOOPED, TOLD


ASKED = b"7 5003\n8 0\n"
REPLIES = b"%R1P,0,0:0,123456\r\n", b"%R1P,0,1:0\r\n"
ANSWERED = b"0 7 answered %R1P,0,0:0,123456\n1 8 answered %R1P,0,1:0\n"


def answer(listener, opened):
    """Gives the replies on each connection, one for each request, and counts the connections."""
    while True:
        link, _ = listener.accept()
        opened.append(link)
        with link, link.makefile("rwb") as lines:
            for reply in REPLIES:
                lines.readline()
                lines.write(reply)
                lines.flush()


def asks(library, geocom):
    """Each allocation of `geocom ask`: it opens a connection only where it writes all of its output."""
    opened = []
    with socket.create_server(("127.0.0.1", 0)) as listener:
        threading.Thread(target=answer, args=(listener, opened), daemon=True).start()
        counts = program(library, [geocom, "ask", str(listener.getsockname()[1])], ASKED, ANSWERED)
        time.sleep(0.5)
    # The first run, with ample memory, and the last one, which met no refusal, opened one too.
    if len(opened) != counts[False] + 2:
        sys.exit(f"ask: {len(opened)} connections, {counts}")
    return counts


def tell(name, counts):
    """The line of a command."""
    print(f"{name}: {counts[True]} fault 52, {counts[False]} all of its output")


def main():
    if len(sys.argv) == 3:
        library, geocom = map(os.path.abspath, sys.argv[1:])
        counts = program(library, [geocom, "exec"], b"%R1Q,5003,2:\r\n", b"%R1P,0,2:0,123456\r\n")
        print(f"exec: {counts.total()} allocations; refused in turn: {counts[True]} fault 52, {counts[False]} all of its output")
        return
    library, gc_cases, geocom, folder = map(os.path.abspath, sys.argv[1:])
    examples(library, folder, gc_cases)
    for name, words, text, expected in runs(geocom, folder):
        tell(f"{' '.join(words[1:])} < {name}", program(library, words, text, expected))
    tell("ask, two commands", asks(library, geocom))


main()
