#!/usr/bin/env python3
"""A recording of a line, the same each time: each request of the mixed stream with its reply after it.
Usage: recording.py PROGRAM BYTES     PROGRAM is geocom, which makes the replies; at least that many bytes"""
import os
import subprocess
import sys

program, wanted = sys.argv[1], int(sys.argv[2])
requests = subprocess.run(
    [sys.executable, os.path.join(os.path.dirname(__file__), "requests.py"), "mixed", "1"], stdout=subprocess.PIPE, check=True
).stdout
replies = subprocess.run([program, "exec"], input=requests, stdout=subprocess.PIPE, check=True).stdout
block = b"".join(a + b for a, b in zip(requests.splitlines(True), replies.splitlines(True), strict=True))
for _ in range(-(-wanted // len(block))):
    sys.stdout.buffer.write(block)
