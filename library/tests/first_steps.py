"""Runs the Python examples of a page as they stand: first_steps.py PAGE. They ask at 127.0.0.1:4001, where `geocom serve` listens, or an
instrument within the process; others, as those that name a device, aren't run. Those of README.md have at most ten lines."""

import re
import sys
import textwrap

import geocom

with open(sys.argv[1], encoding="utf-8") as file:
    text = file.read()
# A block is fenced, or indented by four spaces.
blocks = re.findall(r"^```python\n(.*?)^```$", text, re.M | re.S)
blocks += re.findall(r"^    import geocom\n(?:(?:    .*)?\n)+", text, re.M)
examples = [textwrap.dedent(block).strip("\n") for block in blocks if "127.0.0.1:4001" in block or "= geocom.Instrument(" in block]
assert examples, "the page has no example that can be run"
for example in examples:
    assert len(example.splitlines()) <= 10 or not sys.argv[1].endswith("README.md"), "the example has more than ten lines"
    exec(compile(example, sys.argv[1], "exec"), {"geocom": geocom})
