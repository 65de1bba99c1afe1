"""Two pseudo terminals at one line that alters bytes, as tools/bad-line draws them: pipe_altered.py SHARE SEED LINK LINK

SHARE is in thousandths of a hundredth. After a SIGTERM it says how many bytes came, and how many changes there were.
"""

import os
import select
import signal
import sys
import tty
from pathlib import Path

sys.dont_write_bytecode = True
sys.path.insert(0, str(Path(__file__).resolve().parents[2]))

from line_alter import altered, changes_drawn
from line_draws import draw

SOME = 4096


def end(link):
    """The far end of a new pseudo terminal, to which the link leads."""
    far, near = os.openpty()
    tty.setraw(near)
    os.symlink(os.ttyname(near), link)
    return far


def main():
    share, seed = map(int, sys.argv[1:3])
    one, other = map(end, sys.argv[3:])
    ways, chunks, counts = {one: ("up", other), other: ("down", one)}, {one: 0, other: 0}, [0, 0]

    def stop(*_):
        print(f"{counts[0]} bytes, {counts[1]} altered", flush=True)
        os._exit(0)

    signal.signal(signal.SIGTERM, stop)
    while True:
        for near in select.select(list(ways), [], [])[0]:
            data = os.read(near, SOME)
            way, far = ways[near]
            chunks[near] += 1
            changes = changes_drawn(draw(seed, way, chunks[near], 15), share, data)
            counts[0] += len(data)
            counts[1] += len(changes)
            os.write(far, altered(data, changes))


if __name__ == "__main__":
    main()
