#!/usr/bin/python3
"""Draws the page of a station at the end of a month in which a target moves, a reference is hidden and the station falls silent:
docs/pictures/page.py

It writes page.png beside itself, of rows that are simulated (`tools/trials/shown_month.py`), by Chromium. It wants Debian's packages
chromium-headless-shell, or chromium, and python3-pil.
"""

import pathlib
import shutil
import subprocess
import sys
import tempfile

from PIL import Image

HERE = pathlib.Path(__file__).resolve().parent
TOOLS = HERE.parents[1] / "tools"
SIZE, COLOURS = "1000,1585", 200

sys.dont_write_bytecode = True
sys.path[:0] = [str(TOOLS), str(TOOLS / "trials")]

import shown_month

chromium = shutil.which("chromium-headless-shell") or shutil.which("chromium")
if not chromium:
    sys.exit("page.py: Debian's package chromium-headless-shell is missing")
with tempfile.TemporaryDirectory() as name:
    folder = pathlib.Path(name)
    shown_month.lay(folder)
    subprocess.run([sys.executable, TOOLS / "page", folder / "page", "--rows", folder / "rows", "--limits", folder / "limits", "--once",
                    "--at", "2026-11-30T22:30:00Z"], check=True)
    subprocess.run([chromium, "--headless", "--no-sandbox", "--disable-gpu", "--hide-scrollbars", f"--window-size={SIZE}", f"--screenshot={folder / 'page.png'}",
                    f"file://{folder / 'page/station-north.html'}"], check=True, stderr=subprocess.DEVNULL)
    picture = Image.open(folder / "page.png").convert("RGB").quantize(COLOURS, dither=Image.Dither.NONE)
    picture.save(HERE / "page.png", optimize=True)
