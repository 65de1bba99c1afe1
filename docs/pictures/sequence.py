#!/usr/bin/env python3
"""Draws the wrong booking, light and dark: docs/pictures/sequence.py

It writes late-reply-light.svg and late-reply-dark.svg beside itself.
"""

import pathlib
from xml.sax.saxutils import escape

WIDTH, HEIGHT = 900, 440
STATION, INSTRUMENT = 590, 850
OTHER, GEOCOM = 20, 290

THEMES = {
    "light": {"back": "#ffffff", "ink": "#1f2328", "soft": "#59636e", "line": "#8c959f", "wrong": "#cf222e", "right": "#1a7f37",
              "wrong_paper": "#ffebe9", "right_paper": "#dafbe1"},
    "dark": {"back": "#0d1117", "ink": "#f0f6fc", "soft": "#9198a1", "line": "#656c76", "wrong": "#ff7b72", "right": "#56d364",
             "wrong_paper": "#3c1618", "right_paper": "#12301c"},
}


class Drawing:
    """The elements of one picture, in the colours of a theme."""

    def __init__(self, colours):
        self.colours = colours
        self.elements = []

    def text(self, x, y, said, colour="ink", anchor="start", weight="normal", size=14):
        self.elements.append(
            f'<text x="{x}" y="{y}" fill="{self.colours[colour]}" text-anchor="{anchor}" font-weight="{weight}" '
            f'font-size="{size}">{escape(said)}</text>')

    def line(self, x1, y1, x2, y2, colour="line", width=1.5, dashes="", head=False):
        dashed = f' stroke-dasharray="{dashes}"' if dashes else ""
        arrow = f' marker-end="url(#{colour})"' if head else ""
        self.elements.append(
            f'<line x1="{x1}" y1="{y1}" x2="{x2}" y2="{y2}" stroke="{self.colours[colour]}" stroke-width="{width}"{dashed}{arrow}/>')

    def box(self, x, y, width, height, colour):
        self.elements.append(f'<rect x="{x}" y="{y}" width="{width}" height="{height}" rx="6" fill="{self.colours[colour]}"/>')

    def request(self, y, said):
        self.line(STATION, y, INSTRUMENT - 3, y + 12, "ink", head=True)
        self.text(INSTRUMENT - 12, y + 29, said, "ink", "end")

    def reply(self, y1, y2, said, colour, dashes=""):
        self.line(INSTRUMENT, y1, STATION + 3, y2, colour, 2, dashes, head=True)
        self.text(STATION + 12, y2 + 18, said, colour)

    def booked(self, x, y, width, lines, colour):
        """What a client books at a moment, one line of text below the other."""
        self.box(x, y - 18, width, 12 + 18 * len(lines), f"{colour}_paper")
        for k, (said, weight) in enumerate(lines):
            self.text(x + 12, y + 18 * k, said, colour, weight=weight)

    def svg(self, title, description):
        heads = "".join(
            f'<marker id="{name}" markerWidth="10" markerHeight="10" refX="8" refY="4" orient="auto" markerUnits="userSpaceOnUse">'
            f'<path d="M0,0 L9,4 L0,8 z" fill="{self.colours[name]}"/></marker>' for name in ("ink", "wrong", "right", "soft"))
        return "\n".join([
            f'<svg xmlns="http://www.w3.org/2000/svg" viewBox="0 0 {WIDTH} {HEIGHT}" width="{WIDTH}" height="{HEIGHT}" role="img" '
            'font-family="DejaVu Sans, Verdana, Segoe UI, Helvetica, Arial, sans-serif">',
            f"<title>{escape(title)}</title>",
            f"<desc>{escape(description)}</desc>",
            f"<defs>{heads}</defs>",
            f'<rect width="{WIDTH}" height="{HEIGHT}" fill="{self.colours["back"]}"/>',
            *self.elements,
            "</svg>",
            "",
        ])


def picture(theme):
    drawing = Drawing(THEMES[theme])
    drawing.text(OTHER + 120, 28, "a client that takes", "ink", "middle", "bold")
    drawing.text(OTHER + 120, 46, "the next reply", "ink", "middle", "bold")
    drawing.text(GEOCOM + 120, 37, "geocom", "ink", "middle", "bold")
    drawing.text(STATION, 37, "client", "ink", "middle", "bold")
    drawing.text(INSTRUMENT, 37, "instrument", "ink", "middle", "bold")
    for x in (STATION, INSTRUMENT):
        drawing.line(x, 50, x, HEIGHT - 20, dashes="4 4")

    drawing.request(66, "measure target 1 (id 1)")

    drawing.line(STATION - 12, 150, STATION + 12, 150, "ink", 2)
    drawing.text(STATION + 20, 155, "deadline", "soft")
    drawing.text(OTHER + 12, 155, "target 1: timed out", "soft")
    drawing.text(GEOCOM + 12, 155, "target 1: timed out, id 1 not reused", "soft")

    drawing.request(196, "measure target 2 (id 2)")

    drawing.reply(112, 248, "late reply (id 1)", "wrong")
    drawing.booked(OTHER, 244, 240, [("target 2: target 1's reply", "bold"), ("shows a false movement", "normal")], "wrong")
    drawing.booked(GEOCOM, 244, 240, [("target 1: late", "bold"), ("not booked for target 2", "normal")], "right")

    drawing.reply(252, 330, "reply (id 2)", "right")
    drawing.booked(OTHER, 326, 240, [("target 3: target 2's reply", "bold"), ("off by one from now on", "normal")], "wrong")
    drawing.booked(GEOCOM, 326, 240, [("target 2: answered", "bold"), ("by its own reply", "normal")], "right")

    drawing.text(OTHER, HEIGHT - 24, "Time runs downwards. The radio link delays the first reply.", "soft", size=13)
    return drawing.svg(
        "A late reply, and the wrong booking",
        "A client asks an instrument for a measurement of target 1. The deadline passes, and the client asks for target 2. Then the "
        "late reply to the first request comes. A client that takes the next reply books it for target 2, and is off by one from "
        "then on. geocom reports target 1 as late, and target 2 as answered by its own reply.")


def main():
    folder = pathlib.Path(__file__).resolve().parent
    for theme in THEMES:
        (folder / f"late-reply-{theme}.svg").write_text(picture(theme), encoding="utf-8")


if __name__ == "__main__":
    main()
