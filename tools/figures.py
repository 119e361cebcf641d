#!/usr/bin/env python3
"""figures.py FOLDER: writes the figures of docs/WHY.md as SVG files. Python's standard library alone."""
import sys
from pathlib import Path
from xml.sax.saxutils import escape

GREY, BLUE, RED, GREEN, BLACK = "#9aa0a6", "#0b6e99", "#b2461f", "#3c7d22", "#222"


class Figure:
    """Shapes in user units; a unit is a pixel."""

    def __init__(self, width, height):
        self.parts = [
            f'<svg xmlns="http://www.w3.org/2000/svg" viewBox="0 0 {width} {height}" width="{width}" font-family="sans-serif" font-size="13">',
            '<defs><marker id="a" viewBox="0 0 8 8" refX="7" refY="4" markerWidth="7" markerHeight="7" orient="auto"><path d="M0,0 L8,4 L0,8 z" fill="context-stroke"/></marker></defs>',
            f'<rect width="{width}" height="{height}" fill="white"/>',
        ]

    def path(self, points, colour=BLACK, closed=False, width=2, dash="", arrow=False):
        name = "polygon" if closed else "polyline"
        listed = " ".join(f"{x},{y}" for x, y in points)
        more = f' stroke-dasharray="{dash}"' if dash else ""
        more += ' marker-end="url(#a)"' if arrow else ""
        self.parts.append(f'<{name} points="{listed}" fill="none" stroke="{colour}" stroke-width="{width}"{more}/>')

    def rect(self, x, y, w, h, colour=BLACK, fill="none"):
        self.parts.append(f'<rect x="{x}" y="{y}" width="{w}" height="{h}" fill="{fill}" stroke="{colour}" stroke-width="1.5"/>')

    def dot(self, x, y, colour=BLACK, radius=4):
        self.parts.append(f'<circle cx="{x}" cy="{y}" r="{radius}" fill="{colour}"/>')

    def text(self, x, y, words, colour=BLACK, anchor="start"):
        self.parts.append(f'<text x="{x}" y="{y}" fill="{colour}" text-anchor="{anchor}">{escape(words)}</text>')

    def done(self):
        return "\n".join(self.parts) + "\n</svg>\n"


def rounding():
    """The four steps from the exact crossing to the whole coordinate, on one axis."""
    f = Figure(640, 160)
    f.path([(30, 80), (610, 80)], GREY, width=1)
    for i, n in enumerate(["k", "k + 1", "k + 2"]):
        x = 70 + 240 * i
        f.path([(x, 72), (x, 88)], GREY, width=1)
        f.text(x, 106, n, GREY, "middle")
    f.dot(402, 80, RED)
    f.text(398, 66, "a + p (b - a) / q", RED, "end")
    f.dot(414, 80, BLUE)
    f.path([(402, 30), (414, 30)], BLUE)
    f.text(396, 34, "three roundings: below 1 / 33,554,432", BLUE, "end")
    f.path([(414, 130), (312, 130)], GREEN, arrow=True)
    f.text(420, 134, "cut toward zero: less than 1", GREEN)
    f.dot(310, 80, GREEN, 5)
    return f.done()


def depths():
    """The depths of a segment's ends over two neighbouring sides."""
    f = Figure(640, 250)
    f.rect(220, 20, 260, 200, BLACK, "#f4f7fa")
    f.path([(110, 170), (360, 70)], RED, arrow=True)
    f.dot(110, 170, RED)
    f.dot(220, 126, BLUE)
    f.path([(110, 170), (220, 170)], GREY, dash="4 3", width=1)
    f.text(216, 188, "depth -110 of left", GREY, "end")
    f.path([(360, 70), (220, 70)], GREY, dash="4 3", width=1)
    f.text(290, 64, "depth 140 of left", GREY, "middle")
    f.path([(360, 70), (360, 20)], GREY, dash="4 3", width=1)
    f.text(366, 48, "depth 50 of top", GREY)
    f.path([(360, 70), (480, 70)], GREY, dash="4 3", width=1)
    f.text(420, 86, "120 of right", GREY, "middle")
    f.text(230, 146, "exact crossing", BLUE)
    return f.done()


def walk():
    """An input path that leaves by the top, goes round a corner and comes back by the right side."""
    f = Figure(640, 330)
    f.rect(200, 110, 200, 180, BLACK, "#f4f7fa")
    for x, y, words in ((300, 312, "bottom"), (300, 36, "top"), (60, 200, "left"), (560, 200, "right"), (240, 276, "inside")):
        f.text(x, y, words, GREY, "middle")
    f.path([(280, 220), (280, 50), (500, 50), (500, 220)], GREY, closed=True, dash="5 4")
    outline = [(280, 220), (280, 110), (400, 110), (400, 220)]
    f.path(outline, BLUE, closed=True, width=3)
    for x, y in outline:
        f.dot(x, y, BLUE)
    f.text(284, 238, "input point", BLUE)
    f.text(272, 104, "crossing with top", BLUE, "end")
    f.text(408, 104, "corner", BLUE)
    f.text(408, 236, "crossing with right", BLUE)
    return f.done()


def rings():
    """A ring that runs along an edge in both directions, split in two."""
    f = Figure(680, 240)
    for shift, words in ((0, "before"), (350, "after")):
        f.path([(20 + shift, 190), (320 + shift, 190)], GREY, width=6)
        f.text(320 + shift, 226, "an edge of the rectangle", GREY, "end")
        f.text(20 + shift, 226, words)
    f.path([(50, 194), (50, 30), (120, 30), (120, 186), (220, 186), (220, 30), (290, 30), (290, 194), (56, 194)], BLUE, arrow=True)
    f.path([(400, 190), (400, 30), (470, 30), (470, 190)], BLUE, closed=True)
    f.path([(570, 190), (570, 30), (640, 30), (640, 190)], GREEN, closed=True)
    for x, y, words, dx, dy in (
        (120, 186, "1", -10, -8), (220, 186, "2", 10, -8), (290, 194, "3", 12, 16), (50, 194, "4", -12, 16),
        (470, 190, "1", 12, -8), (570, 190, "2", -12, -8), (640, 190, "3", 12, -8), (400, 190, "4", -12, -8),
    ):
        f.dot(x, y, RED)
        f.text(x + dx, y + dy, words, RED, "middle")
    return f.done()


def detour():
    """Two routes outside between the same two points beyond the top edge's line, and the one drawing that both give."""
    f = Figure(640, 340)
    f.rect(220, 180, 240, 130, BLACK, "#f4f7fa")
    f.path([(20, 180), (620, 180)], BLACK, dash="5 4", width=1)
    f.text(620, 198, "line of the top edge", BLACK, "end")
    out, back = (300, 130), (400, 140)
    f.path([out, (180, 150), (60, 115), (110, 45), (330, 30)], GREY, arrow=True)
    f.path([(330, 30), (560, 50), (510, 110), back], GREY)
    f.text(122, 96, "one route", GREY)
    f.path([out, (350, 90), back], RED)
    f.text(362, 90, "another route", RED)
    leaving, coming = (290, 180), (408, 180)
    f.path([leaving, out], BLACK)
    f.path([back, coming], BLACK)
    f.path([(250, 290), (280, 230), leaving], BLUE, width=3)
    f.path([coming, (420, 240), (380, 290)], BLUE, width=3)
    f.dot(*leaving, BLUE)
    f.dot(*coming, BLUE)
    f.text(346, 216, "one drawing", BLUE, "middle")
    f.text(346, 233, "for both", BLUE, "middle")
    f.text(346, 330, "the owner's rectangle", GREY, "middle")
    for (x, y), words, dx, dy, colour in (((280, 230), "p", -10, 2, BLUE), (out, "q", -4, -10, BLACK), (back, "q′", -8, 18, BLACK)):
        f.dot(x, y, colour)
        f.text(x + dx, y + dy, words, colour, "end")
    return f.done()


def slots():
    """A slot of the work list, and the arena's record that it stands for."""
    f = Figure(680, 90)
    names = ["next", "prev", "owner", "edge", "result", "start", "", ""] + [f"edge {k}" for k in range(8)]
    for k, name in enumerate(names):
        f.rect(20 + 40 * k, 36, 40, 34, BLACK, "#f4f7fa" if k < 6 else "#eef3ea" if k >= 8 else "white")
        f.text(40 + 40 * k, 28, str(k), GREY, "middle")
        f.parts.append(f'<text x="{40 + 40 * k}" y="58" font-size="10" text-anchor="middle">{escape(name)}</text>')
    return f.done()


FIGURES = {"rounding": rounding, "depths": depths, "walk": walk, "rings": rings, "detour": detour, "slots": slots}


def main():
    folder = Path(sys.argv[1])
    for name, draw in FIGURES.items():
        (folder / f"{name}.svg").write_text(draw())


if __name__ == "__main__":
    main()
