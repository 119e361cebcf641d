#!/usr/bin/env python3
"""picture.py INPUT OUTPUT > PICTURE.svg: draws an input of the clip program and what the program printed for it.

The rectangle is outlined, the input is grey, each returned path has a colour and a dot at its starting point, and refusals are listed.
Python's standard library alone."""
import sys
from xml.sax.saxutils import escape

COLOURS = ["#0b6e99", "#b2461f", "#3c7d22", "#7a3e9d", "#a67c00", "#00796b", "#ad1457", "#455a64"]


def fields(line):
    return line.rstrip("\n").split(",")


def points(numbers):
    values = [int(n) for n in numbers]
    return list(zip(values[::2], values[1::2]))


def read_input(text):
    """The rectangle's line, and each path line as (kind, points); a line that cannot be drawn is left out."""
    lines = text.split("\n")
    paths = []
    for line in lines[1:]:
        kind, *numbers = fields(line)
        try:
            paths.append((kind, points(numbers)))
        except ValueError:
            continue
    return paths


def read_output(text):
    """The rectangle, the returned paths as (kind, input line, points), and the refusals as (line, number)."""
    rect, paths, refusals = None, [], []
    for line in text.split("\n"):
        kind, *numbers = fields(line)
        if kind == "R":
            rect = [int(n) for n in numbers]
        elif kind == "X":
            refusals.append((numbers[0], numbers[1]))
        elif kind in ("C", "L"):
            paths.append((kind, int(numbers[0]), points(numbers[2:])))
    return rect, paths, refusals


def extent(groups):
    """The box around all points, a little wider."""
    xs = [x for group in groups for x, _ in group] or [0, 1]
    ys = [y for group in groups for _, y in group] or [0, 1]
    pad = max(max(xs) - min(xs), max(ys) - min(ys), 1) // 20 + 1
    return min(xs) - pad, min(ys) - pad, max(xs) - min(xs) + 2 * pad, max(ys) - min(ys) + 2 * pad


def shape(kind, path, style):
    listed = " ".join(f"{x},{y}" for x, y in path)
    name = "polygon" if kind == "C" else "polyline"
    return f'<{name} points="{listed}" {style}/>'


def picture(given, printed):
    drawn = read_input(given)
    rect, returned, refusals = read_output(printed)
    corners = [(rect[0], rect[1]), (rect[2], rect[3])] if rect else []
    x, y, width, height = extent([p for _, p in drawn] + [p for _, _, p in returned] + [corners])
    unit = max(width, height) / 400
    out = [f'<svg xmlns="http://www.w3.org/2000/svg" viewBox="{x} {y} {width} {height}" width="800">',
           f'<rect x="{x}" y="{y}" width="{width}" height="{height}" fill="white"/>']
    grey = f'stroke="#bbbbbb" stroke-width="{unit:.2f}"'
    for kind, path in drawn:
        fill = 'fill="#eeeeee"' if kind == "C" else 'fill="none"'
        out.append(shape(kind, path, f"{fill} {grey}"))
    if rect:
        left, top, right, bottom = rect
        out.append(f'<rect x="{left}" y="{top}" width="{right - left}" height="{bottom - top}" fill="none" stroke="#222222"'
                   f' stroke-width="{1.5 * unit:.2f}" stroke-dasharray="{4 * unit:.2f}"/>')
    for kind, line, path in returned:
        colour = COLOURS[line % len(COLOURS)]
        fill = f'fill="{colour}" fill-opacity="0.25"' if kind == "C" else 'fill="none"'
        out.append(shape(kind, path, f'{fill} stroke="{colour}" stroke-width="{1.5 * unit:.2f}"'))
        out.append(f'<circle cx="{path[0][0]}" cy="{path[0][1]}" r="{3 * unit:.2f}" fill="{colour}"/>')
    for row, (line, number) in enumerate(refusals):
        text = escape(f"line {line}: refusal {number}")
        out.append(f'<text x="{x + 5 * unit:.2f}" y="{y + (10 + 10 * row) * unit:.2f}" font-size="{8 * unit:.2f}">{text}</text>')
    return "\n".join(out + ["</svg>", ""])


if __name__ == "__main__":
    if len(sys.argv) != 3:
        sys.exit(__doc__)
    with open(sys.argv[1]) as given, open(sys.argv[2]) as printed:
        sys.stdout.write(picture(given.read(), printed.read()))
