#!/usr/bin/env python3
"""Compares the picture docs/first-sets.svg with the graph of `ggdesk dot` on docs/first-description.md: the boxes with their numbers and
rules, and the arrows with their symbols. A symbol is that of the arrow which it lies nearest to.

Usage: bench/picture.py
"""

import pathlib
import re
import sys

DOCS = pathlib.Path(__file__).resolve().parent.parent / "docs"


def graph():
    """The lines of each item set, and the arrows."""
    page = (DOCS / "first-description.md").read_text()
    sets = {int(number): [number, *rules.split("\\l")[:-1]] for number, rules in re.findall(r's\d+ \[label="(\d+)\\n(.*)"\];', page)}
    arrows = {(int(start), int(end), symbol) for start, end, symbol in re.findall(r's(\d+) -> s(\d+) \[label="(\w+)"\];', page)}
    return sets, arrows


def numbers(text):
    return [int(it) for it in re.findall(r"\d+", text)]


def holds(box, x, y):
    left, top, width, height = box
    return left <= x <= left + width and top <= y <= top + height


def at(path, t):
    """A place on a line or a cubic curve, t from 0 to 1."""
    points = list(zip(path[::2], path[1::2]))
    while len(points) > 1:
        points = [(a[0] + t * (b[0] - a[0]), a[1] + t * (b[1] - a[1])) for a, b in zip(points, points[1:])]
    return points[0]


def distance(path, x, y):
    places = (at(path, step / 40) for step in range(41))
    return min((x - a) ** 2 + (y - b) ** 2 for a, b in places)


def picture():
    """The same as the graph's, of the picture."""
    drawn = (DOCS / "first-sets.svg").read_text()
    boxes = [numbers(" ".join(it)) for it in re.findall(r'<rect (x="\d+") (y="\d+") (width="\d+") (height="\d+")/>', drawn)]
    texts = [(int(x), int(y), text) for x, y, text in re.findall(r'<text x="(\d+)" y="(\d+)"[^>]*>([^<]*)</text>', drawn)]
    paths = [numbers(path) for path in re.findall(r'<path d="(M[^"]*)" marker-end', drawn)]
    sets, symbols = {}, []
    for box in boxes:
        lines = [text for x, y, text in texts if holds(box, x, y)]
        sets[int(lines[0])] = lines
    for x, y, text in texts:
        if not any(holds(box, x, y) for box in boxes):
            symbols.append((x, y - 4, text))

    def set_at(x, y):
        return next(number for number, box in zip(sets, boxes) if holds(box, x, y))

    arrows = set()
    for path in paths:
        _, symbol = min((distance(path, x, y), text) for x, y, text in symbols)
        arrows.add((set_at(*path[:2]), set_at(*path[-2:]), symbol))
    return sets, arrows


def main():
    wanted, found = graph(), picture()
    for name, one, other in zip(("sets", "arrows"), wanted, found):
        if one != other:
            print(f"the picture has other {name}: {other} where the page has {one}")
    print(f"{len(found[0])} boxes and {len(found[1])} arrows of docs/first-sets.svg, compared with the page")
    return 0 if wanted == found and wanted[0] else 1


if __name__ == "__main__":
    sys.exit(main())
