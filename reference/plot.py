#!/usr/bin/env python3
"""Draws the figures of measure.py: the cost of a request against the count of versions, both axes logarithmic.

    plot.py FIGURES SVG
"""

import json
import math
import sys

WIDTH, HEIGHT = 860, 480
LEFT, RIGHT, TOP, BOTTOM = 70, 250, 40, 50
COLOURS = ["#1b6ca8", "#c0392b", "#2e8b57", "#8e44ad", "#d68910", "#16a085", "#7f8c8d", "#34495e"]


def place(value, low, high, start, end):
    """Where a value stands between start and end, on a logarithmic axis."""
    return start + (math.log(value) - math.log(low)) / (math.log(high) - math.log(low)) * (end - start)


class Drawing:
    def __init__(self, sizes, lowest, highest):
        self.sizes = sizes
        self.low, self.high = 10 ** math.floor(math.log10(lowest)), 10 ** math.ceil(math.log10(highest))
        self.parts = []

    def x(self, n):
        return place(n, self.sizes[0], self.sizes[-1], LEFT, WIDTH - RIGHT)

    def y(self, cost):
        return place(max(cost, self.low), self.low, self.high, HEIGHT - BOTTOM, TOP)

    def text(self, x, y, words, anchor="start"):
        self.parts.append(f'<text x="{x:.1f}" y="{y:.1f}" text-anchor="{anchor}">{words}</text>')

    def line(self, points, colour, dashed=False, width=1.8):
        dash = ' stroke-dasharray="6 4"' if dashed else ""
        path = " ".join(f"{x:.1f},{y:.1f}" for x, y in points)
        self.parts.append(f'<polyline points="{path}" fill="none" stroke="{colour}" stroke-width="{width}"{dash}/>')

    def axes(self):
        cost = self.low
        while cost <= self.high * 1.001:
            self.line([(LEFT, self.y(cost)), (WIDTH - RIGHT, self.y(cost))], "#dddddd", width=1)
            self.text(LEFT - 8, self.y(cost) + 4, f"{cost:g}", "end")
            cost *= 10
        for n in self.sizes:
            self.line([(self.x(n), TOP), (self.x(n), HEIGHT - BOTTOM)], "#dddddd", width=1)
            self.text(self.x(n), HEIGHT - BOTTOM + 18, f"{n:,}", "middle")
        self.text((LEFT + WIDTH - RIGHT) / 2, HEIGHT - 10, "versions in the store", "middle")
        self.text(LEFT, TOP - 16, "µs of user time a request; solid: frames, dashed: the Rust")

    def curve(self, number, kind, rows):
        colour = COLOURS[number % len(COLOURS)]
        self.line([(self.x(n), self.y(rust)) for n, rust, _ in rows], colour, dashed=True)
        self.line([(self.x(n), self.y(ours)) for n, _, ours in rows], colour)
        y = TOP + 12 + 20 * number
        self.line([(WIDTH - RIGHT + 20, y - 4), (WIDTH - RIGHT + 44, y - 4)], colour)
        self.text(WIDTH - RIGHT + 52, y, kind)

    def svg(self):
        head = f'<svg xmlns="http://www.w3.org/2000/svg" width="{WIDTH}" height="{HEIGHT}" font-family="sans-serif" font-size="13">'
        return "\n".join([head, '<rect width="100%" height="100%" fill="white"/>'] + self.parts + ["</svg>", ""])


def main(argv):
    if len(argv) != 2:
        sys.exit(__doc__)
    with open(argv[0]) as f:
        costs = json.load(f)["costs"]
    rows = [row for kind in costs.values() for row in kind]
    every = [cost for _, rust, ours in rows for cost in (rust, ours) if cost > 0]
    drawing = Drawing(sorted({n for n, _, _ in rows}), min(every), max(every))
    drawing.axes()
    for number, (kind, points) in enumerate(costs.items()):
        drawing.curve(number, kind, points)
    with open(argv[1], "w") as f:
        f.write(drawing.svg())
    return 0


if __name__ == "__main__":
    sys.exit(main(sys.argv[1:]))
