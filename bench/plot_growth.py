#!/usr/bin/env python3
"""The plot of how cost grows: plot_growth.py FOLDER growth.svg draws the instructions of a whole cycle at 1 to 256 segments,
for each dead segment and for each live record, of the verified library, of that at 8d90607 and of the independent one."""
import sys
from math import log2, log10

from plot import BLUE, GRID, INK, text
from report import Counted, number
from rows import GROWTH

WIDTH, HEIGHT = 940, 490
TOP, BOTTOM, PANEL = 132, 62, 358
GREY, GREEN = "#7a828c", "#1b7f4b"
SERIES = [("before, at 8d90607", "before", GREY, 2), ("independent implementation", "independent", GREEN, 2), ("verified", "now", BLUE, 2.8)]


class Panel:
    """Axes: segments to the right by powers of two, `scale` of the instructions upwards between two values."""

    def __init__(self, left, low, high, scale):
        self.left, self.scale = left, scale
        self.low, self.high = scale(low), scale(high)

    def x(self, segments):
        return self.left + log2(segments) / log2(GROWTH[-1]) * PANEL

    def y(self, value):
        return HEIGHT - BOTTOM - (self.scale(value) - self.low) / (self.high - self.low) * (HEIGHT - TOP - BOTTOM)

    def grid(self, ticks, title, note):
        out = text(self.left, TOP - 32, title, size=14, weight="600") + text(self.left, TOP - 14, note, size=12)
        for segments in GROWTH:
            out += f'<path d="M{self.x(segments):.1f} {TOP}V{HEIGHT - BOTTOM}" stroke="{GRID}"/>\n'
            out += text(self.x(segments), HEIGHT - BOTTOM + 18, str(segments), anchor="middle", size=12)
        for tick in ticks:
            out += f'<path d="M{self.left} {self.y(tick):.1f}h{PANEL}" stroke="{GRID}"/>\n' + text(self.left - 8, self.y(tick) + 4, f"{tick:,}", anchor="end", size=12)
        return out + text(self.left + PANEL / 2, HEIGHT - 18, "segments", anchor="middle")

    def curve(self, values, colour, width, dashed):
        points = [(self.x(segments), self.y(value)) for segments, value in zip(GROWTH, values)]
        dash = ' stroke-dasharray="6 4"' if dashed else ""
        path = "M" + "L".join(f"{x:.1f} {y:.1f}" for x, y in points)
        return f'<path d="{path}" fill="none" stroke="{colour}" stroke-width="{width - 0.6 * dashed}"{dash} stroke-linejoin="round"/>\n'

    def ends(self, last):
        """The values at the last points, beside them, from the highest down and never closer than a line."""
        out, y = "", 0
        for value, colour in sorted(last, reverse=True):
            y = max(y + 14, self.y(value) + 4)
            out += text(self.x(GROWTH[-1]) + 7, y, number(round(value)), colour, size=12, weight="600")
        return out

    def draw(self, counted, kinds, each):
        out, last = "", []
        for dashed, kind in enumerate(kinds):
            for _, who, colour, width in SERIES:
                values = [each(getattr(counted, who), segments, kind) for segments in GROWTH]
                out += self.curve(values, colour, width, dashed)
                if not dashed:
                    last.append((values[-1], colour))
        return out + self.ends(last)


def legend():
    out, x = "", 14
    for name, _, colour, width in reversed(SERIES):
        out += f'<path d="M{x} 52h28" stroke="{colour}" stroke-width="{width}"/>\n' + text(x + 36, 56, name, colour, weight="600")
        x += 36 + 7 * len(name) + 44
    return out


def main():
    folder, path = sys.argv[1:3]
    counted = Counted(folder)
    dead, live = Panel(66, 200, 4000, log10), Panel(528, 0, 300, float)
    out = f'<svg xmlns="http://www.w3.org/2000/svg" width="{WIDTH}" height="{HEIGHT}" viewBox="0 0 {WIDTH} {HEIGHT}" font-family="Helvetica, Arial, sans-serif">\n'
    out += f'<rect width="{WIDTH}" height="{HEIGHT}" fill="white"/>\n'
    out += text(14, 26, "How the instructions of a whole cycle grow with the heap", INK, size=16, weight="600") + legend()
    out += dead.grid([200, 500, 1000, 2000, 4000], "all dead: for each segment (logarithmic)", "solid: records of class 3, dashed: of class 4")
    out += dead.draw(counted, ("dead, class 3", "dead, class 4"), lambda counts, segments, kind: counts[f"cycle, {segments} segments, {kind}"] / segments)
    for i, line in enumerate(("what falls: start and the", "handshakes, once a cycle")):
        out += text(dead.x(1) + 10, dead.y(290) + 16 * i, line, size=12)
    out += live.grid([0, 50, 100, 150, 200, 250, 300], "all full: for each live record", "solid: every record live, dashed: every second one")
    out += live.draw(counted, ("live", "half live"), lambda counts, segments, kind: counts[f"cycle, {segments} segments, {kind}: a live record"])
    with open(path, "w") as file:
        file.write(out + "</svg>\n")


if __name__ == "__main__":
    main()
