#!/usr/bin/env python3
"""The plot of call lengths: plot.py FOLDER calls.svg draws, for the churn workload at 256 segments with records of 1 + 1, the
share of calls that took longer than a time, both scales logarithmic: the heap's calls beside Boehm's allocations."""
import os
import sys
from array import array
from math import log10

WIDTH, HEIGHT = 860, 520
LEFT, RIGHT, TOP, BOTTOM = 84, 24, 64, 66
X_LOW, X_HIGH, Y_LOW = 1, 7, -6.4  # powers of ten: 10 ns to 10 ms, all calls to less than one in a million
BLUE, RED, ORANGE, INK, GRID = "#1f5fa8", "#b3261e", "#d9822b", "#22262c", "#e4e7eb"
TIMES = {1: "10 ns", 2: "100 ns", 3: "1 µs", 4: "10 µs", 5: "100 µs", 6: "1 ms", 7: "10 ms"}
SHARES = {0: "all", -1: "1 in 10", -2: "1 in 100", -3: "1 in 1,000", -4: "1 in 10,000", -5: "1 in 100,000", -6: "1 in 1,000,000"}


def read(path):
    values = array("I")
    with open(path, "rb") as file:
        values.frombytes(file.read())
    return sorted(values)


def x_of(ns):
    return LEFT + (min(max(log10(ns), X_LOW), X_HIGH) - X_LOW) / (X_HIGH - X_LOW) * (WIDTH - LEFT - RIGHT)


def y_of(share):
    return TOP + max(log10(share), Y_LOW) / Y_LOW * (HEIGHT - TOP - BOTTOM)


def steps(values):
    """The points at which the share of longer calls falls, thinned to what can be seen."""
    count, points, last = len(values), [(x_of(values[0]), y_of(1))], None
    for i, ns in enumerate(values):
        left = count - i - 1
        if left and ns == values[i + 1]:
            continue
        point = (x_of(ns), y_of(left / count) if left else HEIGHT - BOTTOM)
        if last is None or not left or abs(point[0] - last[0]) + abs(point[1] - last[1]) > 0.7:
            points.append(point)
            last = point
    return points


def curve(values, colour, width):
    points = steps(values)
    path = f"M{points[0][0]:.1f} {points[0][1]:.1f}" + "".join(f"H{x:.1f}V{y:.1f}" for x, y in points[1:])
    return f'<path d="{path}" fill="none" stroke="{colour}" stroke-width="{width}" stroke-linejoin="round"/>\n'


def text(x, y, words, colour=INK, anchor="start", size=13, weight="normal"):
    return f'<text x="{x:.1f}" y="{y:.1f}" fill="{colour}" text-anchor="{anchor}" font-size="{size}" font-weight="{weight}">{words}</text>\n'


def grid():
    out = ""
    for power, label in TIMES.items():
        x = x_of(10**power)
        out += f'<path d="M{x:.1f} {TOP}V{HEIGHT - BOTTOM}" stroke="{GRID}"/>\n' + text(x, HEIGHT - BOTTOM + 20, label, anchor="middle", size=12)
    for power, label in SHARES.items():
        y = y_of(10**power)
        out += f'<path d="M{LEFT} {y:.1f}H{WIDTH - RIGHT}" stroke="{GRID}"/>\n' + text(LEFT - 8, y + 4, label.replace("1,000,000", "million"), anchor="end", size=11)
    out += text((LEFT + WIDTH - RIGHT) / 2, HEIGHT - 18, "length of a single call: the least of the repeated runs, with the clock's own 20 ns (logarithmic)", anchor="middle")
    return out + text(14, TOP - 14, "share of calls that are longer", size=13)


def longest(values):
    ns = values[-1]
    return f"{ns / 1000:.1f} µs" if ns < 1e5 else f"{ns / 1e6:.2f} ms"


def label(values, share, words, colour, dx, dy, anchor="start"):
    """A line's name, beside the point where so large a share of the calls is longer."""
    ns = values[min(len(values) - 1, int(len(values) * (1 - share)))]
    lines = words.split("|")
    return "".join(text(x_of(ns) + dx, y_of(share) + dy + 15 * i, part, colour, anchor, weight="600" if i == 0 else "normal") for i, part in enumerate(lines))


def main():
    folder, path = sys.argv[1:3]
    heap, boehm, incremental = (read(os.path.join(folder, f"{program}-256-1-1.calls")) for program in ("verified", "boehm", "incremental"))
    out = f'<svg xmlns="http://www.w3.org/2000/svg" width="{WIDTH}" height="{HEIGHT}" viewBox="0 0 {WIDTH} {HEIGHT}" font-family="Helvetica, Arial, sans-serif">\n'
    out += f'<rect width="{WIDTH}" height="{HEIGHT}" fill="white"/>\n'
    out += text(14, 26, "How long a call takes: 4 MiB of records, half of it live, short-lived records of 1 + 1 made", size=16, weight="600")
    out += grid() + curve(incremental, ORANGE, 2) + curve(boehm, RED, 2.2) + curve(heap, BLUE, 2.6)
    out += label(heap, 2e-4, f"verified heap|every call|longest {longest(heap)}", BLUE, -12, -10, "end")
    out += label(incremental, 3e-3, f"Boehm's, incremental|every allocation|longest {longest(incremental)}", ORANGE, 16, -6)
    out += label(boehm, 3e-6, f"Boehm's|every allocation|longest {longest(boehm)}", RED, 10, -26)
    with open(path, "w") as file:
        file.write(out + "</svg>\n")


if __name__ == "__main__":
    main()
