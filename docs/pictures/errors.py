#!/usr/bin/env python3
"""docs/pictures/errors.py: errors.csv, which oracle/errors.py measured, as errors.svg. Needs no reference and no library."""
import csv
import math
import os
import sys

import svg

HERE = os.path.dirname(os.path.abspath(__file__))
WIDTH, LEFT, TOP, PLOT, TALL, COLUMN, ROW = 1000, 56, 138, 414, 132, 480, 206
LOW, HIGH = 0.25, 64.0  # of the axis, in units of the last place
COLOURS = {"proved": ("#0072b2", "#56b4e9"), "ellip": ("#f0c35e", "#9a6a00"), "boost": ("#009e73", "#2fd0a0"), "plain": ("#c4478f", "#e79ac6"), "grid": ("#d8dee4", "#30363d"), "half": ("#8c959f", "#6e7781")}
# contestant: class, width, further; drawn in this order
DRAWN = {
    "ellip": ("ellip", 5.5, ""),
    "boost": ("boost", 1.5, ' stroke-dasharray="1.5 2.5"'),
    "boost double": ("plain", 1.5, ' stroke-dasharray="6 3"'),
    "proved": ("proved", 1.7, ""),
}
SHOWN = {
    "proved": "Shuttlemint, proved",
    "ellip": "ellip 1.2.3's files on hardware",
    "boost double": "Boost.Math 1.74, in double alone",
    "boost": "Boost.Math 1.74 as it comes, long double inside",
}
PANELS = [
    ("ellipk", 1, "m", "ellipk(m)"), ("ellipe", 1, "m", "ellipe(m)"),
    ("ellipke", 1, "m", "ellipke(m), its K"), ("ellipke", 2, "m", "ellipke(m), its E"),
    ("ellippi", 1, "m", "ellippi(n, m), over m"), ("ellippi", 1, "n", "ellippi(n, m), over n"),
    ("ellipeinc", 1, "m", "ellipeinc(φ, m), over m"), ("ellipeinc", 1, "phi", "ellipeinc(φ, m), over |φ|"),
    ("ellipf", 1, "m", "ellipf(φ, m), over m"), ("ellipf", 1, "phi", "ellipf(φ, m), over |φ|"),
]
WIDE = [(-6, "-10⁶"), (-4, "-10⁴"), (-2, "-99"), (-1, "-9"), (0, "0"), (1, "0.9"), (2, "0.99"), (4, "1-10⁻⁴"), (6, "1-10⁻⁶")]
BOX = [(-3, "-999"), (-2, "-99"), (-1, "-9"), (0, "0"), (1, "0.9"), (2, "0.99")]
AROUND_ONE = [(-5, "-999"), (-4, "-99"), (-3, "-9"), (-2, "0"), (-1, "0.9"), (1, "1.1"), (2, "2"), (3, "11"), (4, "101"), (5, "1001")]
ANGLE = [(-3, "0.001"), (-2, "0.01"), (-1, "0.1"), (0, "1"), (1, "10"), (2, "100"), (3, "1000")]
# where the tables' coefficient shows (docs/DIFFERENCES.md): m from 0.85 to 0.9
K_17 = {("ellipk", 1), ("ellipke", 1)}


def ticks(over, ends):
    return {"n": AROUND_ONE, "phi": ANGLE}.get(over) or (WIDE if ends[0] < -3.5 else BOX)


def read():
    panels, whole = {}, {}
    with open(os.path.join(HERE, "errors.csv"), newline="") as file:
        for row in csv.DictReader(file):
            key = (row["function"], int(row["answer"]), row["over"])
            measured = (int(row["points"]), float(row["middle"]), float(row["largest"]))
            if row["over"] == "all":
                whole[key[:2] + (row["contestant"],)] = measured
            else:
                panels.setdefault(key, {}).setdefault(row["contestant"], []).append((float(row["from"]), float(row["to"]), *measured))
    return panels, whole


def height_of(error, top):
    share = (math.log2(min(HIGH, max(LOW, error))) - math.log2(LOW)) / (math.log2(HIGH) - math.log2(LOW))
    return top + TALL * (1 - share)


def trace(stretches, across, top):
    """The largest error of each stretch, level along it; a stretch without points is a gap."""
    out, end = [], None
    for low, high, _, _, largest in stretches:
        y = svg.number(height_of(largest, top))
        out.append(f"{'L' if low == end else 'M'}{svg.number(across(low))} {y}H{svg.number(across(high))}")
        end = high
    return "".join(out)


def panel(key, title, stretches, whole, left, top):
    function, answer, over = key
    ends = min(s[0] for s in stretches["proved"]), max(s[1] for s in stretches["proved"])
    across = lambda u: left + PLOT * (u - ends[0]) / (ends[1] - ends[0])
    body = [svg.text(left, top - 10, title, 14, more=' font-weight="600"')]
    points, middle, largest = whole[(function, answer, "proved")]
    body.append(svg.text(left + PLOT, top - 10, f"proved: middle {middle:.2f}, largest {largest:.1f}", 11, "end", "soft"))
    for error in (0.25, 0.5, 1, 2, 4, 8, 16, 32, 64):
        y = height_of(error, top)
        body.append(svg.line(left, y, left + PLOT, y, "half" if error == 0.5 else "grid", 1, ' stroke-dasharray="3 3"' if error == 0.5 else ""))
        if error in (0.5, 2, 8, 32):
            body.append(svg.text(left - 6, y + 4, {0.5: "½"}.get(error, f"{error:g}"), 11, "end", "soft"))
    for u, words in ticks(over, ends):
        body.append(svg.line(across(u), top + TALL, across(u), top + TALL + 4, "half"))
        body.append(svg.text(across(u), top + TALL + 17, words, 11, "middle", "soft"))
    if over == "n":
        body.append(svg.line(across(0), top, across(0), top + TALL, "half"))
        body.append(svg.text(across(0), top + TALL + 17, "1", 11, "middle", "soft"))
    if over == "phi":
        u = math.log10(math.pi / 2)
        body.append(svg.line(across(u), top, across(u), top + TALL, "half"))
        body.append(svg.text(across(u) + 4, top + 12, "π/2", 11, "start", "soft"))
    for contestant, (kind, width, more) in DRAWN.items():
        if contestant in stretches:
            body.append(svg.path(trace(stretches[contestant], across, top), kind, width, more))
    if key[:2] in K_17:
        peak = max(stretches["proved"], key=lambda s: s[4])
        y = height_of(peak[4], top)
        body.append(svg.text(across(peak[0]) - 6, y + 8, "a coefficient of ellip's tables", 11, "end", "soft"))
    return body


def legend():
    body, places = [], {"proved": (LEFT, 84), "ellip": (LEFT, 104), "boost double": (LEFT + 300, 84), "boost": (LEFT + 300, 104)}
    for contestant, (x, y) in places.items():
        kind, width, more = DRAWN[contestant]
        body.append(svg.line(x, y - 4, x + 34, y - 4, kind, width, more))
        body.append(svg.text(x + 42, y, SHOWN[contestant], 12))
    body.append(svg.line(LEFT + 660, 80, LEFT + 694, 80, "half", 1, ' stroke-dasharray="3 3"'))
    body.append(svg.text(LEFT + 702, 84, "½: the nearest f64", 12))
    return body


def picture():
    panels, whole = read()
    points = {whole[key][0] for key in whole if key[2] == "proved"}
    assert len(points) == 1, "every function has as many points"
    rows = (len(PANELS) + 1) // 2
    height = TOP + rows * ROW + 28
    body = [
        svg.text(LEFT, 38, "Error of each function, in units of the last place", 21, more=' font-weight="700"'),
        svg.text(LEFT, 59, f"The largest in each of 60 stretches of the argument; {points.pop():,} points a function, against mpmath at 60 digits. Both axes are logarithmic.", 12, kind="soft"),
        *legend(),
    ]
    for k, (function, answer, over, title) in enumerate(PANELS):
        key = (function, answer, over)
        body += panel(key, title, panels[key], whole, LEFT + (k % 2) * COLUMN, TOP + 26 + (k // 2) * ROW)
    foot = TOP + rows * ROW + 8
    body.append(svg.text(LEFT, foot, "Boost takes k = √m, so no m below 0, and no n above 1. ellip's files are those of ellipk, ellipe, ellipke and ellipf; its RF is not given: docs/STEPS.md's is used.", 11, kind="soft"))
    strokes = {name: COLOURS[name] for name in COLOURS}
    return svg.page(WIDTH, height, "Error of each function in units of the last place", "Ten panels: the largest error in each stretch of an argument, of the proved library, ellip's files and Boost.Math.", svg.style(strokes, {}), body)


if __name__ == "__main__":
    with open(sys.argv[1] if len(sys.argv) > 1 else os.path.join(HERE, "errors.svg"), "w") as out:
        out.write(picture())
