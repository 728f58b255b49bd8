#!/usr/bin/env python3
"""docs/pictures/layers.py: crates.txt as layers.svg. A crate stands above all that it uses; a line that follows from others is left out."""
import os
import sys

import svg

HERE = os.path.dirname(os.path.abspath(__file__))
LAYER, BOX, GAP, TOP, MARGIN = 76, 40, 20, 108, 40
# a group of crates.txt, which a comment opens: outline, filling
STROKES = {"g0": ("#0072b2", "#56b4e9"), "g1": ("#b86e00", "#e69f00"), "g2": ("#007a59", "#2fd0a0"), "g3": ("#a03a78", "#e79ac6"), "link": ("#9aa4ae", "#6e7781")}
FILLS = {"f0": ("#e3f1f9", "#0b2a3d"), "f1": ("#fdf0d9", "#3b2a05"), "f2": ("#dff3ec", "#06301f"), "f3": ("#f8e6f1", "#3a1530")}
LEAVES = "the library, leaves first"


def read():
    """Each crate's own crates and those of the kit; its group's number; the groups' words."""
    uses, kit, group, words = {}, {}, {}, []
    for line in open(os.path.join(HERE, "..", "..", "crates.txt")):
        line = line.strip()
        if line.startswith("#"):
            words.append(LEAVES if line == "# leaves first" else line[1:].strip())
        elif line:
            name, _, rest = line.partition(":")
            name = name.split()[0]
            uses[name], kit[name], group[name] = rest.split(), [], max(0, len(words) - 1)
    for name in uses:
        kit[name] = [x for x in uses[name] if x not in uses]
        uses[name] = [x for x in uses[name] if x in uses]
    return uses, kit, group, words or [LEAVES]


def below(uses):
    """All that each crate stands on."""
    out = {}
    for name in uses:  # leaves come first in the file
        out[name] = set(uses[name]).union(*(out[x] for x in uses[name]))
    return out


def levels(uses, links):
    """How high each crate stands: one above the highest that it uses; and where more lines leave it upwards than downwards, as high as its users let it."""
    level = {}
    for name in uses:
        level[name] = 1 + max((level[x] for x in uses[name]), default=-1)
    for name in reversed(list(uses)):
        users = [level[high] for low, high in links if low == name]
        if len(users) > sum(high == name for _, high in links) > 0:
            level[name] = max(level[name], min(users) - 1)
    return level


def width_of(name, kit):
    """A box's width; a line that passes a layer, which has no name, needs little."""
    return max(64, 9.2 * len(name) + 26, 6.0 * len(kit_words(kit[name])) + 18) if isinstance(name, str) else 6


def kit_words(names):
    return "kit: " + " ".join(names) if names else ""


def chains(links, level):
    """Each link as its stations from layer to layer; those between the two crates are (low, high, layer)."""
    return [[low, *((low, high, k) for k in range(level[low] + 1, level[high])), high] for low, high in links]


def places(rows, routes, kit):
    """The middle of each station, across. The rows are swept up and down: a station goes to the middle of its neighbours, as far as the row's boxes let it.
    Neighbours that only pass count more, so that a long line is straight."""
    near = {station: [] for row in rows for station in row}
    for route in routes:
        for low, high in zip(route, route[1:]):
            weight = (1, 3, 12)[sum(not isinstance(x, str) for x in (low, high))]
            near[low].append((high, True, weight))
            near[high].append((low, False, weight))
    at = {station: 100.0 * k for row in rows for k, station in enumerate(row)}
    for turn in range(120):
        upwards = turn % 2 == 0
        for row in rows if upwards else rows[::-1]:
            # the order comes from the side that was just placed, the place from both
            side = lambda station: [at[x] for x, above, _ in near[station] if above != upwards] or [at[station]]
            if turn < 60:
                row.sort(key=lambda station: (sum(side(station)) / len(side(station)), str(station)))
            wish = [sum(w * at[x] for x, _, w in near[station]) / sum(w for _, _, w in near[station]) if near[station] else at[station] for station in row]
            apart([width_of(station, kit) for station in row], wish, row, at)
    return at


def apart(widths, wish, row, at):
    """The places nearest to the wishes, by least squares, at which no two boxes of the row meet: blocks of boxes that touch share their mean."""
    offset = [0.0]
    for left, right in zip(widths, widths[1:]):
        offset.append(offset[-1] + (left + right) / 2 + GAP)
    blocks = []
    for w, o in zip(wish, offset):
        blocks.append([w - o, 1])
        while len(blocks) > 1 and blocks[-2][0] > blocks[-1][0]:
            mean, count = blocks.pop()
            blocks[-1] = [(blocks[-1][0] * blocks[-1][1] + mean * count) / (blocks[-1][1] + count), blocks[-1][1] + count]
    means = [mean for mean, count in blocks for _ in range(count)]
    for station, mean, o in zip(row, means, offset):
        at[station] = mean + o


def curve(route, at, y_of):
    """A line from the top of the lower box to the bottom of the upper one, straight past the layers between."""
    n = svg.number
    y = y_of(route[0])
    out = f"M{n(at[route[0]])} {n(y)}"
    for low, high in zip(route, route[1:]):
        end = y_of(high) + BOX
        out += f"C{n(at[low])} {n(y - 24)} {n(at[high])} {n(end + 24)} {n(at[high])} {n(end)}"
        y = end
        if not isinstance(high, str):
            y -= BOX
            out += f"V{n(y)}"
    return out


def picture():
    uses, kit, group, words = read()
    under = below(uses)
    links = [(low, high) for high in uses for low in uses[high] if not any(low in under[x] for x in uses[high])]
    level = levels(uses, links)
    routes = chains(links, level)
    rows = [[name for name in uses if level[name] == k] for k in range(max(level.values()) + 1)]
    for route in routes:
        for station in route[1:-1]:
            rows[station[2]].append(station)
    at = places(rows, routes, kit)
    half = {station: width_of(station, kit) / 2 for station in at}
    left, right = min(at[x] - half[x] for x in at), max(at[x] + half[x] for x in at)
    width = max(640, round(right - left) + 2 * MARGIN)
    at = {x: at[x] + width / 2 - (left + right) / 2 for x in at}
    height = TOP + LAYER * len(rows) + 12
    y_of = lambda station: TOP + LAYER * (len(rows) - 1 - (level[station] if isinstance(station, str) else station[2]))
    body = [svg.text(MARGIN, 38, f"The {len(uses)} crates as layers", 21, more=' font-weight="700"')]
    body.append(svg.text(MARGIN, 59, "Each stands on those that it is linked to below, and on all that these stand on.", 12, kind="soft"))
    x = MARGIN
    for k, said in enumerate(words):
        said = said.split(":")[0]
        body.append(f'<rect class="f{k % 4}" x="{x:.0f}" y="74" width="16" height="12" rx="3"/><rect class="g{k % 4}" x="{x:.0f}" y="74" width="16" height="12" rx="3" stroke-width="1.2"/>')
        body.append(svg.text(x + 22, 84, said, 12))
        x += 48 + 5.9 * len(said)
    body += [svg.path(curve(route, at, y_of), "link", 1.4) for route in routes]
    for name in uses:
        w, k = 2 * half[name], group[name] % 4
        where = f'x="{svg.number(at[name] - w / 2)}" y="{y_of(name)}" width="{svg.number(w)}" height="{BOX}" rx="7"'
        body.append(f'<rect class="f{k}" {where}/><rect class="g{k}" {where} stroke-width="1.5"/>')
        said = kit_words(kit[name])
        body.append(svg.text(at[name], y_of(name) + (18 if said else 25), name, 15, "middle"))
        if said:
            body.append(svg.text(at[name], y_of(name) + 33, said, 10.5, "middle", "soft"))
    return svg.page(width, height, "The crates as layers", "Each crate above those that it uses.", svg.style(STROKES, FILLS), body)


if __name__ == "__main__":
    with open(sys.argv[1] if len(sys.argv) > 1 else os.path.join(HERE, "layers.svg"), "w") as out:
        out.write(picture())
