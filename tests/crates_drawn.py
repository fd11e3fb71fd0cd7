"""Draws docs/crates.svg: each crate above those that it uses, by crates.txt. A line that follows from others is
left out. `python3 -B tests/crates_drawn.py` writes the picture; tests/style.py compares it with what this draws."""

import os
from functools import cache

from common import ROOT, crates

WIDTH, HEIGHT, GAP, STEP = 132, 26, 14, 62
# How often the nodes of all levels are put in order by their neighbours.
SWEEPS = 24


@cache
def below():
    """For each crate those of the repository that it uses, without those that another one of these uses."""
    known = crates()
    uses = {name: {it for it in libraries if it in known} for name, (_, libraries) in known.items()}

    @cache
    def reached(name):
        return frozenset().union(uses[name], *map(reached, uses[name]))

    return {name: sorted(on - frozenset().union(*map(reached, on))) for name, on in uses.items()}


@cache
def least_level(name):
    return 1 + max(map(least_level, below()[name]), default=-1)


@cache
def level(name):
    """The level of a crate: right below those that use it, if these are no fewer than those that it uses."""
    above = [upper for upper, on in below().items() if name in on]
    return min(map(level, above)) - 1 if above and len(above) >= len(below()[name]) else least_level(name)


def parts():
    """The nodes of each level, and the lines between neighbouring levels. A line over several levels has a nameless
    node in each between, so that it passes beside the boxes there."""
    levels = [[name for name in below() if level(name) == at] for at in range(1 + max(map(level, below())))]
    lines = []
    for upper, on in below().items():
        for lower in on:
            way = [lower, *((lower, upper, at) for at in range(level(lower) + 1, level(upper))), upper]
            for node in way[1:-1]:
                levels[node[2]].append(node)
            lines += zip(way, way[1:])
    return levels, lines


def in_order(levels, lines):
    """The nodes of each level, put in the order of the middle of their neighbours, up and down again and again."""
    for sweep in range(SWEEPS):
        upwards = sweep % 2 == 0
        for at in range(1, len(levels)) if upwards else range(len(levels) - 2, -1, -1):
            other = {node: k for k, node in enumerate(levels[at - 1 if upwards else at + 1])}

            def middle(node, other=other, upwards=upwards):
                near = [lower if upwards else upper for lower, upper in lines if (upper if upwards else lower) == node]
                places = [other[it] for it in near if it in other]
                return sum(places) / len(places) if places else len(other) / 2

            levels[at] = sorted(levels[at], key=middle)
    return levels


def middles(levels):
    """Where the middle of each node is, with each level in the middle of the picture; and its width and its height."""
    def wide(node):
        return WIDTH if isinstance(node, str) else GAP

    most = max(sum(map(wide, nodes)) + GAP * (len(nodes) - 1) for nodes in levels)
    places = {}
    for at, nodes in enumerate(levels):
        x = GAP + (most - sum(map(wide, nodes)) - GAP * (len(nodes) - 1)) / 2
        for node in nodes:
            places[node] = (round(x + wide(node) / 2), GAP + HEIGHT // 2 + STEP * (len(levels) - 1 - at))
            x += wide(node) + GAP
    return places, round(most) + 2 * GAP, 2 * GAP + HEIGHT + STEP * (len(levels) - 1)


def ends(line, places):
    """Where a line begins and ends: at the top of its lower box and at the bottom of its upper one."""
    (x1, y1), (x2, y2) = (places[node] for node in line)
    half = [HEIGHT // 2 if isinstance(node, str) else 0 for node in line]
    return x1, y1 - half[0], x2, y2 + half[1]


def svg():
    """The picture."""
    levels, lines = parts()
    places, width, height = middles(in_order(levels, lines))
    shapes = ['<rect width="100%" height="100%" fill="white"/>']
    for line in lines:
        x1, y1, x2, y2 = ends(line, places)
        shapes.append(f'<path d="M{x1} {y1}C{x1} {y1 - 18} {x2} {y2 + 18} {x2} {y2}" fill="none" stroke="#777"/>')
    for name in below():
        x, y = places[name]
        box = f'x="{x - WIDTH // 2}" y="{y - HEIGHT // 2}" width="{WIDTH}" height="{HEIGHT}" rx="3"'
        shapes.append(f'<rect {box} fill="#eee" stroke="black"/><text x="{x}" y="{y + 4}">{name}</text>')
    head = f'<svg xmlns="http://www.w3.org/2000/svg" viewBox="0 0 {width} {height}" width="{width}" height="{height}"'
    return "\n".join([f'{head} font-family="monospace" font-size="13" text-anchor="middle">', *shapes, "</svg>"]) + "\n"


if __name__ == "__main__":
    os.chdir(ROOT)
    (ROOT / "docs/crates.svg").write_text(svg())
