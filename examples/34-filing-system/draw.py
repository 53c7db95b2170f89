#!/usr/bin/env python3
"""draw.py GRAPH: prints a graph of graph.py as SVG. An object stands in the column after that of the first index that
leads to it, and the number beside an arrow is the slot."""

import re
import sys

WIDE, HIGH, COLUMN, ROW = 92, 24, 170, 40


def read(text):
    """The label of each node, and the edges in their order."""
    labels = dict(re.findall(r'(o\d+) \[label="([^"]*)"\]', text))
    return labels, re.findall(r'(o\d+) -> (o\d+) \[label=(\d+)\]', text)


def places(edges):
    """The column and the row of each node. A node's first child stands in its row, each further one below all before."""
    place, lowest = {'o0': (0, 0)}, 0
    for source, to, _ in edges:
        if to not in place:
            column, row = place[source]
            is_first = all(where[0] <= column or where[1] < row for where in place.values())
            lowest = row if is_first else lowest + 1
            place[to] = column + 1, lowest
    return place


def picture(text):
    labels, edges = read(text)
    place = {node: (20 + COLUMN * column, 20 + ROW * row) for node, (column, row) in places(edges).items()}
    width, height = (max(where[axis] for where in place.values()) + size for axis, size in ((0, WIDE + 20), (1, HIGH + 20)))
    yield f'<svg xmlns="http://www.w3.org/2000/svg" width="{width}" height="{height}" font-family="sans-serif" font-size="12">'
    yield ('<defs><marker id="head" markerWidth="9" markerHeight="8" refX="8" refY="4" orient="auto">'
           '<path d="M0,0 L9,4 L0,8 z" fill="#222"/></marker></defs>')
    yield f'<rect width="{width}" height="{height}" fill="white"/>'
    for source, to, slot in edges:
        (x1, y1), (x2, y2) = place[source], place[to]
        x1, y1, y2 = x1 + WIDE, y1 + HIGH / 2, y2 + HIGH / 2
        yield f'<line x1="{x1}" y1="{y1}" x2="{x2}" y2="{y2}" stroke="#222" marker-end="url(#head)"/>'
        yield f'<text x="{x1 + 0.7 * (x2 - x1):.0f}" y="{y1 + 0.7 * (y2 - y1) - 4:.0f}" fill="#777">{slot}</text>'
    for node, (x, y) in place.items():
        fill = '#dbe7f3' if 'index' in labels[node] else 'white'
        yield f'<rect x="{x}" y="{y}" width="{WIDE}" height="{HIGH}" rx="3" fill="{fill}" stroke="#222"/>'
        yield f'<text x="{x + WIDE / 2}" y="{y + 16}" text-anchor="middle">{labels[node]}</text>'
    yield '</svg>'


if __name__ == '__main__':
    with open(sys.argv[1]) as file:
        print('\n'.join(picture(file.read())))
