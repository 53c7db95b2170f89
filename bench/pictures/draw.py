#!/usr/bin/env python3
"""Draws growth.svg: what a thing costs against the size of what it is done in, from the rows of growth.txt. Run it in its
folder; it takes no words."""

from math import log
from xml.sax.saxutils import escape

INK, GREY, PALE, LINE = '#222', '#777', '#e4e4e4', '#1f5f99'
PANELS = [
    ('create', 'a create', 'creates in one index'),
    ('claim', 'a claim and its release', 'cylinders that it goes past'),
    ('collection', 'an object of a collection', 'objects of the volume'),
    ('opening', 'a block of an opening', 'cylinders of the volume'),
]
WIDTH, HEIGHT, LEFT, TOP, APART, BELOW = 270, 130, 60, 60, 130, 110


def rows(path):
    """For each thing its sizes with their instructions and microseconds."""
    found = {}
    with open(path) as file:
        for line in file:
            words = line.split()
            if words and words[0] != '#':
                found.setdefault(words[0], []).append((int(words[1]), float(words[2]), float(words[3])))
    return found


def text(x, y, words, anchor='start', colour=INK, size=12, weight='normal'):
    return (f'<text x="{x:.0f}" y="{y:.0f}" font-size="{size}" text-anchor="{anchor}" fill="{colour}" '
            f'font-weight="{weight}">{escape(words)}</text>')


def panel(x, y, title, axis, points):
    """One curve: sizes by their logarithm, and instructions from 0 on."""
    first, last = log(points[0][0]), log(points[-1][0])
    most = 1.25 * max(instructions for _, instructions, _ in points)
    yield text(x, y - 16, title, weight='bold', size=13)
    yield f'<rect x="{x}" y="{y}" width="{WIDTH}" height="{HEIGHT}" fill="none" stroke="{PALE}"/>'
    at = [(x + WIDTH * (log(size) - first) / (last - first), y + HEIGHT * (1 - instructions / most))
          for size, instructions, _ in points]
    yield f'<polyline points="{" ".join(f"{a:.1f},{b:.1f}" for a, b in at)}" fill="none" stroke="{LINE}" stroke-width="2"/>'
    for (a, b), (size, instructions, _) in zip(at, points):
        yield f'<line x1="{a:.1f}" y1="{b:.1f}" x2="{a:.1f}" y2="{y + HEIGHT}" stroke="{PALE}"/>'
        yield f'<circle cx="{a:.1f}" cy="{b:.1f}" r="3.5" fill="{LINE}"/>'
        yield text(a, b - 9, f'{instructions:,.0f}', 'middle')
        yield text(a, y + HEIGHT + 16, f'{size:,}', 'middle', GREY, 11)
    yield text(x - 8, y + HEIGHT + 4, '0', 'end', GREY, 11)
    yield text(x + WIDTH / 2, y + HEIGHT + 34, axis, 'middle', GREY, 11)


def main():
    found = rows('growth.txt')
    shown = [it for it in PANELS if it[0] in found]
    width = LEFT + 2 * WIDTH + APART + 40
    height = TOP + (len(shown) + 1) // 2 * (HEIGHT + BELOW)
    with open('growth.svg', 'w') as file:
        file.write(f'<svg xmlns="http://www.w3.org/2000/svg" width="{width}" height="{height}" '
                   f'viewBox="0 0 {width} {height}" font-family="sans-serif">\n'
                   f'<rect width="{width}" height="{height}" fill="white"/>\n'
                   + text(LEFT, 22, 'Instructions for one of each, by the size of what it is done in (logarithmic)', size=14) + '\n')
        for place, (what, title, axis) in enumerate(shown):
            x, y = LEFT + place % 2 * (WIDTH + APART), TOP + place // 2 * (HEIGHT + BELOW)
            file.write('\n'.join(panel(x, y, title, axis, found[what])) + '\n')
        file.write('</svg>\n')


main()
