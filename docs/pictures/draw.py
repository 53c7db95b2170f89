#!/usr/bin/env python3
"""Draws the pictures of docs/: `draft.svg`, a graph with a draft before and after its commit, and `commit.svg`, a commit's
writes and barriers with what each image reads as. Run it in its folder; it takes no words."""

from xml.sax.saxutils import escape

INK, GREY, OLD, NEW, EITHER = '#222', '#999', '#dbe7f3', '#dff0d8', '#fbeeca'


class Picture:
    def __init__(self, width, height):
        self.width, self.height, self.parts = width, height, []

    def text(self, x, y, words, size=13, anchor='start', colour=INK, weight='normal'):
        self.parts.append(f'<text x="{x}" y="{y}" font-size="{size}" text-anchor="{anchor}" fill="{colour}" '
                          f'font-weight="{weight}">{escape(words)}</text>')

    def box(self, x, y, width, height, fill='white', colour=INK, dash='', round=3):
        dashes = f' stroke-dasharray="{dash}"' if dash else ''
        self.parts.append(f'<rect x="{x}" y="{y}" width="{width}" height="{height}" rx="{round}" fill="{fill}" '
                          f'stroke="{colour}"{dashes}/>')

    def line(self, x1, y1, x2, y2, colour=INK, dash='', head=False, width=1):
        dashes = f' stroke-dasharray="{dash}"' if dash else ''
        end = ' marker-end="url(#head)"' if head else ''
        self.parts.append(f'<line x1="{x1}" y1="{y1}" x2="{x2}" y2="{y2}" stroke="{colour}" stroke-width="{width}"'
                          f'{dashes}{end}/>')

    def write(self, path):
        with open(path, 'w') as file:
            file.write(f'<svg xmlns="http://www.w3.org/2000/svg" width="{self.width}" height="{self.height}" '
                       f'viewBox="0 0 {self.width} {self.height}" font-family="sans-serif">\n'
                       '<defs><marker id="head" markerWidth="9" markerHeight="8" refX="8" refY="4" orient="auto">'
                       '<path d="M0,0 L9,4 L0,8 z" fill="#222"/></marker></defs>\n'
                       f'<rect width="{self.width}" height="{self.height}" fill="white"/>\n')
            file.write('\n'.join(self.parts) + '\n</svg>\n')


# ---- a graph with a draft

CELL, ROW = 26, 24
# where each object is drawn, and the words beside it
PLACES = {'root': (30, 60), 'a': (190, 60), 'f': (390, 20), 'g': (390, 80), 'n': (390, 190)}
# what was there when the draft was opened, and what its grant has changed: slot 1 emptied, slot 2 filled
SLOTS = {'root': ['a', None], 'a': ['f', 'g', None]}
DRAFT = ['f', None, 'n']


def slots(picture, name, held, x, y, dash=''):
    """Draws an index with its slots, and an arrow from each that is filled."""
    for place, target in enumerate(held):
        picture.box(x + CELL * place, y, CELL, ROW, dash=dash, round=0)
        if target:
            to = PLACES[target]
            picture.line(x + CELL * place + CELL / 2, y + ROW / 2, to[0] - 2, to[1] + ROW / 2, dash=dash, head=True)
    picture.text(x, y - 6, name)


def reached(held, roots):
    """What these lead to, over the slots of indices."""
    seen, todo = set(), list(roots)
    while todo:
        name = todo.pop()
        if name not in seen:
            seen.add(name)
            todo += [target for target in held.get(name, []) if target]
    return seen


def graph(picture, top, title, held, draft):
    lift = Picture(0, 0)
    rooted = reached(held, ['root'])
    kept = reached({**held, 'draft': draft or []}, ['root', 'draft'])
    for name in ('f', 'g', 'n'):
        x, y = PLACES[name]
        colour = INK if name in kept else GREY
        lift.box(x, y, 46, ROW, colour=colour, dash='' if name in rooted else '4 3')
        lift.text(x + 23, y + 16, name, anchor='middle', colour=colour)
        words = '' if name in rooted else 'kept by the draft alone' if name in kept else 'cut off: the next collection takes it'
        lift.text(x + 54, y + 16, words, size=11, colour=GREY)
    slots(lift, 'root index', held['root'], *PLACES['root'])
    slots(lift, 'index a', held['a'], *PLACES['a'])
    if draft:
        x, y = PLACES['a']
        slots(lift, 'draft of a, seen by its grant', draft, x, y + 110, dash='4 3')
    picture.text(20, top + 4, title, weight='bold')
    picture.parts.append(f'<g transform="translate(0,{top + 16})">' + '\n'.join(lift.parts) + '</g>')


def draw_draft():
    picture = Picture(680, 560)
    graph(picture, 20, 'Before the commit', SLOTS, DRAFT)
    graph(picture, 290, 'After it', {**SLOTS, 'a': DRAFT}, None)
    picture.write('draft.svg')


# ---- a commit

# what is done; the blocks whose entries or contents it changes; what every image then reads as
STEPS = [
    ('1', 'fresh leaves and nodes are written', {'leaves': 'claimed'}, 'old'),
    ('2', 'the shadow root S is written; what goes is marked', {'S': 'written', 'dropped': 'marked'}, 'old'),
    ('3', None, {}, 'old'),
    ('4', "one write sets the bit in R's entry", {'bit': 'set'}, 'either'),
    ('5', None, {}, 'new'),
    ('6', 'R is written with what S holds', {'R': 'written'}, 'new'),
    ('7', None, {}, 'new'),
    ('8', 'S and what goes become Free, the fresh Allocated', {'S': 'Free', 'dropped': 'Free', 'leaves': 'Allocated'}, 'new'),
    ('9', None, {}, 'new'),
    ('10', "R's entry loses the bit", {'bit': 'clear'}, 'new'),
    ('11', None, {}, 'new'),
]
COLUMNS = ['leaves', 'S', 'dropped', 'bit', 'R']
HEADS = {'leaves': 'fresh blocks', 'S': 'S', 'dropped': 'what goes', 'bit': "R's bit", 'R': 'R'}
READS = {'old': (OLD, 'old'), 'either': (EITHER, 'old or new'), 'new': (NEW, 'new')}


def draw_commit():
    step, left, wide = 30, 400, 88
    picture = Picture(left + wide * len(COLUMNS) + 130, 60 + step * len(STEPS) + 50)
    for place, column in enumerate(COLUMNS):
        picture.text(left + wide * place + wide / 2, 40, HEADS[column], anchor='middle', weight='bold', size=12)
    at = left + wide * len(COLUMNS) + 10
    picture.text(at + 50, 40, 'an image reads', anchor='middle', weight='bold', size=12)
    for row, (number, done, changes, reads) in enumerate(STEPS):
        y = 52 + step * row
        picture.text(30, y + 19, number, anchor='end')
        if done:
            picture.text(44, y + 19, done)
        else:
            picture.line(44, y + 15, left + wide * len(COLUMNS), y + 15, width=3)
            picture.box(44, y + 5, 62, 20, fill=INK)
            picture.text(75, y + 19, 'barrier', anchor='middle', colour='white', size=12)
        for column, state in changes.items():
            x = left + wide * COLUMNS.index(column)
            picture.box(x + 4, y + 4, wide - 8, step - 8)
            picture.text(x + wide / 2, y + 19, state, anchor='middle', size=12)
        fill, words = READS[reads]
        picture.box(at, y, 100, step, fill=fill, colour='white', round=0)
        picture.text(at + 50, y + 19, words, anchor='middle', size=12)
        if number == '5':
            picture.text(116, y + 9, 'the reply is sent', size=11, colour=GREY)
    picture.text(30, 52 + step * len(STEPS) + 28, 'R is the root block of the object, S its shadow root. Between two '
                 'barriers a crash keeps any of the writes.', size=12, colour=GREY)
    picture.write('commit.svg')


draw_draft()
draw_commit()
