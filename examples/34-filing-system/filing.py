#!/usr/bin/env python3
"""filing.py CFS VOLUME SEED: a filing system above the store. It does what the lines of standard input ask, each a verb of
VERBS with its words, and prints what they come to.

A directory is an index of 16 slots. Slot 0 holds a file with its names, a line each. The name on line n leads to what slot
n holds, a file or a directory. Slot 0 of the root index holds the directory `/`.

What is in the tree is never changed. A change makes new directories on the way to it, in a draft of the root index. They
share all else with the old ones. The draft is committed once all is made, and given up if a request is refused. So a change
is made as a whole or not at all, and what only the old tree led to is collected. A snapshot is one more slot of the root
index that holds `/` as it is. A path in snapshot 3 is one like `3/letters/mary`."""

import sys

from store import Refused, Store

SLOTS = 16


def names_in(path):
    return [name for name in path.split('/')[1:] if name]


def changes_at(path, change):
    """A change of what this path leads to, as one of `/`."""
    if not path.startswith('/') or not names_in(path):
        raise Refused(f'{path} stays')
    for name in reversed(names_in(path)):
        change = {name: change}
    return change


def both(changes, more):
    """Changes of a directory, and more of it."""
    if not isinstance(changes, dict) or not isinstance(more, dict):
        return more
    shared = {name: both(changes[name], more[name]) for name in changes.keys() & more.keys()}
    return {**changes, **more, **shared}


class Filing:
    def __init__(self, store):
        self.store = store
        if store.held('root', 0) is None:
            self.change({})

    # ---- what is there

    def entries(self, directory):
        """What each name in a directory leads to."""
        names = self.store.content(self.store.held(directory, 0)).decode().split('\n')[:-1]
        return {name: self.store.held(directory, slot) for slot, name in enumerate(names, 1)}

    def found(self, path):
        """What a path leads to."""
        at = self.store.held('root', path.split('/')[0] or 0)
        for name in names_in(path):
            at = self.entries(at).get(name)
            if at is None:
                raise Refused(f'there is no {path}')
        return at

    def read(self, path):
        yield self.store.content(self.found(path)).decode()

    def list(self, path):
        yield ' '.join(self.entries(self.found(path)))

    def walk(self, path):
        """Each path below this one, and the size of a file."""
        for name, to in self.entries(self.found(path)).items():
            below, size = f'{path.rstrip("/")}/{name}', self.store.size(to)
            yield f'{below}/' if size is None else f'{below} {size}'
            if size is None:
                yield from self.walk(below)

    # ---- changes

    def change(self, changes):
        """Makes all these changes of `/` or none. A name goes with the changes of the directory there, with the bytes of a new
        file, with the object that it is to lead to, or with nothing if it is to go."""
        self.store.ask('open draft root write')
        try:
            self.make_directory('draft', 0, self.store.held('draft', 0), changes)
        except Refused:
            self.store.ask('close draft abort')
            raise
        self.store.ask('close draft commit')

    def make_directory(self, index, slot, old, changes):
        """Makes a directory in this slot: the old one, if there is one, with these changes."""
        before = self.entries(old) if old else {}
        after = sorted((name, to) for name, to in {**before, **changes}.items() if to is not None)
        if len(after) >= SLOTS:
            raise Refused('the directory has no slot left')
        new = self.store.ask(f'create-index made {SLOTS} {index} {slot}')
        self.store.make_file(new, 0, ''.join(f'{name}\n' for name, _ in after).encode())
        for place, (name, to) in enumerate(after, 1):
            if isinstance(to, dict):
                self.make_directory(new, place, before.get(name), to)
            elif isinstance(to, bytes):
                self.store.make_file(new, place, to)
            else:
                self.store.ask(f'retain {new} {place} {to}')

    def mkdir(self, path):
        self.change(changes_at(path, {}))

    def write(self, path, *words):
        self.change(changes_at(path, ' '.join(words).encode()))

    def move(self, old, new):
        """The name goes from one directory and comes into another, in one step."""
        if f'{new}/'.startswith(f'{old}/'):
            raise Refused(f'{new} is in {old}')
        self.change(both(changes_at(old, None), changes_at(new, self.found(old))))

    def remove(self, path):
        self.found(path)
        self.change(changes_at(path, None))

    def snapshot(self):
        """Keeps `/` in the first empty slot of the root index."""
        slot = next(slot for slot in range(1, 64) if self.store.held('root', slot) is None)
        self.store.ask(f'retain root {slot} {self.found("/")}')
        yield f'snapshot {slot}'

    def drop(self, number):
        """Drops a snapshot."""
        self.store.ask(f'delete root {max(1, int(number))}')


VERBS = {verb: getattr(Filing, verb) for verb in 'mkdir write move remove snapshot drop read list walk'.split()}


def main():
    filing = Filing(Store(*sys.argv[1:]))
    for line in sys.stdin:
        print(f'> {line}', end='')
        verb, *words = line.split()
        try:
            for answer in VERBS[verb](filing, *words) or ():
                print(answer)
        except Refused as why:
            print(f'refused: {why}')
    print(filing.store.leave()[-1])


if __name__ == '__main__':
    main()
