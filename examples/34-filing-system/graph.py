#!/usr/bin/env python3
"""graph.py CFS VOLUME SEED: prints the graph of a volume for `dot`. Its nodes are the objects that the root index leads
to, numbered as a walk meets them, and its edges the slots that hold them."""

import sys

from store import Store


def graph(store, index='root', number=0, met=None):
    """The edges of an index, each before the object that it leads to, where no edge before has led there."""
    met = {} if met is None else met
    for slot in range(int(store.ask(f'slots {index}'))):
        to = store.held(index, slot)
        if to is None:
            continue
        is_new = to not in met
        below = met.setdefault(to, len(met) + 1)
        yield f'o{number} -> o{below} [label={slot}]'
        if is_new:
            size = store.size(to)
            yield f'o{below} [label="{"index" if size is None else f"{size} bytes"}"]'
            if size is None:
                yield from graph(store, to, below, met)


def main():
    store = Store(*sys.argv[1:])
    print('digraph volume {')
    for line in ('node [shape=box]', 'o0 [label="root index"]', *graph(store)):
        print(f'    {line}')
    print('}')
    store.leave()


if __name__ == '__main__':
    main()
