"""Damages to an image of a volume: those of a table, and some by a die. Each of these takes a source of draws, the
image, and what it read as before."""

import struct

from slow_volume import BLOCK, CYLINDER, LARGEST, LEAF, NODE, NOWHERE, ROOT, SHADOW


# The volume of the stored run, whose index in slot 0 of the root index has block 3: what is changed, from which place
# on, and the block and the code of docs/FORMAT.md with which it is refused.
INDEX_ROOT = '03000000903df1a00000000000000020'
NODE_OF_INDEX = '0103000000000003'
NAMED = [
    ('the label names two cylinders', {BLOCK + 8: '00000002'}, 1, 1),
    ('entry 63 has a state that there is not', {8 * 63: '04'}, 0, 2),
    ('the entry of a root has another block as its owner', {8 * 9: '0101000000000008'}, 0, 2),
    ('the root block in a slot has a kind that there is not', {3 * BLOCK: '00'}, 3, 3),
    ('a leaf pointer leads past the end', {5 * BLOCK: '00000040'}, 5, 4),
    ('the entry of a leaf is Free', {8 * 4: '00' * 8}, 4, 5),
    ('the identifier in a slot has another word', {4 * BLOCK + 7: 'a1'}, 4, 6),
    ('two shadow roots stand', {8 * 3: '8101000000000003', 8 * 6: '0202000000000003' * 2, 6 * BLOCK: INDEX_ROOT,
                                7 * BLOCK: INDEX_ROOT}, 3, 7),
    ('a leaf past the size', {5 * BLOCK + 4: '00000006', 8 * 6: '0104000100000002'}, 6, 8),
    ('a byte past the size', {3 * BLOCK + 32: '00000006', 8 * 6: NODE_OF_INDEX, 6 * BLOCK: '00000007',
                              8 * 7: '0104000000000003', 7 * BLOCK + 511: '01'}, 7, 9),
    ('a node that leads to no leaf', {3 * BLOCK + 32: '00000006', 8 * 6: NODE_OF_INDEX}, 6, 10),
    ('three blocks are left', {3 * BLOCK + 8: '0000000000006c00', 3 * BLOCK + 32: '00000006',
                               8 * 6: NODE_OF_INDEX + ''.join(f'0104{leaf:04x}00000003' for leaf in range(54)),
                               6 * BLOCK: ''.join(f'{7 + leaf:08x}' for leaf in range(54))}, 0, 11),
]


def changed(image, changes):
    """The image with these bytes at these places."""
    new = bytearray(image)
    for at, digits in changes.items():
        new[at:at + len(digits) // 2] = bytes.fromhex(digits)
    return bytes(new)


def entry_at(block):
    """Where the map has the entry of this block."""
    return block // CYLINDER * CYLINDER * BLOCK + block % CYLINDER * 8


def any_block(draw, was):
    """A block: any, or one with something in it."""
    return draw.choice(was.busy) if draw.random() < 0.7 else draw.randrange(was.blocks)


def any_pointer(draw, was):
    """A pointer: none, one within the volume, or one past its end."""
    block = any_block(draw, was)
    return draw.choice((0, block, block, was.blocks - 1, was.blocks, draw.getrandbits(32)))


def any_free(draw, was):
    """A block that no rooted object has."""
    return draw.choice(was.unheld)


def bits_flipped(draw, image, was):
    for _ in range(draw.choice((1, 1, 1, 2, 4, 8))):
        within = draw.choice((8, 64, BLOCK, BLOCK))
        image[BLOCK * any_block(draw, was) + draw.randrange(within)] ^= 1 << draw.randrange(8)


def bytes_drawn(draw, image, was):
    at = BLOCK * any_block(draw, was) + draw.randrange(BLOCK)
    count = min(draw.choice((1, 2, 8, BLOCK)), len(image) - at)
    image[at:at + count] = draw.randbytes(count)


def blocks_swapped(draw, image, was):
    one, two = BLOCK * any_block(draw, was), BLOCK * any_block(draw, was)
    image[one:one + BLOCK], image[two:two + BLOCK] = image[two:two + BLOCK], image[one:one + BLOCK]


def block_of_another(draw, image, was):
    other = draw.choice(was.others)
    to = any_block(draw, was)
    of = to if draw.random() < 0.5 and to < other.blocks else any_block(draw, other)
    image[BLOCK * to:BLOCK * to + BLOCK] = other.block(of)


def block_zeroed(draw, image, was):
    at = BLOCK * draw.choice(was.busy)
    image[at:at + BLOCK] = bytes(BLOCK)


def entry_changed(draw, image, was):
    block = any_block(draw, was)
    first, place, number, owner = struct.unpack_from('>BBHI', image, entry_at(block))
    owners = (owner, block, 0, draw.choice(list(was.objects)), draw.getrandbits(32))
    changed = draw.choice((
        (first ^ draw.choice((1, 2, 3, 0x80)), place, number, owner),
        (first, place, number, draw.choice(owners)),
        (draw.choice((1, 2, 3)), draw.choice((NODE, LEAF)), number % 15360 + draw.choice((0, 1, 119)), owner),
        (draw.choice((1, 2, 3, 0x81, 0x82)), draw.choice((NOWHERE, ROOT, SHADOW)), 0, draw.choice(owners)),
        (0, 0, 0, 0)))
    struct.pack_into('>BBHI', image, entry_at(block), *changed)


def root_changed(draw, image, was):
    found = was.objects[draw.choice(list(was.objects))]
    at = BLOCK * found.source
    field = draw.randrange(5)
    if field == 0:
        image[at] = draw.randrange(5)
    elif field == 1:
        image[at + 1] ^= draw.choice((1, 0xff))
    elif field == 2:
        size = found.root.size + draw.choice((-513, -512, -8, -1, 1, 8, 512, 70000))
        struct.pack_into('>Q', image, at + 8, draw.choice((max(size, 0), max(size, 0), 8, LARGEST, LARGEST + 8)))
    elif field == 3:
        image[at + 4 + draw.randrange(4)] ^= 1 << draw.randrange(8)
    else:
        struct.pack_into('>I', image, at + 32 + 4 * draw.choice((0, 0, 1, 119)), any_pointer(draw, was))


def node_changed(draw, image, was):
    found = draw.choice([o for o in was.objects.values() if o.leaves])
    leaf = draw.choice(list(found.leaves))
    at = BLOCK * found.nodes[leaf // 128] + 4 * (draw.choice((leaf, leaf, leaf + 1)) % 128)
    struct.pack_into('>I', image, at, any_pointer(draw, was))


def slot_changed(draw, image, was):
    index = was.objects[draw.choice([at for at, o in was.objects.items() if o.leaves and o.root.kind == 3])]
    at = BLOCK * draw.choice(list(index.leaves.values())) + 8 * draw.choice((0, 1, 6, draw.randrange(64)))
    block = draw.choice(list(was.objects))
    word = was.objects[block].root.word
    slot = draw.choice(((0, 0), (block, word), (block, word), (block, word ^ 1), (0, word), (was.blocks, word),
                        (any_block(draw, was), word), (block, 0)))
    struct.pack_into('>II', image, at, *slot)


def leaf_added(draw, image, was):
    """An object gets a leaf more, with an entry that fits; its content may not."""
    at = draw.choice([at for at, o in was.objects.items() if o.leaves])
    found = was.objects[at]
    n = draw.choice(list(found.nodes))
    leaf = next(l for l in range(128 * n, 128 * n + 128) if l not in found.leaves)
    block = any_free(draw, was)
    struct.pack_into('>I', image, BLOCK * found.nodes[n] + 4 * (leaf % 128), block)
    struct.pack_into('>BBHI', image, entry_at(block), draw.choice((1, 2, 3)), LEAF, leaf, at)
    image[BLOCK * block:BLOCK * block + BLOCK] = bytes([found.root.fill]) * BLOCK
    if draw.random() < 0.3:
        image[BLOCK * block + draw.randrange(BLOCK)] ^= 1


def node_added(draw, image, was):
    """An object gets a node more without a leaf, with an entry that fits."""
    at = draw.choice(list(was.objects))
    found = was.objects[at]
    n = next(n for n in range(120) if n not in found.nodes)
    block = any_free(draw, was)
    struct.pack_into('>I', image, BLOCK * found.source + 32 + 4 * n, block)
    struct.pack_into('>BBHI', image, entry_at(block), 1, NODE, n, at)
    image[BLOCK * block:BLOCK * block + BLOCK] = bytes(BLOCK)


def shadow_added(draw, image, was):
    """A copy of an object's root, or another root, is made its shadow root; mostly its commit bit stands."""
    at = draw.choice(list(was.objects))
    other = at if draw.random() < 0.7 else draw.choice(list(was.objects))
    for _ in range(draw.choice((1, 1, 1, 2))):
        block = any_free(draw, was)
        image[BLOCK * block:BLOCK * block + BLOCK] = was.block(was.objects[other].source)
        struct.pack_into('>BBHI', image, entry_at(block), draw.choice((2, 2, 2, 1)), SHADOW, 0, at)
        change = draw.randrange(4)
        if change == 0:
            image[BLOCK * block + 1] ^= 1
        elif change == 1:
            struct.pack_into('>Q', image, BLOCK * block + 8, 8 * draw.randrange(2000))
        elif change == 2:
            struct.pack_into('>I', image, BLOCK * block + 32, draw.choice((0, any_pointer(draw, was))))
    if draw.random() < 0.8:
        image[entry_at(at)] |= 0x80


def label_changed(draw, image, was):
    at, value = draw.choice(((0, draw.getrandbits(32)), (4, draw.choice((0, 2, 256))), (12, 3), (16, was.word ^ 1),
                             (8, draw.choice((0, 1, 2, was.cylinders + 1, 65536, 65537)))))
    struct.pack_into('>I', image, BLOCK + at, value)


def cut_short(draw, image, was):
    del image[draw.choice((len(image) - BLOCK, len(image) - CYLINDER * BLOCK, BLOCK * draw.randrange(was.blocks),
                           draw.randrange(len(image)))):]


def made_longer(draw, image, was):
    image += bytes(draw.choice((BLOCK, CYLINDER * BLOCK, 1 + draw.randrange(BLOCK), CYLINDER * BLOCK * 2)))


# How often each is drawn.
DAMAGES = {bits_flipped: 8, bytes_drawn: 4, blocks_swapped: 4, block_of_another: 4, block_zeroed: 2, entry_changed: 4,
           root_changed: 4, node_changed: 3, slot_changed: 3, leaf_added: 3, node_added: 1, shadow_added: 4,
           label_changed: 1}
LENGTHS = (cut_short, made_longer)


def damaged(draw, was):
    """An image damaged in one to three ways, and their names."""
    image = bytearray(was.data)
    ways = draw.choices(list(DAMAGES), list(DAMAGES.values()), k=draw.choice((1, 1, 1, 2, 3)))
    if draw.random() < 0.06:
        ways = ways[1:] + [draw.choice(LENGTHS)]
    for way in ways:
        way(draw, image, was)
    return bytes(image), ' '.join(way.__name__ for way in ways)
