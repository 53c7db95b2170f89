"""A slow reader of volumes, written from docs/FORMAT.md alone: what an image says, and what opening makes of it."""

import struct
from collections import Counter, defaultdict
from dataclasses import dataclass

BLOCK = 512
CYLINDER = 64
LARGEST = 7864320
NORMAL, SPECIAL, INDEX = 1, 2, 3
NOWHERE, ROOT, SHADOW, NODE, LEAF, SPAN = range(6)
RESERVED = (1, NOWHERE, 0, 0)
FREE = (0, NOWHERE, 0, 0)


def is_entry(first, place, number, owner):
    """Whether a map may have this entry: its first byte, its second, the two after it, and its owner. The second byte
    tells the place; that of a leaf has in its high half what of the leaf's number is past sixteen bits."""
    if place == NOWHERE:
        return first in (0, 1) and number == 0 and owner == 0
    if owner == 0:
        return False
    if place == ROOT:
        return first in (0x01, 0x02, 0x81, 0x82) and number == 0
    if place == SHADOW:
        return first in (1, 2) and number == 0
    return first in (1, 2, 3) and (
        place == NODE and number < 8192 or place % 16 == LEAF or place == SPAN and number < 64)


@dataclass
class Root:
    """A root block or shadow root."""
    kind: int
    fill: int
    word: int
    size: int
    nodes: tuple


def root_of(block):
    """The root that the block spells; None where it spells none."""
    kind, fill, none, word, size = struct.unpack_from('>BBHIQ', block)
    if kind not in (NORMAL, SPECIAL, INDEX) or none or any(block[16:32]) or size > LARGEST:
        return None
    if kind == INDEX and (fill or size % 8 or size < 8):
        return None
    return Root(kind, fill, word, size, struct.unpack_from('>120I', block, 32))


@dataclass
class Object:
    """A rooted object: its root, where it is read from, and the blocks of its nodes and leaves by their numbers."""
    root: Root
    source: int
    nodes: dict
    leaves: dict


class Volume:
    """What an image says. `refusal` is `not-volume` or `version V`, or None; `faults` has each pair of block and code
    that holds; where neither is there the image is sound, and `objects` has the rooted objects by their root blocks."""

    def __init__(self, data):
        self.data = data
        self.blocks = len(data) // BLOCK
        self.faults = set()
        self.objects = {}
        self.reached = set()
        self.refusal = self.label()
        if self.refusal is None:
            self.maps()
        if self.refusal is None and (1, 1) not in self.faults:
            self.walk()
            self.room()

    def is_sound(self):
        return self.refusal is None and not self.faults

    def block(self, at):
        return self.data[BLOCK * at:BLOCK * at + BLOCK]

    def label(self):
        """Reads the label. What refuses it as one, if anything does."""
        label = self.block(1)
        if self.blocks < 3 or label[:4] != b'CFS1':
            return 'not-volume'
        version, self.cylinders, two, self.word = struct.unpack_from('>IIII', label, 4)
        if version not in (1, 2):
            return 'version %d' % version
        if not 1 <= self.cylinders <= 65536 or two != 2 or any(label[20:]):
            return 'not-volume'
        return None

    def maps(self):
        """Reads the maps: all entries, Free for what is none, and what stands for each root block."""
        self.entries = []
        self.standing = defaultdict(list)
        if self.blocks != CYLINDER * self.cylinders:
            self.faults.add((1, 1))
            return
        for first in range(0, self.blocks, CYLINDER):
            for entry in struct.iter_unpack('>BBHI', self.block(first)):
                at = len(self.entries)
                good = is_entry(*entry)
                if not good or entry[1] == ROOT and entry[3] != at:
                    self.faults.add((first, 2))
                if (at == first or at == 1) and entry != RESERVED:
                    self.faults.add((at, 5))
                if entry[:2] == (2, SHADOW) and good:
                    self.standing[entry[3]].append(at)
                self.entries.append(entry if good else FREE)

    def has_entry(self, at, place, number, owner):
        """Whether the entry tells of this place, whatever its state."""
        return self.entries[at][1:] == (place, number, owner)

    def shown(self, at):
        """The block that the object with this root block is read from, and the root in it; None where it can't be
        read. What is wrong with its root and with each of its shadow roots."""
        root = root_of(self.block(at))
        if root is None:
            self.faults.add((at, 3))
        has_bit = self.entries[at][0] >= 0x80 and self.entries[at][1:] == (ROOT, 0, at)
        standing = self.standing[at] if has_bit else []
        good = {at: root}
        for shadow in standing:
            stands = root_of(self.block(shadow))
            if stands is None or root is not None and (stands.kind, stands.word) != (root.kind, root.word):
                self.faults.add((shadow, 3))
            else:
                good[shadow] = stands
        if len(standing) > 1:
            self.faults.add((at, 7))
        source = standing[0] if len(standing) == 1 else at
        return None if root is None or source not in good else (source, good[source])

    def walk(self):
        """Reads all that can be reached from block 2."""
        root = root_of(self.block(2))
        if root is not None and root.word != self.word:
            self.faults.add((1, 6))
        self.reached = {2}
        waiting = [2]
        while waiting:
            at = waiting.pop()
            if not self.has_entry(at, ROOT, 0, at):
                self.faults.add((at, 5))
            shown = self.shown(at)
            if shown is None:
                continue
            source, root = shown
            if at == 2 and (root.kind, root.size) != (INDEX, 512):
                self.faults.add((2, 6))
                continue
            self.objects[at] = self.tree(at, source, root)
            if root.kind == INDEX:
                for next in self.named(self.objects[at]):
                    if next not in self.reached:
                        self.reached.add(next)
                        waiting.append(next)

    def tree(self, at, source, root):
        """The object with this root, and what is wrong in its tree."""
        found = Object(root, source, {}, {})
        for n, node in enumerate(root.nodes):
            if node == 0 or not self.leads(source, node, NODE, n, at):
                continue
            found.nodes[n] = node
            pointers = struct.unpack('>128I', self.block(node))
            if not any(pointers):
                self.faults.add((node, 10))
            for l, leaf in enumerate(pointers, 128 * n):
                if leaf != 0 and self.leads(node, leaf, LEAF, l, at):
                    found.leaves[l] = leaf
                    self.tail(root, l, leaf)
        return found

    def leads(self, holder, to, place, number, owner):
        """Whether a pointer in `holder` can be followed; what is wrong with it, and with the entry of its block."""
        if to >= self.blocks:
            self.faults.add((holder, 4))
            return False
        if not self.has_entry(to, place, number, owner):
            self.faults.add((to, 5))
        return True

    def tail(self, root, number, leaf):
        """What is wrong in a held leaf from the object's size on."""
        within = max(root.size - BLOCK * number, 0)
        if within == 0:
            self.faults.add((leaf, 8))
        if self.block(leaf)[within:].strip(bytes([root.fill])):
            self.faults.add((leaf, 9))

    def named(self, index):
        """The root blocks that the slots of the index name; what is wrong with the others."""
        for slot, (block, word) in self.slots(index).items():
            if (block, word) == (0, 0):
                continue
            leaf = index.leaves[slot // 64]
            if not 0 < block < self.blocks:
                self.faults.add((leaf, 6))
                continue
            root = root_of(self.block(block))
            if root is not None and root.word != word:
                self.faults.add((leaf, 6))
            else:
                yield block

    def slots(self, index):
        """Block and word in each slot of the leaves that the index holds; two zeros where it is empty."""
        return {slot: pair for l, leaf in index.leaves.items()
                for slot, pair in enumerate(struct.iter_unpack('>II', self.block(leaf)), 64 * l)
                if slot < index.root.size // 8}

    def held(self):
        """The blocks of the rooted objects."""
        return self.reached | {block for found in self.objects.values()
                               for block in (*found.nodes.values(), *found.leaves.values())}

    def room(self):
        """Counts what the rooted objects leave."""
        fixed = {1, *range(0, self.blocks, CYLINDER)}
        self.free = self.blocks - len(fixed | self.held())
        if self.free < 4:
            self.faults.add((0, 11))

    def used(self):
        """How often rooted objects use each block."""
        used = Counter(self.reached)
        for found in self.objects.values():
            used.update(found.nodes.values())
            used.update(found.leaves.values())
        return used

    def unhealed(self):
        """The first fault that maps made anew don't heal: of the code of another thing than an entry, or of the entry of a
        block that is used twice, or of a map block or the label that is used. None where they heal all."""
        used = self.used()
        for block, code in sorted(self.faults):
            fixed = block % CYLINDER == 0 or block == 1
            if code not in (2, 5) or code == 5 and (used[block] > 1 or fixed and used[block]):
                return block, code
        return None

    def refused(self, fault=None):
        """The end of the report where the volume is refused, for this fault if it is one."""
        return f'volume {self.refusal or "damaged %d %d" % fault}\nstatus 3\n'

    def checked(self):
        """The report of a check."""
        listed = sorted(self.faults)
        if self.is_sound():
            return f'sound {len(self.objects)} {self.free}\nstatus 0\n'
        return ''.join(f'fault {block} {code}\n' for block, code in listed) + self.refused(*listed[:1])

    def mended(self):
        """The report of a mending, and what it makes of the image."""
        fault = self.unhealed()
        if self.refusal is not None or fault is not None:
            return self.refused(fault), self.data
        return 'status 0\n', self.recovered()

    def free_entries(self):
        """How many blocks the maps have as Free."""
        return self.entries.count((0, 0, 0, 0))

    def bytes_of(self, found, offset, count):
        """So many bytes of the file from there on."""
        leaves = range(offset // BLOCK, (offset + count - 1) // BLOCK + 1)
        absent = bytes([found.root.fill]) * BLOCK
        whole = b''.join(self.block(found.leaves[l]) if l in found.leaves else absent for l in leaves)
        return whole[offset % BLOCK:offset % BLOCK + count]

    def graph(self):
        """The rooted objects by their identifiers: kind, fill byte, size and the content of each held leaf."""
        return {at << 32 | found.root.word: (found.root.kind, found.root.fill, found.root.size,
                                             {l: self.block(leaf) for l, leaf in found.leaves.items()})
                for at, found in self.objects.items()}

    def recovered(self):
        """The image once it was opened: each root is what it is read from, and the maps have rooted objects alone."""
        data = bytearray(self.data)
        entries = [RESERVED if at % CYLINDER == 0 or at == 1 else (0, 0, 0, 0) for at in range(self.blocks)]
        for at, found in self.objects.items():
            data[BLOCK * at:BLOCK * at + BLOCK] = self.block(found.source)
            entries[at] = (1, ROOT, 0, at)
            for n, node in found.nodes.items():
                entries[node] = (1, NODE, n, at)
            for l, leaf in found.leaves.items():
                entries[leaf] = (1, LEAF, l, at)
        for at, entry in enumerate(entries):
            struct.pack_into('>BBHI', data, at // CYLINDER * CYLINDER * BLOCK + at % CYLINDER * 8, *entry)
        return bytes(data)
