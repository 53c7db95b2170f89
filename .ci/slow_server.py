"""A slow server, written from docs/MODEL.md and docs/PROGRAM.md alone: what request lines a script has, and the right
reply to each on a new volume beside no collection. One session asks at a time, session `who`."""

import re
from copy import deepcopy
from dataclasses import dataclass, field

LEAF, NODE, LARGEST, MOST_SLOTS, MOST_BYTES, MOST_GRANTS = 512, 128, 7864320, 983040, 4096, 64
HEX16 = '[0-9a-fA-F]{16}'
WORDS = {
    'NAME': rf'(?!root$|{HEX16}$)[a-z][a-z0-9-]{{0,31}}',
    'REF': rf'[a-z][a-z0-9-]{{0,31}}|{HEX16}',
    'NUMBER': '[0-9]{1,20}',
    'FILL': '[0-9a-fA-F]{2}',
    'HEX': '(?:[0-9a-fA-F]{2})+',
    'KIND': 'normal|special',
    'MODE': 'read|write',
    'END': 'commit|abort',
}
WORDS |= {'ID': WORDS['REF'], 'GRANT': WORDS['NAME']}
FORMS = {
    'create-file': ('NAME', 'KIND', 'FILL', 'REF', 'NUMBER'),
    'create-index': ('NAME', 'NUMBER', 'REF', 'NUMBER'),
    'retain': ('REF', 'NUMBER', 'ID'),
    'retrieve': ('NAME', 'REF', 'NUMBER'),
    'delete': ('REF', 'NUMBER'),
    'slots': ('REF',),
    'open': ('NAME', 'ID', 'MODE'),
    'close': ('GRANT', 'END'),
    'read': ('REF', 'NUMBER', 'NUMBER'),
    'write': ('REF', 'NUMBER', 'HEX'),
    'size': ('REF',),
    'resize': ('REF', 'NUMBER'),
}
OF_INDEX = ('create-file', 'create-index', 'retain', 'retrieve', 'delete', 'slots')
OF_FILE = ('read', 'write', 'size', 'resize')
CHANGING = ('create-file', 'create-index', 'retain', 'delete', 'write', 'resize')


def request_lines(script):
    """The request lines of a script."""
    lines = script.split(b'\n')
    if lines[-1] == b'':
        lines.pop()
    lines = [line.removesuffix(b'\r') for line in lines]
    return [line for line in lines if line.strip(b' \t') and not line.startswith(b'#')]


def words_of(line):
    """The words of a line that has a form: the verb, and a word for each part of its form. None for another."""
    if len(line) > 16384 or any(byte not in b' \t' and not 0x21 <= byte <= 0x7e for byte in line):
        return None
    words = [word for word in line.decode().replace('\t', ' ').split(' ') if word]
    form = FORMS.get(words[0])
    if form is None or len(words) != len(form) + 1:
        return None
    fits = all(re.fullmatch(WORDS[part], word) and (part != 'NUMBER' or int(word) < 2 ** 64)
               for part, word in zip(form, words[1:]))
    return words if fits else None


@dataclass
class Object:
    """An index has slots, a file has content; `held` are the leaves that it holds."""
    kind: str
    fill: int = 0
    count: int = 0
    slots: dict = field(default_factory=dict)
    content: bytearray = field(default_factory=bytearray)
    held: set = field(default_factory=set)

    def blocks(self):
        return 1 + len(self.held) + len(nodes_of(self.held))

    def leaf(self, leaf):
        """The 512 bytes of this leaf."""
        if self.kind == 'index':
            return b''.join(self.slots.get(slot, 0).to_bytes(8, 'big') for slot in range(64 * leaf, 64 * leaf + 64))
        return bytes(self.content[LEAF * leaf:LEAF * leaf + LEAF]).ljust(LEAF, bytes([self.fill]))


@dataclass
class Grant:
    """A grant of a session; a draft has an object and leaves and nodes of its own."""
    id: int
    mode: str
    who: int = 0
    draft: Object = None
    leaves: set = field(default_factory=set)
    nodes: set = field(default_factory=set)

    def blocks(self):
        return 0 if self.draft is None else 1 + len(self.leaves) + len(self.nodes)


def nodes_of(leaves):
    return {leaf // NODE for leaf in leaves}


class Server:
    def __init__(self, cylinders, root):
        self.cylinders = cylinders
        self.root = root
        self.objects = {root: Object('index', count=64)}
        self.grants = {}
        self.bound = {}
        self.who = 0

    def free(self):
        """The blocks that no object and no draft has, beside maps and label."""
        taken = sum(found.blocks() for found in (*self.objects.values(), *self.grants.values()))
        return 63 * self.cylinders - 1 - taken

    def own_grants(self):
        """The grants of the session."""
        return {number: grant for number, grant in self.grants.items() if grant.who == self.who}

    def leave(self):
        """The session leaves."""
        for number in self.own_grants():
            del self.grants[number]

    def free_left(self):
        """The blocks that are Free once the session has left."""
        self.leave()
        return self.free()

    def rooted(self):
        """What is reached from the root index, by identifiers: the number of the kind, fill byte, size, and the content
        of each held leaf."""
        found, waiting = {}, [self.root]
        while waiting:
            id = waiting.pop()
            if id in found:
                continue
            was = self.objects[id]
            waiting += was.slots.values()
            size = 8 * was.count if was.kind == 'index' else len(was.content)
            leaves = {leaf: was.leaf(leaf) for leaf in was.held}
            found[id] = 1 + ('normal', 'special', 'index').index(was.kind), was.fill, size, leaves
        return found

    def right(self, line, reply):
        """The right reply to this line, and its effect. What is free is taken from `reply`: want of memory, and the
        number of what is made."""
        words = words_of(line)
        if reply == 'no memory':
            return reply
        if words is None:
            return 'no syntax'
        self.verb, self.parts = words[0], dict(zip(FORMS[words[0]], words[1:]))
        self.numbers = [int(word) for part, word in zip(FORMS[words[0]], words[1:]) if part == 'NUMBER']
        return self.refusal() or self.done(reply)

    def stands_for(self, part):
        """What the word of this part stands for: `id` or `grant`, and the number."""
        word = self.parts[part]
        if word == 'root':
            return 'id', self.root
        return ('id', int(word, 16)) if re.fullmatch(HEX16, word) else self.bound.get(word, (None, None))

    def refusal(self):
        """The first refusal whose condition holds; None where none does."""
        wanted = {'REF': ('id', 'grant'), 'ID': ('id',), 'GRANT': ('grant',)}
        named = {part: self.stands_for(part) for part in self.parts if part in wanted}
        if any(sort not in wanted[part] for part, (sort, _) in named.items()):
            return 'no name'
        if any(sort == 'grant' and number not in self.own_grants() for sort, number in named.values()):
            return 'no grant'
        if any(sort == 'id' and number not in self.objects for sort, number in named.values()):
            return 'no object'
        self.grant = next((self.grants[number] for sort, number in named.values() if sort == 'grant'), None)
        first = named.get('REF', named.get('ID', (None, None)))
        self.id = self.grant.id if first[0] in ('grant', None) else first[1]
        self.target = self.grant.draft if self.grant and self.grant.draft else self.objects[self.id]
        self.named = named.get('ID', (None, None))[1]
        if self.verb == 'close':
            return None
        return self.refused_kind() or self.refused_lock() or self.refused_range() or self.refused_room()

    def refused_kind(self):
        is_index = self.target.kind == 'index'
        if self.verb in OF_INDEX and not is_index:
            return 'no not-index'
        return 'no not-file' if is_index and self.verb in OF_FILE else None

    def refused_lock(self):
        if self.grant:
            return 'no read-only' if self.verb in CHANGING and self.grant.mode == 'read' else None
        modes = [grant.mode for grant in self.grants.values() if grant.id == self.id]
        is_change = self.verb in CHANGING or self.parts.get('MODE') == 'write'
        return 'no locked' if (modes if is_change else 'write' in modes) else None

    def refused_range(self):
        numbers = self.numbers
        if self.verb in OF_INDEX and self.verb != 'slots':
            if numbers[-1] >= self.target.count:
                return 'no slot'
            if self.verb in ('retrieve', 'delete') and numbers[-1] not in self.target.slots:
                return 'no empty'
        if self.verb == 'create-index' and not 1 <= numbers[0] <= MOST_SLOTS:
            return 'no range'
        if self.verb in ('read', 'write'):
            count = numbers[1] if self.verb == 'read' else len(self.parts['HEX']) // 2
            if not 1 <= count <= MOST_BYTES or numbers[0] + count > len(self.target.content):
                return 'no range'
        return 'no range' if self.verb == 'resize' and numbers[0] > LARGEST else None

    def refused_room(self):
        if self.verb == 'open' and len(self.own_grants()) == MOST_GRANTS:
            return 'no grants'
        need = self.need()
        return f'no full {self.free()} {need}' if need > 0 and self.free() < need + 4 else None

    def need(self):
        """How many blocks the request takes."""
        if self.verb in ('create-file', 'create-index'):
            return 1 + (self.slot_need() if self.grant else 3)
        if self.verb in ('retain', 'delete') and self.grant:
            return self.slot_need()
        if self.verb == 'retain':
            return 3
        if self.verb == 'open':
            return int(self.is_drafted())
        if self.verb not in ('write', 'resize'):
            return 0
        if self.verb == 'resize' and self.target.kind == 'normal':
            return 0
        leaves, nodes = self.written()
        if self.target.kind == 'normal':
            return len(leaves - self.target.held) + len(nodes - nodes_of(self.target.held))
        if self.grant:
            return len(leaves - self.grant.leaves) + len(nodes - self.grant.nodes)
        return len(leaves) + len(nodes) + 1

    def is_drafted(self):
        """Whether what is opened gets a draft."""
        return self.parts['MODE'] == 'write' and self.target.kind != 'normal'

    def slot_need(self):
        """What a slot takes in a draft: its leaf, and that leaf's node, where they aren't the draft's own."""
        leaf = self.numbers[-1] // 64
        return 0 if leaf in self.grant.leaves else 1 + (leaf // NODE not in self.grant.nodes)

    def written(self):
        """The leaves and nodes that a write or resize writes anew, where the leaves aren't a draft's own."""
        at = self.numbers[0]
        if self.verb == 'write':
            leaves = set(range(at // LEAF, (at + len(self.parts['HEX']) // 2 - 1) // LEAF + 1))
            return leaves, nodes_of(leaves)
        if at >= len(self.target.content):
            return set(), set()
        own = self.grant.leaves if self.grant else set()
        kept = {leaf for leaf in self.target.held if leaf < -(-at // LEAF)}
        cut = {at // LEAF} & kept if at % LEAF else set()
        dropped = self.target.held - kept
        last = {(-(-at // LEAF) - 1) // NODE}
        changed = nodes_of(cut - own) | nodes_of(dropped)
        return cut, last & changed & nodes_of(kept)

    def done(self, reply):
        """The effect of a request that is done, and its reply."""
        if 'NAME' in self.parts and self.verb != 'retrieve':
            return self.made(reply)
        target, numbers = self.target, self.numbers
        if self.verb == 'retrieve':
            self.bound[self.parts['NAME']] = 'id', target.slots[numbers[0]]
            return f'ok {target.slots[numbers[0]]:016x}'
        if self.verb == 'retain':
            self.put(numbers[0], self.named)
        elif self.verb == 'delete':
            self.put(numbers[0], None)
        elif self.verb == 'close':
            self.close()
        elif self.verb == 'write':
            self.write()
        elif self.verb == 'resize':
            self.resize()
        if self.verb == 'read':
            return 'ok ' + target.content[numbers[0]:numbers[0] + numbers[1]].hex()
        answer = {'slots': target.count, 'size': len(target.content)}.get(self.verb)
        return 'ok' if answer is None else f'ok {answer}'

    def made(self, reply):
        """Makes an object or a grant, with the number that the reply gives where it may be one."""
        if not re.fullmatch('ok [0-9a-f]{16}', reply):
            return 'ok and a number'
        number = int(reply[3:], 16)
        if self.verb == 'open':
            draft = deepcopy(self.target) if self.is_drafted() else None
            self.grants[number] = Grant(self.id, self.parts['MODE'], self.who, draft)
        else:
            block = number >> 32
            if not 2 < block < 64 * self.cylinders or any(id >> 32 == block for id in self.objects):
                return 'ok and another block'
            if self.verb == 'create-index':
                self.objects[number] = Object('index', count=self.numbers[0])
            else:
                self.objects[number] = Object(self.parts['KIND'], int(self.parts['FILL'], 16))
            self.put(self.numbers[-1], number)
        self.bound[self.parts['NAME']] = 'grant' if self.verb == 'open' else 'id', number
        return reply

    def put(self, slot, id):
        """Makes a slot hold this, or nothing."""
        leaf = slot // 64
        if id is None:
            del self.target.slots[slot]
        else:
            self.target.slots[slot] = id
        self.target.held.add(leaf)
        if self.grant:
            self.grant.leaves.add(leaf)
            self.grant.nodes.add(leaf // NODE)

    def write(self):
        leaves, nodes = self.written()
        bytes_ = bytes.fromhex(self.parts['HEX'])
        self.target.content[self.numbers[0]:self.numbers[0] + len(bytes_)] = bytes_
        self.target.held |= leaves
        if self.grant:
            self.grant.leaves |= leaves
            self.grant.nodes |= nodes

    def resize(self):
        size, file = self.numbers[0], self.target
        leaves, nodes = self.written()
        file.held = {leaf for leaf in file.held if leaf < -(-size // LEAF)}
        file.content[size:] = bytes([file.fill]) * max(size - len(file.content), 0)
        if self.grant:
            self.grant.leaves = (self.grant.leaves | leaves) & file.held
            self.grant.nodes = (self.grant.nodes | nodes) & nodes_of(file.held)

    def close(self):
        number = self.stands_for('GRANT')[1]
        if self.grant.draft and self.parts['END'] == 'commit':
            self.objects[self.grant.id] = self.grant.draft
        del self.grants[number]
