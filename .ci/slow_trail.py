"""A slow judge of printed trails, written from docs/MODEL.md and docs/PROGRAM.md alone: whether a text is a trail, and
whether its events may happen one after the other on a new volume."""

import re
import struct
import sys

from slow_server import FORMS, Object, Server

U64, U32, U8 = 2 ** 64, 2 ** 32, 2 ** 8
DECIMAL = '0|[1-9][0-9]{0,19}'
DIGITS = '[0-9a-f]{16}'
# How each part of a request is printed. A name isn't.
PARTS = {
    'REF': f'g?{DIGITS}',
    'ID': DIGITS,
    'GRANT': f'g{DIGITS}',
    'NUMBER': DECIMAL,
    'FILL': '[0-9a-f]{2}',
    'HEX': '(?:[0-9a-f]{2})+',
    'KIND': 'normal|special',
    'MODE': 'read|write',
    'END': 'commit|abort',
}
# What is refused by name alone, and what may follow `no` with numbers below these.
BARE = {'memory', 'grant', 'object', 'not-index', 'not-file', 'read-only', 'locked', 'slot', 'empty', 'range', 'grants',
        'disk'}
NUMBERED = {'stopped': (U64,), 'full': (U32, U32), 'disk': (U64,), 'damaged': (U32, U8, U64)}


class BadLine(Exception):
    """A line that a trail doesn't have there."""


class Illegal(Exception):
    """An event that may not happen."""


def words_from(seed, number=0):
    """The words of a seed, one after the other: a ChaCha20 stream of which the key has the seed first, then a number."""
    key = struct.pack('<QB', seed, number) + bytes(23)
    counter = 0
    while True:
        start = [0x61707865, 0x3320646e, 0x79622d32, 0x6b206574, *struct.unpack('<8L', key)]
        start += [counter % U32, counter // U32, 0, 0]
        state = list(start)
        for _ in range(10):
            for a, b, c, d in ((0, 4, 8, 12), (1, 5, 9, 13), (2, 6, 10, 14), (3, 7, 11, 15),
                               (0, 5, 10, 15), (1, 6, 11, 12), (2, 7, 8, 13), (3, 4, 9, 14)):
                for p, q, r, turn in ((a, b, d, 16), (c, d, b, 12), (a, b, d, 8), (c, d, b, 7)):
                    state[p] = (state[p] + state[q]) % U32
                    state[r] = turned(state[r] ^ state[p], turn)
        yield from ((now + was) % U32 for now, was in zip(state, start))
        counter += 1


def turned(word, turn):
    return (word << turn | word >> 32 - turn) % U32


def number(word, limit):
    """The number that a word spells, below the limit."""
    if not re.fullmatch(DECIMAL, word) or int(word) >= limit:
        raise BadLine
    return int(word)


def request_of(words):
    """The verb and the parts of a request."""
    form = FORMS.get(words[0] if words else '')
    if form is None:
        raise BadLine
    parts = [part for part in form if part != 'NAME']
    if len(words) != len(parts) + 1 or not all(re.fullmatch(PARTS[part], word) for part, word in zip(parts, words[1:])):
        raise BadLine
    for part, word in zip(parts, words[1:]):
        if part == 'NUMBER':
            number(word, U64)
    return words[0], parts, words[1:]


def check_reply(verb, words):
    """A reply has the form of its request, or is a refusal."""
    if words[:1] == ['ok']:
        if verb in ('create-file', 'create-index', 'retrieve', 'open'):
            good = len(words) == 2 and re.fullmatch(DIGITS, words[1])
        elif verb == 'read':
            good = len(words) == 2 and re.fullmatch(PARTS['HEX'], words[1])
        elif verb in ('slots', 'size'):
            good = len(words) == 2 and number(words[1], U64) >= 0
        else:
            good = len(words) == 1
    else:
        good = len(words) >= 2 and words[0] == 'no' and (
            len(words) == 2 and words[1] in BARE
            or [number(word, limit) for word, limit in zip(words[2:], NUMBERED.get(words[1], ()))]
            and len(words) == 2 + len(NUMBERED[words[1]]))
    if not good:
        raise BadLine


class Trail:
    """A run that is followed event by event."""

    def __init__(self, seed):
        self.words = words_from(seed)
        root = 2 * U32 + next(self.words)
        self.word, self.drawn = next(self.words), 0
        self.server = Server(0, root)
        self.server.stands_for = self.stands_for
        self.stopped = None
        # none, or marking with all that was ever put in or opened, or sweeping
        self.phase, self.edges, self.starts = None, set(), set()

    def stands_for(self, part):
        word = self.server.parts[part]
        return ('grant', int(word[1:], 16)) if word[0] == 'g' else ('id', int(word, 16))

    def draw(self):
        self.word, self.drawn = next(self.words), self.drawn + 1

    def follow(self, line):
        """Makes the event of a line."""
        words = line.split(' ')
        event = {'ask': self.ask, 'unread': self.unread, 'leave': self.leave, 'began': self.began,
                 'vanish': self.vanish, 'finished': self.finished, 'halted': self.halted}.get(words[0])
        if event is None:
            raise BadLine
        event(words[1:])

    def running(self, holds=True):
        """The event may come only where the run isn't stopped, and this holds."""
        if self.stopped is not None or not holds:
            raise Illegal

    def unread(self, words):
        if len(words) != 2 or words[1] not in ('syntax', 'name', 'memory'):
            raise BadLine
        number(words[0], U32)

    def leave(self, words):
        if len(words) not in (1, 2):
            raise BadLine
        who, moments = number(words[0], U32), [number(word, U64) for word in words[1:]]
        for moment in moments:
            self.running()
            self.stopped = moment
        self.server.who = who
        self.server.leave()

    def began(self, words):
        if words:
            raise BadLine
        self.running(self.phase is None)
        self.phase = 'marking'
        self.edges = self.references()
        self.starts = self.open_or_root()

    def finished(self, words):
        if words:
            raise BadLine
        self.running(self.phase == 'sweeping')
        self.phase = None

    def halted(self, words):
        if len(words) != 1:
            raise BadLine
        moment = number(words[0], U64)
        self.running()
        self.stopped = moment

    def references(self):
        """Each index with each object to which it refers, by its slots or by a draft's."""
        drafts = [(grant.id, grant.draft) for grant in self.server.grants.values() if grant.draft]
        return {(id, x) for id, found in [*self.server.objects.items(), *drafts] for x in found.slots.values()}

    def open_or_root(self):
        return {self.server.root} | {grant.id for grant in self.server.grants.values()}

    def reached(self, starts, edges):
        found, waiting = set(), list(starts)
        heads = {}
        for id, x in edges:
            heads.setdefault(id, []).append(x)
        while waiting:
            id = waiting.pop()
            if id not in found:
                found.add(id)
                waiting += heads.get(id, ())
        return found

    def vanish(self, words):
        if not words:
            raise BadLine
        count = number(words[0], U64)
        if len(words) != count + 1 or not all(re.fullmatch(DIGITS, word) for word in words[1:]):
            raise BadLine
        ids = [int(word, 16) for word in words[1:]]
        if any(a >= b for a, b in zip(ids, ids[1:])):
            raise BadLine
        objects, gone = self.server.objects, set(ids)
        references = self.references()
        kept = self.reached(self.open_or_root(), references)
        cut_off = set(objects) - self.reached(self.starts, self.edges)
        self.running(self.phase == 'marking' and gone <= set(objects) and not gone & kept
                     and not any(x in gone and id not in gone for id, x in references) and cut_off <= gone)
        self.phase = 'sweeping'
        for id in ids:
            del objects[id]

    def ask(self, words):
        if '=' not in words[1:]:
            raise BadLine
        cut = words.index('=')
        who = number(words[0], U32)
        verb, parts, given = request_of(words[1:cut])
        check_reply(verb, words[cut + 1:])
        self.answered(who, verb, parts, given, words[cut + 1:])

    def answered(self, who, verb, parts, given, reply):
        """The request got this reply."""
        if reply == ['no', 'memory']:
            return
        if reply[:2] == ['no', 'stopped']:
            if self.stopped != int(reply[2]):
                raise Illegal
            return
        self.running()
        if reply[:2] in (['no', 'disk'], ['no', 'damaged']):
            self.stopped = int(reply[-1]) if len(reply) > 2 else None
            return
        server = self.server
        server.who, server.verb, server.parts = who, verb, dict(zip(parts, given))
        if verb == 'retrieve':
            server.parts['NAME'] = ''
        server.numbers = [int(word) for part, word in zip(parts, given) if part == 'NUMBER']
        # (room is unbounded here: a Full is judged by its own numbers)
        server.free = lambda: U64
        refusal = server.refusal()
        if reply[:2] == ['no', 'full']:
            free, need = int(reply[2]), int(reply[3])
            self.running(refusal is None and (verb != 'delete' or server.grant) and need == self.need() and free < need + 4)
        elif refusal is not None or reply[0] == 'no':
            self.running(' '.join(reply) == refusal)
        elif verb == 'open':
            self.open(int(reply[1], 16))
        elif verb in ('create-file', 'create-index'):
            self.create(int(reply[1], 16))
        else:
            self.running(server.done('') == ' '.join(reply))
            if verb == 'retain' and self.phase == 'marking':
                self.edges.add((server.id, server.named))

    def need(self):
        return 0 if self.server.verb == 'close' else self.server.need()

    def open(self, grant):
        server = self.server
        self.running(grant == (self.drawn + 1) * U32 + self.word)
        server.parts['NAME'] = ''
        server.done(f'ok {grant:016x}')
        self.draw()
        if self.phase == 'marking':
            self.starts.add(server.id)

    def create(self, id):
        server, block = self.server, id // U32
        self.running(id % U32 == self.word and block != 0 and all(other // U32 != block for other in server.objects))
        if server.verb == 'create-index':
            server.objects[id] = Object('index', count=server.numbers[0])
        else:
            server.objects[id] = Object(server.parts['KIND'], int(server.parts['FILL'], 16))
        server.put(server.numbers[-1], id)
        self.draw()
        if self.phase == 'marking':
            self.edges.add((server.id, id))


def judge(text):
    """The verdict on a text, as the report of an audit has it."""
    *lines, rest = text.split(b'\n')
    lines = [line.decode('latin-1') for line in lines]
    first = lines[0].split(' ') if lines else []
    try:
        if len(first) != 3 or first[0] != 'trail' or not 1 <= number(first[1], 1025):
            raise BadLine
        trail = Trail(number(first[2], U64))
    except BadLine:
        return 'bad line 1'
    for place, line in enumerate(lines[1:], 1):
        try:
            trail.follow(line)
        except Illegal:
            return f'illegal {place}'
        except BadLine:
            words = line.split(' ')
            try:
                is_last = len(words) == 2 and words[0] == 'status' and number(words[1], U8) >= 0
            except BadLine:
                is_last = False
            if is_last and place == len(lines) - 1 and not rest:
                return f'legal {place - 1}'
            return f'bad line {place + 1}'
    return f'bad line {len(lines) + 1}'


if __name__ == '__main__':
    with open(sys.argv[1], 'rb') as file:
        print(judge(file.read()))
