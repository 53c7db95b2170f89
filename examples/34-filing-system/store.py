"""A session of `cfs converse`, as a program sees it: each request is answered before the next is made."""

import subprocess

MOST_BYTES = 4096
EVERY = 20


class Refused(Exception):
    """The request was refused, and has changed nothing."""


class Store:
    def __init__(self, program, volume, seed):
        words = [program, 'converse', volume, seed, str(EVERY), '-', '-']
        self.program = subprocess.Popen(words, stdin=subprocess.PIPE, stdout=subprocess.PIPE, text=True)

    def ask(self, request):
        """Makes a request. Answers what its reply says after `ok`."""
        self.program.stdin.write(request + '\n')
        self.program.stdin.flush()
        word, _, answer = self.program.stdout.readline().rstrip('\n').partition(' ')
        if word == 'no':
            raise Refused(answer)
        if word != 'ok':
            raise SystemExit('the service has ended')
        return answer

    def unless(self, refusal, request):
        """The same, but nothing if it is refused for this."""
        try:
            return self.ask(request)
        except Refused as why:
            if str(why) == refusal:
                return None
            raise

    def leave(self):
        """Ends the session. Answers the lines of the report."""
        self.program.stdin.close()
        report = self.program.stdout.read().splitlines()
        self.program.wait()
        return report

    def held(self, index, slot):
        """The object that a slot leads to, if there is one."""
        return self.unless('empty', f'retrieve held {index} {slot}')

    def size(self, object):
        """How many bytes a file has. Of an index nothing."""
        return self.unless('not-file', f'size {object}')

    def content(self, file):
        size = int(self.size(file))
        pieces = [self.ask(f'read {file} {at} {min(MOST_BYTES, size - at)}') for at in range(0, size, MOST_BYTES)]
        return bytes.fromhex(''.join(pieces))

    def make_file(self, index, slot, content):
        file = self.ask(f'create-file made normal 00 {index} {slot}')
        self.ask(f'resize {file} {len(content)}')
        for at in range(0, len(content), MOST_BYTES):
            self.ask(f'write {file} {at} {content[at:at + MOST_BYTES].hex()}')
