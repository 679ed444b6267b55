#!/usr/bin/env python3
"""random_caller [CALLS [START]]

Calls the library at random, right and wrong, beside a small model of what must come:

- a command is accepted or refused just as the model says, a wrong call raises its error, and neither changes anything
- each disk is asked for the requests in the order in which they were given, with their own sectors and bytes
- each token is replied to once, with the error that its disk answered; a read brings what was written last
- a second answer, one for a bio that wasn't asked, and one of another form are refused

Prints how many calls were made of which kind, with status 0; the first difference ends it with status 1. START is the
number that the draws begin from.
"""
import collections, pathlib, random, sys

sys.path.insert(0, str(pathlib.Path(__file__).resolve().parent.parent))
from tazbrev import errors
from tazbrev._library import ASK, DELETE, FLUSH, IDLE, READ, REPLY, WRITE, Core

SECTOR, SECTORS, DISKS, ACTORS = 512, 96, 2, 2
MOST_OUT = 40
HEADER = 'disk md0 512\ndisk md1 512\nactor a\nactor b\n'
NAMES = ('h', 'g', 'longest_of-all_0')
# Geoms are tasted at these sectors alone, so requests keep away from them.
TASTED = (0, SECTORS - 1)
WRONG_NAMES = (b'', b'h' * 17, b'h h', b'\xc3\xa4', b'h\0', b'md/0')
WRONG_PROVIDERS = (b'', b'p' * 64, b'md 0', b'md0\n')
HUGE = 2 ** 64 - 512


class Difference(Exception):
    pass


def due(what, got, wanted):
    if got != wanted:
        raise Difference(f'{what}: {got!r}, not {wanted!r}')


Out = collections.namedtuple('Out', 'token key disk op first count data')
Opened = collections.namedtuple('Opened', 'disk r w e')


class Caller:
    def __init__(self, start):
        self.draw = random.Random(start)
        self.core = Core()
        self.core.open(HEADER.encode(), [(SECTORS, SECTOR)] * DISKS)
        self.told = collections.Counter()
        self.opened = {}                                  # (actor, name) -> Opened
        self.out = {}                                     # token -> Out
        self.queues = [collections.deque() for _ in range(DISKS)]
        self.held = [[bytes(SECTOR)] * SECTORS for _ in range(DISKS)]
        self.asked = {}                                   # bio -> (disk, op, first, count, Out or None)
        self.ended = {}                                   # token -> (error, data)
        self.answered = []
        self.token = 0

    # One call.

    def call(self):
        kinds = (('steps', 42), ('submit', 22), ('answer', 18), ('wrong_answer', 4), ('open', 4), ('close', 3),
                 ('wrong_form', 4), ('wrong_disk', 1), ('look', 2))
        kind = self.draw.choices([it[0] for it in kinds], [it[1] for it in kinds])[0]
        if len(self.out) > MOST_OUT and kind == 'submit':
            kind = 'answer'
        self.told[kind] += 1
        getattr(self, kind)()

    def next_token(self):
        self.token += 1
        return self.token if self.token % 7 else 2 ** 64 - self.token

    def key(self):
        return self.draw.randrange(ACTORS), self.draw.choice(NAMES)

    def refused(self, kind, call, *words):
        """A call that raises an error of this kind."""
        try:
            got = call(*words)
        except errors.CallError as fault:
            due(f'{call.__name__}{words!r:.200}', type(fault), kind)
        else:
            raise Difference(f'{call.__name__}{words!r:.200} gives {got}, not {kind.__name__}')

    # Handles.

    def open(self):
        actor, name = key = self.key()
        disk, counts = self.draw.randrange(DISKS + 1), [self.draw.choice((0, 0, 1, 2, 9)) for _ in 'rwe']
        provider, token = f'md{disk}'.encode(), self.next_token()
        words = (actor, name.encode(), provider, *counts, token)
        if not any(counts):
            return self.refused(errors.FormError, self.core.open_handle, *words)
        there = [it for it in self.opened.values() if it.disk == disk]
        wanted = 0
        if key in self.opened:
            wanted = errors.NameInUseError.number
        elif disk == DISKS:
            wanted = errors.NotFoundError.number
        elif any(it.w and counts[2] or it.e and counts[1] for it in there):
            wanted = errors.AccessError.number
        due(f'open {words}', self.core.open_handle(*words), wanted)
        if wanted == 0:
            self.opened[key] = Opened(disk, *counts)

    def close(self):
        actor, name = key = self.key()
        wanted = 0
        if key not in self.opened:
            wanted = errors.HandleError.number
        elif any(it.key == key for it in self.out.values()):
            wanted = errors.BusyError.number
        due(f'close {key}', self.core.close_handle(actor, name.encode(), self.next_token()), wanted)
        if wanted == 0:
            del self.opened[key]

    # Requests.

    def submit(self):
        if self.opened and self.draw.random() < 0.9:
            key = self.draw.choice(sorted(self.opened))
        else:
            key = self.key()
        op = self.draw.choice((READ, READ, WRITE, WRITE, DELETE, FLUSH))
        first, count = self.draw.randrange(1, SECTORS - 10), self.draw.randrange(1, 9)
        offset, length = first * SECTOR, count * SECTOR
        if self.draw.random() < 0.15:
            offset, length = self.draw.choice(((offset + 1, length), (offset, length - 1), (offset, 33280), (offset, 0),
                                               (SECTORS * SECTOR, 512), (HUGE, 512), ((SECTORS - 1) * SECTOR, 1024)))
        data = bytes([self.draw.randrange(256)]) * length if op == WRITE else b''
        if op == WRITE and length == 0:
            return self.refused(errors.FormError, self.core.submit_write, key[0], key[1].encode(), offset, data, 1)
        token, wanted = self.next_token(), self.refusal(key, op, offset, length)
        due(f'request {op} of {key} at {offset}, {length}', self.given(op, key, offset, length, data, token), wanted)
        if wanted is None:
            span = (0, 0) if op == FLUSH else (first, count)
            out = Out(token, key, self.opened[key].disk, op, *span, data)
            self.out[token] = out
            self.queues[out.disk].append(out)

    def given(self, op, key, offset, length, data, token):
        actor, name = key[0], key[1].encode()
        if op == READ:
            return self.core.submit_read(actor, name, offset, length, token)
        if op == WRITE:
            return self.core.submit_write(actor, name, offset, data, token)
        if op == DELETE:
            return self.core.submit_delete(actor, name, offset, length, token)
        return self.core.submit_flush(actor, name, token)

    def refusal(self, key, op, offset, length):
        """The number of the error of a request, or None where it is accepted."""
        handle = self.opened.get(key)
        if handle is None:
            return errors.HandleError.number
        if not (handle.r if op == READ else handle.w):
            return errors.AccessError.number
        if op == FLUSH:
            return None
        if offset % SECTOR or length % SECTOR or not 0 < length <= 32768:
            return errors.RangeError.number
        return errors.TransferError.number if offset + length > SECTORS * SECTOR else None

    # Steps and answers.

    def steps(self):
        for _ in range(self.draw.randrange(1, 8)):
            self.step()

    def step(self):
        kind, event = self.core.next(), self.core.event
        if kind == ASK:
            self.ask(event.bio, event.disk, event.op, event.first, event.count, self.core.brought())
        elif kind == REPLY:
            out = self.out.pop(event.token, None)
            if out is None:
                raise Difference(f'token {event.token} is replied to, and is not out')
            due(f'reply to {out}', (event.error, self.core.brought()), self.ended.pop(event.token, 'no reply'))
        elif kind == IDLE:
            due('nothing is due, and disks are free', [disk for disk in range(DISKS) if self.queues[disk]
                                                       and not any(it[0] == disk for it in self.asked.values())], [])

    def ask(self, bio, disk, op, first, count, data):
        due('two requests at a disk', [it for it in self.asked.values() if it[0] == disk], [])
        due('bio asked before', bio in self.asked, False)
        out = None
        if not (op == READ and first in TASTED):
            if not self.queues[disk]:
                raise Difference(f'disk {disk} is asked {op} at {first}, and nothing was given')
            out = self.queues[disk].popleft()
            due(f'what the disk is asked for {out}', (op, first, count, data), (out.op, out.first, out.count, out.data))
        self.asked[bio] = (disk, op, first, count, out)

    def answer(self):
        if not self.asked:
            return self.step()
        bio = self.draw.choice(sorted(self.asked))
        disk, op, first, count, out = self.asked.pop(bio)
        held, error, data = self.held[disk], 0, b''
        if self.draw.random() < 0.1:
            done = self.draw.randrange(count + 1) if op in (WRITE, DELETE) else 0
            self.core.answer_failed(bio, done)
            error = errors.TransferError.number
        elif op == READ:
            done, data = 0, b''.join(held[first:first + count])
            self.core.answer_bytes(bio, data)
        else:
            done = count
            self.core.answer_done(bio)
        for place in range(done):
            held[first + place] = out.data[place * SECTOR:][:SECTOR] if op == WRITE else bytes(SECTOR)
        if out:
            self.ended[out.token] = (error, data)
        self.answered = [*self.answered[-9:], bio]

    def wrong_answer(self):
        wrong = [(self.core.answer_done, it) for it in (0, 2 ** 63, *self.answered[:2])]
        wrong += [(self.core.answer_bytes, it, bytes(SECTOR)) for it in (2 ** 64 - 1, *self.answered[-2:])]
        wrong += [(self.core.answer_failed, it, 0) for it in self.answered]
        for bio, (_, op, _, count, _) in self.asked.items():
            if op == READ:
                wrong += [(self.core.answer_done, bio), (self.core.answer_bytes, bio, bytes(count * SECTOR - 1)),
                          (self.core.answer_bytes, bio, bytes((count + 1) * SECTOR)),
                          (self.core.answer_bytes, bio, b''), (self.core.answer_failed, bio, 1)]
            else:
                wrong += [(self.core.answer_bytes, bio, bytes(count * SECTOR)),
                          (self.core.answer_failed, bio, count + 1)]
        self.refused(errors.UnfitError, *self.draw.choice(wrong))

    # What has no form, and what isn't there.

    def wrong_form(self):
        core, name, token = self.core, b'h', self.next_token()
        wrong, provider = self.draw.choice(WRONG_NAMES), self.draw.choice(WRONG_PROVIDERS)
        kind, *words = self.draw.choice((
            (errors.FormError, core.open_handle, 0, wrong, b'md0', 1, 0, 0, token),
            (errors.FormError, core.open_handle, 0, b'new', provider, 1, 0, 0, token),
            (errors.FormError, core.open_handle, 0, b'new', b'md0', 10, 0, 0, token),
            (errors.FormError, core.open_handle, 0, b'new', b'md0', 2 ** 32 + 1, 0, 0, token),
            (errors.FormError, core.close_handle, 0, wrong, token),
            (errors.FormError, core.submit_read, 0, wrong, 0, 512, token),
            (errors.FormError, core.submit_read, 0, name, -1, 512, token),
            (errors.FormError, core.submit_read, 0, name, 0, 2 ** 64, token),
            (errors.FormError, core.submit_read, -1, name, 0, 512, token),
            (errors.FormError, core.submit_write, 0, name, 0, bytes(65537), token),
            (errors.FormError, core.submit_write, 0, name, 2 ** 64, bytes(512), token),
            (errors.FormError, core.submit_flush, 0, name, 2 ** 64),
            (errors.FormError, core.pull, 0, wrong, token),
            (errors.UnfitError, core.submit_read, ACTORS, name, 0, 512, token),
            (errors.UnfitError, core.open_handle, 2 ** 32 - 1, b'new', b'md0', 1, 0, 0, token),
            (errors.UnfitError, core.insert, ACTORS, b'md0', token),
            (errors.OpenError, core.open, HEADER.encode(), [(SECTORS, SECTOR)] * DISKS),
        ))
        self.refused(kind, *words)

    def wrong_disk(self):
        due('pull', self.core.pull(0, b'md7', self.next_token()), errors.NotFoundError.number)
        due('insert', self.core.insert(1, b'md1', self.next_token()), errors.BusyError.number)

    def look(self):
        due('requests that wait', self.core.waiting(), len(self.out))

    # The end.

    def finish(self):
        """Answers all that is out: then each token has had its reply."""
        kind = None
        while kind != IDLE or self.asked:
            if self.asked:
                self.answer()
            self.step()
            kind = self.core.event.kind
        due('tokens that are out at the end', sorted(self.out), [])
        self.look()
        self.core.close()
        self.refused(errors.ClosedError, self.core.next)
        self.refused(errors.ClosedError, self.core.submit_read, 0, b'h', 0, 512, 1)


def run(calls, start):
    """The calls of each kind. Difference where something isn't as the model says."""
    caller = Caller(start)
    for number in range(calls):
        try:
            caller.call()
        except Difference as difference:
            raise Difference(f'call {number} from {start}: {difference}') from None
    caller.finish()
    return caller.told


def main(argv):
    calls, start = (int(it) for it in (*argv, 100000, 1)[:2]) if len(argv) != 1 else (int(argv[0]), 1)
    try:
        told = run(calls, start)
    except Difference as difference:
        print(difference)
        return 1
    print(', '.join(f'{kind} {count}' for kind, count in told.most_common()))
    return 0


if __name__ == '__main__':
    sys.exit(main(sys.argv[1:]))
