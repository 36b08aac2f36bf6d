"""A store of the library's and those of the models, handed the same pieces."""
from lent import Lent
from reassembly_model import Neighbours
from record_model import MESSAGE, OPEN, RECORD, ROOM, Bytes, shares
from shrink import Remembered

LATEST = 2 ** 64 - 1
EARLIER = 8576, 9345  # what a record had before it remembered finished messages, and before it was cut into shares
ALL = range(4)  # the neighbours


def seen(record):
    """Of each neighbour: its number of the summary, the count over its slots, what is remembered."""
    return [(share.bytes[OPEN], share.in_use(), share.memory()) for share in shares(record)]


class Pair(Remembered):
    """A store of the library's, the model's and the record's own bytes, handed the same pieces: answers, messages, record and room are compared."""

    def __init__(self, calls, judge, rng):
        self.calls, self.judge, self.rng = calls, judge, rng
        self.noise = rng.randbytes(MESSAGE + 100)
        tail = rng.randbytes(rng.choice((0, 0, 1, 40)))
        self.record, self.room = Lent(rng.randbytes(RECORD) + tail), Lent(rng.randbytes(1) * ROOM + tail)
        self.start(new=True)

    def start(self, new):
        """An empty store again: by strawhub_store_new, or as zeros over whatever the room holds."""
        self.model, self.told, self.shrunk = Neighbours(), [], False
        self.seen = seen(bytes(RECORD))
        if not new:
            self.record = Lent(bytes(RECORD) + self.record.content()[RECORD:])
            return
        was = self.record.was()
        self.record.expect(bytes(RECORD))
        got = self.calls.store_new(*self.record.slice())
        self.judge.compare(got, 0, self.record.stays() and self.room.stays(), "store_new", was)
        self.record.keep()

    def forge(self, content):
        """A record that no call made: only its own bytes say what a call does."""
        self.model, self.told, self.shrunk, self.record = None, [("forge", content)], False, Lent(content)

    def move(self):
        """The caller may keep record and room anywhere between two calls."""
        self.record, self.room = Lent(self.record.content()), Lent(self.room.content())

    def by_bytes(self):
        return Bytes(self.record.was(), self.room.view())

    def stands(self, left):
        """Whether record and room are to the byte what a call leaves, and stand for what the model has; then both are looked at anew."""
        if left.record != self.record.was():
            self.record.expect(left.record)
            self.seen = seen(left.record)
        if left.written:
            self.room.expect(left.written, left.at)
        stands = self.record.stays() and self.room.stays()
        if not stands:
            self.record.keep()
            self.room.keep()
        return stands and (self.model is None or self.as_the_model())

    def as_the_model(self):
        """Each number of the summary is a count over the neighbour's slots, and the model's; and what is remembered is the model's."""
        return self.seen == [(len(store.open), len(store.open), store.finished) for store in self.model.stores]

    def first(self, neighbour, ident, kind, expires, second, data, size=MESSAGE):
        return self.piece("first", neighbour, (ident, kind, expires, second), data, size)

    def follow_on(self, neighbour, ident, number, last, second, data, size=MESSAGE):
        return self.piece("follow_on", neighbour, (ident, number, last, second), data, size)

    def piece(self, call, neighbour, numbers, data, size):
        """The number that is wanted; `said` is the library's whole answer, with the message."""
        self.remember(call, neighbour, *numbers, data, size)
        out, lent, left = Lent(self.noise[:size]), Lent(data), self.by_bytes()
        ident, a, b, second = numbers
        told = neighbour, ident, a, b if call == "first" else b != 0, second, data, size
        by_bytes = getattr(left, call)(*told)
        wanted = getattr(self.model, call)(*told) if self.model else by_bytes
        got = getattr(self.calls, "store_" + call)(*self.record.slice(), *self.room.slice(), *out.slice(), neighbour, *numbers, *lent.slice())
        number, message = wanted
        kind, expires, whole = message or (0, 0, b"")
        stands = self.stands(left) and lent.stays() and out.start_is(whole) and by_bytes == wanted
        answer = (got.number, got.kind, got.expires, got.length)
        self.said = answer, out.content()[:got.length]
        self.judged(answer, (number, kind, expires, len(whole)), stands, "store_" + call, self.told)
        return number

    def sweep(self, second):
        self.remember("sweep", second)
        left = self.by_bytes()
        left.sweep(second)
        if self.model:
            self.model.sweep(second)
        got = self.calls.store_sweep(*self.record.slice(), second)
        self.judged(got, 0, self.stands(left), "store_sweep", self.told)
        return 0

    def cut(self, neighbour, ident, pieces, i, second=0, size=MESSAGE):
        """Piece i of a message: a head and its pieces' bytes."""
        head, parts = pieces
        if i == 0:
            return self.first(neighbour, ident, *head, second, parts[0], size)
        return self.follow_on(neighbour, ident, i, int(i == len(parts) - 1), second, parts[i], size)

    def empty(self):
        """No message is open: each neighbour, in any order and under the same ids, has four new ones kept and a fifth not; then they are swept away."""
        self.judge.compare(self.model.summary(), [0] * 4, True, "messages open at the end", self.told)
        idents = self.rng.sample(range(1 << 32), 5)
        for _ in range(2):
            for n in self.rng.sample(ALL, 4):
                answers = [self.first(n, ident, 1, 2, 100, b"piece") for ident in idents]
                self.judge.compare(answers, [0] * 4 + [52], True, "four new messages and one more", n)
            self.sweep(129)
            self.judge.compare([self.first(n, idents[4], 1, 2, 100, b"piece") for n in ALL], [52] * 4, True, "swept a second early")
            self.sweep(130)


class One:
    """A pair of stores as one neighbour has it: its pieces come under its number."""

    def __init__(self, pair, neighbour):
        self.pair, self.neighbour = pair, neighbour
        self.rng, self.judge = pair.rng, pair.judge
        self.start, self.sweep, self.move, self.empty = pair.start, pair.sweep, pair.move, pair.empty

    def first(self, *piece):
        return self.pair.first(self.neighbour, *piece)

    def follow_on(self, *piece):
        return self.pair.follow_on(self.neighbour, *piece)

    def cut(self, *piece, **more):
        return self.pair.cut(self.neighbour, *piece, **more)

    @property
    def told(self):
        return self.pair.told
