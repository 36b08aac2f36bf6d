"""Trackers and expansions: the calls beside tests/acks_model.py."""
import itertools

import acks_model as model
from lent import Lent, numbers
from shrink import Remembered

TRACKER = 259
TOP = 4294967295


class Pair(Remembered):
    """A tracker of the library's and one of the model's that are told the same numbers."""

    def __init__(self, calls, judge, rng):
        self.calls, self.judge, self.rng = calls, judge, rng
        self.model, self.told, self.shrunk = model.Tracker(), [], False
        tail = rng.randbytes(rng.choice((0, 0, 1, 30)))
        if rng.random() < 0.5:
            self.record = Lent(bytes(TRACKER) + tail)
            return
        self.record = Lent(rng.randbytes(TRACKER) + tail)
        self.changed(self.calls.tracker_new(*self.record.slice()), 0, "tracker_new")

    def changed(self, got, wanted, call, *inputs):
        """A call that may write the record: a refusal leaves it whole, an acceptance what is past its 259 bytes."""
        stands = self.record.stays() if wanted else self.record.outside(TRACKER)
        self.judged(got, wanted, stands, call, *inputs)
        self.record.keep()

    def move(self):
        """The caller may keep the record anywhere between two calls."""
        self.record = Lent(self.record.content())

    def register(self, n):
        self.remember("register", n)
        got = self.calls.tracker_register(*self.record.slice(), n)
        self.changed(got, self.model.register(n), "tracker_register", self.told)

    def climb(self, top):
        """Registers every 255th number below top; what is below the window is never asked of again, so the model drops it."""
        self.remember("climb", top)
        wrong = 0
        for n in range(255, top, 255):
            wrong += self.calls.tracker_register(*self.record.slice(), n) != self.model.register(n)
            if n % (255 << 14) == 0:
                self.model.received &= set(self.model.window())
        self.changed(wrong, 0, "registrations while climbing", self.told)

    def duplicate(self, n):
        self.remember("duplicate", n)
        got = self.calls.tracker_duplicate(*self.record.slice(), n)
        self.judged(got, int(self.model.is_duplicate(n)), self.record.stays(), "tracker_duplicate", self.told)

    def report(self):
        self.remember("report")
        out, pairs = Lent(self.rng.randbytes(24)), Lent(self.rng.randbytes(254))
        got = self.calls.tracker_report(*self.record.slice(), out.address, pairs.address)
        wanted, through, count, named = self.model.report()
        filled = bytes(named) + bytes(254 - len(named))
        stands = out.stays() and pairs.stays() if wanted else out.start_is(numbers([through, count, len(named)])) and pairs.start_is(filled)
        self.judged(got, wanted, stands and self.record.stays(), "tracker_report", self.told)
        if wanted == 0:
            self.named(through, count, bytes(named))

    def named(self, through, count, pairs):
        """The report expanded is exactly the received numbers of the window, falling."""
        received = [n for n in self.model.window() if n in self.model.received]
        got = expand(self.calls, self.judge, through, count, pairs, self.rng.randbytes(4 * 256))
        self.judge.compare(got, received, True, "a report expanded", self.told)

    def ack_block(self, size):
        self.remember("ack_block", size)
        room = Lent(self.rng.randbytes(size))
        got = self.calls.tracker_ack_block(*self.record.slice(), *room.slice())
        wanted, block = model.ack_block(self.model, size)
        stands = self.record.stays() and (room.stays() if wanted else room.start_is(block))
        self.judged((got.number, got.value), (wanted, 0 if wanted else len(block)), stands, "tracker_ack_block", self.told)

    def ack_blocks(self):
        whole = len(model.ack_block(self.model, 300)[1] or b"")
        for size in {0, 7, 8, max(0, whole - 1), whole, whole + 1, 262, 263}:
            self.ack_block(size)

    def window(self):
        """Every number of the window, and some on both sides of it."""
        for n in range(max(0, self.model.highest - 258), min(TOP, self.model.highest + 3) + 1):
            self.duplicate(n)

    def ask(self):
        self.report()
        self.ack_blocks()
        self.window()


def expand(calls, judge, through, count, pairs, content):
    """An expansion into a list whose bytes are these before: the numbers named, or None."""
    lent, room = Lent(pairs), Lent(content)
    got = calls.ack_expand(through, count, *lent.slice(), room.address, len(content) // 4)
    number, named = model.expand(through, count, pairs, len(content) // 4)
    stands = lent.stays() and room.start_is(numbers(named, "I"))
    judge.compare((got.number, got.count), (number, len(named)), stands, "ack_expand", through, count, pairs, len(content) // 4)
    return None if number else named


def short_expansions(calls, judge, rng, whole):
    """Every small expansion, into lists of every small length."""
    values = (0, 1, 2, 3) if whole else (0, 1, 3)
    for through, count, size in itertools.product(range(7), range(5), range(5 if whole else 4)):
        for pairs in itertools.product(values, repeat=size):
            for room in (0, 1, 3, 4, 8):
                expand(calls, judge, through, count, bytes(pairs), rng.randbytes(4 * room))


def expansions(calls, judge, rng, count):
    """Expansions that end around 0, and lists that hold one number less, as many, or more."""
    for _ in range(count):
        biggest = rng.choice((0, 1, 3, 255))
        pairs = bytes(rng.randrange(biggest + 1) for _ in range(rng.choice((0, 1, 2, 3, 7, 8, 254, 255, 300))))
        acks = rng.choice((0, 1, 2, 254, 255))
        below = acks + sum(pairs[:len(pairs) // 2 * 2])
        through = rng.choice((0, max(0, below - 1), below, below + 1, TOP, rng.getrandbits(32)))
        names = 1 + acks + sum(pairs[1::2])
        room = rng.choice((0, max(0, names - 1), names, names + 1, names + 5))
        expand(calls, judge, through, acks, pairs, rng.randbytes(4 * room))


def next_number(rng, highest):
    """A number around the highest, the window's end, or the highest that is taken."""
    near = rng.choice((highest, highest, highest, highest - 127, highest - 254, highest + 255, 0))
    return min(TOP, max(0, near + rng.choice((0, 1, 2, 3, -1, -2, -3, rng.randrange(-120, 121)))))


def step(pair, rng, most):
    """One number, rising by at most so much or around the window, sometimes with a question after it."""
    rising = rng.random() < 0.6
    pair.register(min(TOP, pair.model.highest + rng.randrange(1, most + 1)) if rising else next_number(rng, pair.model.highest))
    chance = rng.random()
    if chance < 0.1:
        pair.report()
    elif chance < 0.2:
        pair.duplicate(next_number(rng, pair.model.highest))
    elif chance < 0.25:
        pair.move()


def sequence(calls, judge, rng, steps):
    """Two trackers in turn, so that one's calls would show in the other."""
    pairs = [(Pair(calls, judge, rng), rng.choice((1, 2, 5, 60, 255))) for _ in range(2)]
    for _ in range(steps):
        pair, most = rng.choice(pairs)
        if not pair.told:
            pair.ask()
        step(pair, rng, most)
    for pair, _ in pairs:
        pair.ask()


def short_sequences(calls, judge, rng, numbers_of, length):
    for told in itertools.product(numbers_of, repeat=length):
        pair = Pair(calls, judge, rng)
        for n in told:
            pair.register(n)
            pair.report()


def around_the_top(calls, judge, rng):
    """At 4,294,967,295, reached by calls alone: numbers on both sides of the window's ends, and after the last number there is."""
    pair = Pair(calls, judge, rng)
    pair.climb(TOP - 600)
    print(f"  at {pair.model.highest} by calls alone", flush=True)
    pair.shrunk = True
    for _ in range(2000):
        pair.register(min(TOP, max(0, pair.model.highest + rng.randrange(-260, 258))))
        pair.report()
    for n in (TOP, TOP - 254, TOP - 255, TOP - 1, 0, 1, TOP):
        pair.register(n)
        pair.ask()


def short_records(calls, judge, rng):
    """59 for every length below 259, with nothing written."""
    for size in range(TRACKER):
        record, out, pairs, room = (Lent(rng.randbytes(n)) for n in (size, 24, 254, 300))
        got = (calls.tracker_new(*record.slice()), calls.tracker_register(*record.slice(), size), calls.tracker_duplicate(*record.slice(), size),
               calls.tracker_report(*record.slice(), out.address, pairs.address), calls.tracker_ack_block(*record.slice(), *room.slice()).number,
               calls.tracker_ack_block(*record.slice(), room.address, 0).number)
        stands = all(lent.stays() for lent in (record, out, pairs, room))
        judge.compare(got, (59,) * 6, stands, "tracker calls on a short record", record.content())


def run(calls, judge, rng, whole):
    short_expansions(calls, judge, rng, whole)
    expansions(calls, judge, rng, 20000 if whole else 2000)
    short_records(calls, judge, rng)
    short_sequences(calls, judge, rng, (0, 1, 2, 3, 4, 5), 4 if whole else 3)
    short_sequences(calls, judge, rng, (0, 1, 254, 255, 256, 257, 510, 511), 4 if whole else 3)
    for _ in range(300 if whole else 25):
        sequence(calls, judge, rng, rng.choice((30, 300, 600)))
    if whole:
        around_the_top(calls, judge, rng)
