"""Late repeats: document 02's readings of P5 as calls, and runs of any pieces, with each neighbour's memory looked at after each call."""
import collections

from late_repeats import READINGS, replay, wander
from lent import Lent
from record_model import KEPT, OPEN, Share
from stores import ALL, EARLIER, LATEST, RECORD, ROOM, One, Pair

CAME = collections.Counter()  # what the runs brought up


class Counted:
    """A pair of stores as tests/late_repeats.py calls one; its neighbour 0 is any of the four. What comes of a call is counted."""

    def __init__(self, pair, zero=0):
        self.pair, self.zero, self.ever = pair, zero, set()

    def at(self, neighbour):
        return (neighbour + self.zero) % 4 if neighbour < 4 else neighbour

    def piece(self, neighbour, ident, number, last, second, length, room):
        """A neighbour's bytes are its own."""
        n = self.at(neighbour)
        remembered = len(self.pair.model.stores[n].finished) if n < 4 else 0
        if number == 0:
            answer = self.pair.first(n, ident, 20 + n % 4, 9, second, bytes([97 + n % 4]) * length, room)
        else:
            answer = self.pair.follow_on(n, ident, 0 if number == "f0" else number, int(last), second, bytes([65 + n % 4]) * length, room)
        CAME["late"] += answer == 57
        CAME["pushed out"] += answer == 60 and remembered == KEPT
        CAME["anew"] += answer == 0 and (n, ident) in self.ever
        if answer == 60:
            self.ever.add((n, ident))
        return answer

    def sweep(self, second):
        before = [len(store.finished) for store in self.pair.model.stores]
        self.pair.sweep(second)
        for had, store in zip(before, self.pair.model.stores):
            after = len(store.finished)
            CAME["forgot " + ("none" if after == had else "all" if after == 0 else "some")] += had > 0
        return 0

    def summary(self):
        """The record's own, from the neighbour on that is 0 here."""
        return [Share(self.pair.record.content(), self.at(n)).bytes[OPEN] for n in ALL]


def readings(pair, them, kind=Counted):
    """Each reading over a new store, and over zeros with any neighbour in 0's place; the answers are the document's own."""
    for name, reading, answers in them:
        for new, zero in ((True, 0), (False, pair.rng.choice(ALL))):
            pair.start(new)
            said = replay(kind(pair, zero), reading)
            pair.judge.compare(said, list(map(int, answers.split())), True, f"reading {name}: {reading}", zero)


def record_lengths(calls, judge, rng):
    """Reading 5.12: a record of an earlier length or one byte short is a 59 that changes nothing; a whole one takes the same piece."""
    room, out, piece = Lent(b"r" * ROOM), Lent(b"o" * 9), Lent(b"p")
    for size, wanted in (*((size, 59) for size in EARLIER), (RECORD - 1, 59), (RECORD, 0)):
        record = Lent(bytes(size))
        got = calls.store_first(*record.slice(), *room.slice(), *out.slice(), 0, 0, 20, 9, 0, *piece.slice())
        stands = out.stays() and (record.stays() and room.stays() if wanted else not record.stays())
        judge.compare(got.number, wanted, stands, "store_first on a record of", size)


def ages(one):
    """A message finished at every edge of the clock, and sweeps around 30 seconds later."""
    for finished in (0, 1, 29, 30, 1000, LATEST - 31, LATEST - 30, LATEST - 29, LATEST):
        for now in sorted({0, LATEST, *(min(LATEST, max(0, finished + age)) for age in (-31, -30, -1, 0, 1, 29, 30, 31))}):
            one.start(new=False)
            one.follow_on(3, 1, 1, 0, b"b")
            one.first(3, 20, 9, finished, b"a")
            one.sweep(now)
            one.first(3, 20, 9, now, b"a")
            one.follow_on(3, 1, 1, now, b"b")


def near_ids(one):
    """A remembered id is all of its 32 bits: one that differs in any of them is another message's."""
    ident = one.rng.getrandbits(32)
    for bit in range(32):
        one.start(new=False)
        one.first(ident, 20, 9, 0, b"a")
        one.follow_on(ident, 1, 1, 0, b"b")
        one.first(ident ^ 1 << bit, 20, 9, 0, b"a")


def order_kept(one):
    """16 remembered, some of them due: a sweep keeps the others in their order, and pushes go on by it."""
    rng = one.rng
    one.start(new=True)
    due = {ident: rng.random() < 0.5 for ident in rng.sample(range(1 << 32), KEPT)}
    for ident, old in due.items():
        one.first(ident, 20, 9, 0, b"a")
        one.follow_on(ident, 1, 1, 10 if old else 11, b"b")
    one.sweep(40)
    kept = [ident for ident, old in due.items() if not old]
    remembered = Share(one.pair.record.content(), one.neighbour).memory()
    one.judge.compare([ident for ident, _ in remembered], kept, True, "ids kept by a sweep, in order", one.told)
    for ident in rng.sample(range(1 << 32), KEPT):
        one.first(ident, 20, 9, 40, b"a")
        one.follow_on(ident, 1, 1, 40, b"b")
        late = rng.choice(list(due))
        one.follow_on(late, 1, 1, 40, b"b", 0)
    one.sweep(LATEST)


def run(calls, judge, rng, whole):
    CAME.clear()
    pair = Pair(calls, judge, rng)
    readings(pair, READINGS)
    record_lengths(calls, judge, rng)
    for part in (ages, near_ids):
        part(One(pair, rng.choice(ALL)))
    for _ in range(50 if whole else 3):
        order_kept(One(pair, rng.choice(ALL)))
        pair.start(new=rng.random() < 0.5)
        wander(Counted(pair), rng, 2000 if whole else 500, rng.sample(ALL, rng.choice((1, 1, 2))), rng.choice((0, 1000, LATEST - 100)))
        pair.sweep(LATEST)
    for case in ("late", "pushed out", "anew", "forgot none", "forgot some", "forgot all"):
        judge.compare(CAME[case] > 0, True, True, f"late repeats, {case}: {CAME[case]}")
