"""Fair slots: document 02's readings of P12 as calls; neighbours that share a store under equal ids, one of them noisy; and each of them alone.

Whatever the others send, a neighbour's answers and messages, and the bytes of its share of the record, are those of its own pieces and the
sweeps on a store of its own, under whatever number.
"""
import collections
import itertools

from fair_slots import ABOVE, READINGS, crowd
from lent import Lent
from record_model import KEPT, Share
from repeats import Counted, readings
from stores import ALL, LATEST, RECORD, ROOM, Pair

CAME = collections.Counter()  # what the readings and the crowds brought up
LEAST = {"52 beside one with fewer than 4": 100, "opened beside one with 4": 100, "open under one id": 10, "open under an id that another remembers": 10,
         "pushed out beside another's memory": 1, "four open for all": 1, "swept of one and not of another": 1}


class Crowd(Counted):
    """A pair of stores as tests/late_repeats.py calls one; of each neighbour it keeps its pieces, with the library's answers, and the sweeps."""

    def __init__(self, pair, zero=0):
        super().__init__(pair, zero)
        self.acts = {n: [] for n in ALL}

    def piece(self, neighbour, ident, *piece):
        if neighbour > 3:
            return super().piece(neighbour, ident, *piece)
        n = self.at(neighbour)
        own = self.pair.model.stores[n]
        was_open, remembered = ident in own.open, len(own.finished)
        answer = super().piece(neighbour, ident, *piece)
        self.acts[n].append((self.pair.told[-1], self.pair.said))
        self.count(n, ident, answer, answer == 0 and not was_open, answer == 60 and remembered == KEPT)
        return answer

    def count(self, neighbour, ident, answer, opened, pushed):
        others = [store for n, store in enumerate(self.pair.model.stores) if n != neighbour]
        CAME["52 beside one with fewer than 4"] += answer == 52 and any(len(store.open) < 4 for store in others)
        CAME["opened beside one with 4"] += opened and any(len(store.open) == 4 for store in others)
        CAME["open under one id"] += opened and any(ident in store.open for store in others)
        CAME["open under an id that another remembers"] += opened and any(store.remembers(ident) for store in others)
        CAME["pushed out beside another's memory"] += pushed and any(store.finished for store in others)
        CAME["four open for all"] += self.pair.model.summary() == [4] * 4

    def sweep(self, second):
        before = self.pair.model.summary()
        super().sweep(second)
        left = [(had, has) for had, has in zip(before, self.pair.model.summary()) if had]
        CAME["swept of one and not of another"] += any(had > has for had, has in left) and any(had == has for had, has in left)
        for acts in self.acts.values():
            acts.append((self.pair.told[-1], None))
        return 0


def alone(pair, acts, number):
    """The acts of one neighbour on a store of its own, under a number: the library gives the same answers and messages. Its share at the end."""
    pair.start(new=pair.rng.random() < 0.5)
    for (call, *inputs), said in acts:
        if call == "sweep":
            pair.sweep(*inputs)
            continue
        getattr(pair, call)(number, *inputs[1:])
        pair.judge.compare(pair.said, said, True, "a neighbour's piece on a store of its own", number, pair.told)
    return Share(pair.record.content(), number).bytes


def crowds(pair, own, steps, among):
    """A crowd in one store; then each of its neighbours alone, whose share has the same bytes."""
    rng = pair.rng
    pair.start(new=rng.random() < 0.5)
    shared = Crowd(pair)
    crowd(shared, rng, steps, among, rng.choice(among), rng.choice((0, 1000, LATEST - 100)))
    for n in among:
        share = alone(own, shared.acts[n], rng.choice(ALL))
        pair.judge.compare(share, Share(pair.record.content(), n).bytes, True, "the share of a neighbour alone", n, pair.told)


def each_has_four(pair, orders):
    """In any order, and whoever is full already: four are kept of each, under equal ids, and a fifth is not, until one is finished."""
    for order in orders:
        pair.start(new=False)
        idents = pair.rng.sample(range(1 << 32), 6)
        for n in order:
            answers = [pair.first(n, ident, 20, 9, 0, b"a") for ident in idents[:5]]
            answers.append(pair.follow_on(n, idents[n], 1, 1, 0, b"b"))
            answers += [pair.first(n, ident, 20, 9, 0, b"a") for ident in (idents[4], idents[n], idents[5])]
            pair.judge.compare(answers, [0] * 4 + [52, 60, 0, 57, 52], True, "each has its four", order, pair.told)


def no_neighbours(pair):
    """58 for every number above 3, however wide, and before every number of the piece's own: nothing changes, and 0 to 3 are meant by no other number."""
    pair.start(new=True)
    wide = [n | 1 << bit for n in ALL for bit in range(2, 64)]
    for n in ALL:
        pair.first(n, 7, 20, 9, 0, b"a")
        pair.follow_on(n, 7, 1, 1, 0, b"b")
        for ident in range(4):
            pair.first(n, ident, 20, 9, 0, b"a")
        for above in (*ABOVE, *pair.rng.sample(wide, 20)):
            number, data = pair.rng.choice((0, 1, 128)), pair.rng.choice((b"", b"a", bytes(1501)))
            said = [pair.first(above, ident, 20, 9, 0, data) for ident in (0, 7, 8)]
            said += [pair.follow_on(above, ident, number, 1, 0, data, 0) for ident in (0, 7, 8)]
            pair.judge.compare(said, [58] * 6, True, "a neighbour above 3", above, pair.told)
    for above in wide:
        pair.judge.compare(pair.first(above, 9, 20, 9, 0, b"a"), 58, True, "a neighbour above 3", above)


def short_rooms(calls, judge):
    """Readings 12.1 and 12.9: an empty piece of neighbour 4 is a 59 where the room is a byte short, else a 58; neighbour 3's is a 59, else a 50."""
    record, out, none = Lent(bytes(RECORD)), Lent(b"o" * 9), Lent()
    for size, neighbour, wanted in ((ROOM - 1, 4, 59), (ROOM, 4, 58), (ROOM - 1, 3, 59), (ROOM, 3, 50)):
        room = Lent(b"r" * size)
        loans = *record.slice(), *room.slice(), *out.slice()
        got = calls.store_first(*loans, neighbour, 7, 20, 9, 0, *none.slice()), calls.store_follow_on(*loans, neighbour, 7, 0, 0, 0, *none.slice())
        stands = record.stays() and room.stays() and out.stays()
        judge.compare([reply.number for reply in got], [wanted] * 2, stands, "an empty piece over a room of", size, neighbour)


def run(calls, judge, rng, whole):
    CAME.clear()
    pair, own = Pair(calls, judge, rng), Pair(calls, judge, rng)
    readings(pair, READINGS, Crowd)
    short_rooms(calls, judge)
    no_neighbours(pair)
    orders = list(itertools.permutations(ALL))
    each_has_four(pair, orders if whole else rng.sample(orders, 3))
    for _ in range(20 if whole else 1):
        for among in (rng.sample(ALL, 2), ALL):
            crowds(pair, own, 2000 if whole else 250 * len(among), among)
    for case, least in LEAST.items():
        judge.compare(CAME[case] >= least, True, True, f"neighbours, {case}: {CAME[case]}")
