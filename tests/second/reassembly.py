"""Stores: the calls beside tests/reassembly_model.py."""
import itertools

from lent import Lent
from stores import ALL, EARLIER, LATEST, MESSAGE, RECORD, ROOM, One, Pair


def message(rng, most=12):
    """A head and 2 to `most` pieces."""
    lengths = [rng.choice((1, 2, 5, 40)) for _ in range(rng.randrange(2, most + 1))]
    return (rng.randrange(256), rng.getrandbits(32)), [rng.randbytes(n) for n in lengths]


def changed(rng, pieces, i):
    """A piece that is not the message's: other bytes, another length, flag, head or number."""
    (kind, expires), parts = pieces
    data, number, last = parts[i], i, i == len(parts) - 1
    how = rng.randrange(6)
    if how == 0:
        data = data[:-1] + bytes([data[-1] ^ 1 << rng.randrange(8)])
    elif how == 1:
        data = data + b"\0" if rng.random() < 0.5 else data[:-1]
    elif how == 2:
        last = not last
    elif how == 3:
        kind, number, data = kind ^ 1 << rng.randrange(8), 0, parts[0]
    elif how == 4:
        expires, number, data = expires ^ 1 << rng.randrange(32), 0, parts[0]
    else:
        number = rng.choice((number + 1, len(parts), len(parts) + 1, 127, 128, 255, rng.randrange(256)))
    return (kind, expires), data, number, last


def spoilt(data):
    """The bytes one shorter, one longer, and with each byte changed."""
    return data[:-1], data + b"\0", *(data[:at] + bytes([data[at] ^ 128]) + data[at + 1:] for at in range(len(data)))


def other_heads(one, data):
    """The first piece with each bit of its head changed."""
    for i in range(8):
        one.first(1, 20 ^ 1 << i, 900, 0, data)
    for i in range(32):
        one.first(1, 20, 900 ^ 1 << i, 0, data)


def clashes(one):
    """Held pieces 0, 1 and 3, the last, each with one thing changed; then a piece of every number but the missing 2."""
    one.start(new=True)
    parts = [one.rng.randbytes(n) for n in (7, 1, 40, 300)]
    for i in (0, 1, 3):
        one.cut(1, ((20, 900), parts), i)
        other_heads(one, parts[0])
        for data in spoilt(parts[i]):
            one.follow_on(1, i, int(i == 3), 0, data) if i else one.first(1, 20, 900, 0, data)
    one.follow_on(1, 1, 1, 0, parts[1])
    for number in range(256):
        one.follow_on(1, number, 1, 0, b"z")
        if number != 2:
            one.follow_on(1, number, 0, 0, b"z")
    one.cut(1, ((20, 900), parts), 2)
    one.empty()


def another(rng, ident):
    """The id of the next message: one bit beside the finished one's, any other, or at times the same."""
    return rng.choice((ident ^ 1 << rng.randrange(32), rng.getrandbits(32), rng.getrandbits(32), ident))


def mixture(one, steps, ids, second):
    """Pieces of messages under a few ids, some wrong, some again, some of finished ones, with buffers of any length; sweeps; the clock mostly rises.

    A step at a time, so that stores and neighbours can take turns.
    """
    rng = one.rng
    messages, late = {rng.choice((i, i % 16 << 28, (1 << 32) - 1 - i)): message(rng) for i in range(ids)}, []
    for _ in range(steps):
        ident, pieces = rng.choice(late if late and rng.random() < 0.1 else list(messages.items()))
        i = rng.randrange(len(pieces[1]))
        second = min(LATEST - 30, max(0, second + rng.choice((0, 0, 0, 1, 2, -1))))
        whole = sum(map(len, pieces[1]))
        size = rng.choice((MESSAGE, whole, whole, whole - 1, 0, whole + 3))
        if rng.random() < 0.15:
            (kind, expires), data, number, last = changed(rng, pieces, i)
            if number == 0:
                one.first(ident, kind, expires, second, data, size)
            else:
                one.follow_on(ident, number, rng.choice((1, 2, 255)) if last else 0, second, data, size)
        elif rng.random() < 0.01:
            one.sweep(min(LATEST, max(0, second + rng.choice((-1, 0, 20, 29, 30, 31)))))
        elif one.cut(ident, pieces, i, second, size) == 60:
            late = late[-20:] + [(ident, pieces)]
            messages.pop(ident, None)
            messages[another(rng, ident)] = message(rng)
        if rng.random() < 0.02:
            one.move()
        yield
    for age in (29, 30):
        one.sweep(min(LATEST, second + age))
    one.sweep(LATEST)


def mixtures(pair, steps, count):
    """A mixture for each of so many neighbours of a store, under one clock; many of their ids are equal."""
    rng, second = pair.rng, pair.rng.choice((0, 1000, LATEST - 200))
    return [mixture(One(pair, n), steps // count, rng.choice((3, 5, 9)), second) for n in rng.sample(ALL, count)]


def in_turn(pairs, steps):
    """Mixtures over two stores, a step of each neighbour in turn; both are empty at the end."""
    for pair in pairs:
        pair.start(new=pair.rng.random() < 0.5)
    for _ in itertools.zip_longest(*(one for pair in pairs for one in mixtures(pair, steps, pair.rng.choice((1, 2, 4))))):
        pass
    for pair in pairs:
        pair.empty()


def any_order(pair, count, length, repeats):
    """Up to four messages of count pieces for each neighbour, under equal ids, in one shuffled order, repeats of any among them: each out once."""
    rng, idents = pair.rng, pair.rng.sample(range(1 << 32), 4)
    owners = [(n, ident) for n in ALL for ident in rng.sample(idents, rng.randrange(1, 5))]
    messages = {owner: ((rng.randrange(256), 7), [rng.randbytes(length) for _ in range(count)]) for owner in owners}
    order = [(*owner, i) for owner in owners for i in range(count)]
    rng.shuffle(order)
    finished, held = 0, []
    for n, ident, i in order:
        finished += pair.cut(n, ident, messages[n, ident], i) == 60
        held.append((n, ident, i))
        m, again, j = rng.choice(held)
        if rng.random() < repeats:
            pair.cut(m, again, messages[m, again], j)
    pair.judge.compare(finished, len(messages), True, "messages finished", pair.told)


def short_schedules(one, length):
    """Every order of a few pieces of one message, right and wrong ones."""
    pieces = [("f", b"a"), ("f", b"b"), (1, 0, b"c"), (1, 1, b"c"), (2, 0, b"d"), (2, 1, b"d"), (3, 1, b"e")]
    for schedule in itertools.product(pieces, repeat=length):
        one.start(new=False)
        for what, *rest in schedule:
            if what == "f":
                one.first(9, 20, 5, 0, rest[0], 3)
            else:
                one.follow_on(9, what, rest[0], 0, rest[1], 3)


def limits(one):
    """Lengths 0, 1, 1,500, 1,501; every number; 65,535 bytes and one more; 128 pieces; each before what comes later in the order."""
    rng = one.rng
    for size in (0, 1, 1500, 1501, 65535, 65536):
        one.start(new=True)
        data = (rng.randbytes(1500) * 44)[:size]
        one.first(1, 1, 1, 0, data)
        one.first(1, 1, 1, 0, data)
        for number in range(256):
            one.follow_on(2, number, 0, 0, data)
            one.follow_on(3, number, 255, 0, data, 0)
    for extra in (0, 1):
        for order in (1, -1):
            one.start(new=True)
            parts = [rng.randbytes(1500) for _ in range(43)] + [rng.randbytes(1000), rng.randbytes(35 + extra)]
            for i in range(45)[::order]:
                one.cut(5, ((1, 2), parts), i, size=MESSAGE - 1)
                one.cut(5, ((1, 2), parts), i, size=MESSAGE)
    one.start(new=True)
    for i in (127, 0, *range(126, 0, -1)):
        one.cut(6, ((255, (1 << 32) - 1), [bytes([n]) * 511 for n in range(128)]), i)
    one.empty()


def full(one):
    """Four open: a fifth is refused, repeats and clashes keep their numbers, a place that was freed is used again; a finished one's piece is a 57."""
    one.start(new=True)
    for i in range(4):
        one.follow_on(i, 1, 1, i, b"end")
    idents = list(range(6))
    for _ in range(40):
        i = one.rng.randrange(6)
        ident = idents[i]
        one.follow_on(ident, 1, 1, i, one.rng.choice((b"end", b"und")))
        one.follow_on(ident, 2, 0, i, b"x")
        one.first(99, 1, 1, 1, one.rng.choice((b"", b"a")))
        if one.first(ident, i, i, 50, b"start ", one.rng.choice((8, 9))) == 60:
            one.follow_on(ident, 1, 1, i, b"end")
            idents[i] += 1000
    for second in range(28, 50):
        one.sweep(second)
        one.first(second, 1, 1, second, b"new")
    one.sweep(LATEST)
    one.empty()


def sweeps(one):
    """Ages around 30, at both ends of the clock; the opening piece's second counts, not a later one's."""
    for opened in (0, 1, 29, 30, 1000, LATEST - 31, LATEST - 30, LATEST - 29, LATEST):
        for now in {0, LATEST, *(min(LATEST, max(0, opened + age)) for age in (-31, -30, -29, -1, 0, 1, 28, 29, 30, 31))}:
            one.start(new=False)
            one.follow_on(3, 1, 1, opened, b"b")
            one.first(4, 1, 1, min(LATEST, opened + 1), b"b")
            one.sweep(now)
            one.first(3, 1, 1, now, b"a")
            one.follow_on(4, 1, 1, now, b"a")


def short_loans(calls, judge, rng):
    """59 comes first wherever record or room is short, for a neighbour above 3 too, and nothing is written; a sweep answers 0."""
    sizes = [(size, ROOM) for size in (0, RECORD - 1, *EARLIER)]
    for record_size, room_size in (*sizes, (RECORD, 0), (RECORD, ROOM - 1), (RECORD + 9, 100), (0, 0), (RECORD - 1, ROOM - 1)):
        record, room, out = Lent(rng.randbytes(record_size)), Lent(rng.randbytes(1) * room_size), Lent(rng.randbytes(200))
        loans = *record.slice(), *room.slice(), *out.slice()
        for neighbour, length in itertools.product((0, 3, 4, LATEST), (0, 5, 1501)):
            data = Lent(bytes(length))
            got = [calls.store_first(*loans, neighbour, 1, 1, 1, 0, *data.slice()), calls.store_follow_on(*loans, neighbour, 1, 0, 1, 0, *data.slice())]
            answers = [(r.number, r.kind, r.expires, r.length) for r in got]
            stands = all(lent.stays() for lent in (record, room, out, data))
            judge.compare(answers, [(59, 0, 0, 0)] * 2, stands, "store calls on a short loan", record_size, room_size, neighbour, length)
        if record_size < RECORD:
            got = (calls.store_new(*record.slice()), calls.store_sweep(*record.slice(), 1000))
            judge.compare(got, (59, 0), record.stays(), "store_new and store_sweep on a short record", record_size)


def run(calls, judge, rng, whole):
    pair = Pair(calls, judge, rng)
    for part in (limits, full, clashes, sweeps):
        part(One(pair, rng.choice(ALL)))
    short_loans(calls, judge, rng)
    pair.start(new=True)
    short_schedules(One(pair, rng.choice(ALL)), 5 if whole else 3)
    for count, length in ((2, 64), (2, 1500), (8, 511), (43, 1500), (128, 64), (128, 511)):
        pair.start(new=True)
        any_order(pair, count, length, 0.2)
        pair.empty()
    pairs = [pair, Pair(calls, judge, rng)]
    for _ in range(30 if whole else 2):
        in_turn(pairs, 2000 if whole else 400)
