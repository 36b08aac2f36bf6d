"""Writes the list that reassembly_check replays: sequences of calls, each with the model's answer.

A line is 14 decimal fields: what to call (0 a new store, 1 a first piece, 2 a follow-on piece, 3 a sweep), neighbour, id, type or number,
expiration or last, second, seed and length of the piece's bytes, length of the assembly buffer; then the answer: number, type,
expiration, length, and a sum over the message's bytes. Byte j of a piece is (seed * 7 + j * 13 + j / 256) mod 256.
"""

import random
import sys

import fair_slots
import late_repeats
from reassembly_model import Neighbours


def data(seed, length):
    return bytes((seed * 7 + j * 13 + j // 256) % 256 for j in range(length))


def total(message):
    value = 0
    for b in message:
        value = (value * 31 + b + 1) % 65521
    return value


class Sequence:
    """Calls on a new store; `neighbour` is the one whose pieces come."""

    def __init__(self, out, neighbour=0):
        self.store, self.out, self.neighbour = Neighbours(), out, neighbour
        self.line(0, 0, 0, 0, 0, 0, 0, 0, 0, (0, None))

    def line(self, op, neighbour, ident, a, b, second, seed, length, room, answer):
        number, message = answer
        kind, expires, whole = message or (0, 0, b"")
        self.out.append((op, neighbour, ident, a, b, second, seed, length, room, number, kind, expires, len(whole), total(whole)))
        return number

    def first(self, ident, seed, length, kind=20, expires=900, second=0, room=65535):
        return self.line(1, self.neighbour, ident, kind, expires, second, seed, length, room,
                         self.store.first(self.neighbour, ident, kind, expires, second, data(seed, length), room))

    def follow(self, ident, number, last, seed, length, second=0, room=65535):
        return self.line(2, self.neighbour, ident, number, int(last), second, seed, length, room,
                         self.store.follow_on(self.neighbour, ident, number, last, second, data(seed, length), room))

    def sweep(self, second):
        return self.line(3, 0, 0, 0, 0, second, 0, 0, 0, (self.store.sweep(second), None))

    def summary(self):
        """No call tells it."""
        return self.store.summary()

    def cut(self, ident, pieces, i, **more):
        seed, length = pieces[i]
        if i == 0:
            return self.first(ident, seed, length, **more)
        return self.follow(ident, i, i == len(pieces) - 1, seed, length, **more)

    def piece(self, neighbour, ident, number, last, second, length, room):
        """A piece as tests/late_repeats.py names it; the check program goes through the whole buffer at each call, so it is a short one."""
        self.neighbour, room = neighbour, min(room, 99)
        if number == 0:
            return self.first(ident, neighbour % 4, length, second=second, room=room)
        return self.follow(ident, 0 if number == "f0" else number, last, 4 + neighbour % 4, length, second=second, room=room)


def orders(out):
    rng = random.Random(6)
    for count, length in ((2, 64), (2, 1500), (8, 511), (45, 1439), (128, 64), (128, 511)):
        for neighbour, order in enumerate(("up", "down", "mixed"), 1):
            s = Sequence(out, neighbour)
            pieces = [(rng.randrange(256), length) for _ in range(count)]
            places = list(range(count))
            if order == "down":
                places.reverse()
            if order == "mixed":
                rng.shuffle(places)
            for i in places:
                s.cut(77, pieces, i)
                if rng.random() < 0.05:
                    s.cut(77, pieces, i)


def limits(out):
    # 65,535 bytes in all, and one more
    for extra in (0, 1):
        s = Sequence(out)
        for i in range(43):
            s.cut(5, [(i, 1500)] * 44 + [(0, 0)], i)
        s.follow(5, 43, False, 43, 1000)
        s.follow(5, 44, True, 44, 35 + extra)
        s.follow(5, 44, True, 44, 35)
    s = Sequence(out)
    for length in (0, 1, 1500, 1501):
        s.first(length + 1, 1, length)
    for number in (0, 1, 127, 128, 255):
        s.follow(number + 9000, number, False, 1, 10)
    # an empty piece of a wrong number: 50 comes first
    s.follow(1, 0, False, 1, 0)


def clashes(out):
    # case (l)
    s = Sequence(out)
    s.first(1, 10, 1)
    s.follow(1, 2, True, 12, 1)
    s.follow(1, 5, False, 15, 1)
    s.follow(1, 1, False, 11, 1)
    # repeats and clashes of a first piece and of a follow-on piece
    s = Sequence(out)
    s.first(1, 10, 100, kind=20, expires=900)
    s.first(1, 10, 100, kind=20, expires=900)
    s.first(1, 10, 100, kind=21, expires=900)
    s.first(1, 10, 100, kind=20, expires=901)
    s.first(1, 10, 99, kind=20, expires=900)
    s.first(1, 11, 100, kind=20, expires=900)
    s.follow(1, 3, False, 5, 50)
    s.follow(1, 3, False, 5, 50)
    s.follow(1, 3, True, 5, 50)
    s.follow(1, 3, False, 6, 50)
    s.follow(1, 2, True, 7, 50)
    s.follow(1, 5, True, 8, 50)
    s.follow(1, 5, False, 8, 50)
    s.follow(1, 6, True, 9, 50)
    s.follow(1, 4, True, 9, 50)
    s.follow(1, 6, False, 9, 50)
    for i in (1, 2, 4):
        s.follow(1, i, False, i, 50)
    # a short assembly buffer changes nothing, and the piece is taken again later
    s = Sequence(out)
    s.follow(8, 1, True, 1, 500)
    s.first(8, 2, 500, room=999)
    s.first(8, 2, 500, room=0)
    s.first(8, 2, 500, room=1000)


def many(out):
    # 4 open for each neighbour under the same ids, a fifth refused, repeats and clashes still named, then all finished in turn
    s = Sequence(out)
    for s.neighbour in (2, 0, 3, 1):
        for i in range(4):
            s.first(1000 + i, i, 60 + i, kind=i, expires=s.neighbour)
        s.first(2000, 1, 10)
    for s.neighbour in range(4):
        s.first(1003, 3, 63, kind=3, expires=s.neighbour)
        s.first(1003, 4, 63, kind=3, expires=s.neighbour)
        for i in range(4):
            s.follow(1000 + i, 1, True, 100 + i, 40)
            s.first(3000 + i, i, 20)
        s.first(1000, 9, 9)
    # any mixture
    rng = random.Random(7)
    s = Sequence(out)
    for _ in range(600):
        s.neighbour, ident = rng.choice((0, 0, 1, 2, 3, 3)), rng.randrange(6)
        kind = rng.random()
        if kind < 0.25:
            s.first(ident, rng.randrange(2), 30, kind=rng.randrange(2), expires=5, second=rng.randrange(40), room=rng.choice((50, 200)))
        elif kind < 0.97:
            s.follow(ident, rng.randrange(0, 6), rng.random() < 0.3, rng.randrange(2), 20, second=rng.randrange(40), room=rng.choice((50, 200)))
        else:
            s.sweep(rng.randrange(70))


def sweeps(out):
    for age in (-1, 0, 29, 30, 31):
        s = Sequence(out)
        s.first(1, 1, 10, second=100)
        s.follow(1, 2, False, 2, 10, second=120)
        s.sweep(100 + age)
        s.follow(1, 1, False, 3, 10, second=131)
        s.follow(1, 3, True, 4, 10, second=131)
        s.first(1, 1, 10, second=132)
    s = Sequence(out)
    s.first(1, 1, 10, second=2 ** 64 - 1)
    s.sweep(2 ** 64 - 1)
    s.sweep(0)
    s.follow(1, 1, True, 2, 10, second=0)


def readings(out, them):
    """Document 02's readings, whose answers are the document's."""
    for name, reading, answers in them:
        got = late_repeats.replay(Sequence(out), reading)
        if got != list(map(int, answers.split())):
            raise SystemExit(f"reading {name}: the model answers {got}, the document {answers}")


def late(out):
    """The readings of P5, and runs of any pieces."""
    readings(out, late_repeats.READINGS)
    for seed, neighbours in ((44, (0,)), (75, (1, 3))):
        late_repeats.wander(Sequence(out), random.Random(seed), 400, neighbours)


def fair(out):
    """The readings of P12, and neighbours that share a store, one of them noisy; at times a piece of no neighbour."""
    readings(out, fair_slots.READINGS)
    for seed, neighbours, steps in ((12, (0, 2), 60), (13, range(4), 150)):
        rng, s = random.Random(seed), Sequence(out)
        fair_slots.crowd(s, rng, steps, neighbours, rng.choice(neighbours))
        for n in fair_slots.ABOVE:
            s.piece(n, rng.randrange(9), rng.choice((0, 1, "f0")), True, 1000, rng.choice((0, 1)), 9)


def main():
    out = []
    for part in (clashes, limits, sweeps, many, orders, late, fair):
        part(out)
    for fields in out:
        sys.stdout.write(" ".join(map(str, fields)) + "\n")


if __name__ == "__main__":
    main()
