"""Document 02's late repeats (P5), as P12 leaves them: the inputs of the readings, each with the answers it gives, and runs of any pieces.

A store here is anything that has piece(neighbour, id, number, last, second, length, room), sweep(second) and summary(), and answers numbers.
Number 0 is a first fragment, "f0" a follow-on fragment with the number 0.
"""
import re

LATEST = 2 ** 64 - 1
MESSAGE = 65535

# 7:1!@20 is piece 1 of id 7, marked last, at second 20; /1 is an assembly buffer of 1 byte, - an empty piece; 1..15 are ids one after another;
# n2 7:0 comes from neighbour 2, without n it is 0. A neighbour has 4 open and 16 remembered where the readings of P5 have 16 and 64.
READINGS = [
    ("5.1", "finish 7; 7:f0; 7:1!-; 7:0-; 7:1!; 7:9; 7:0", "0 60 51 50 50 57 57 57"),
    ("5.1, with 4 open", "finish 7; open 100..103; 7:1!; 7:0; 7:f0; 7:1!-; 8:0", "0 60" + " 0" * 4 + " 57 57 51 50 52"),
    ("5.2", "finish 7; 7:1!@99", "0 60 57"),
    ("5.3", "7:0@0; 7:1!@20; sweep 30; 7:0@30; sweep 50; 7:0@50", "0 60 0 57 0 0"),
    ("5.4", "finish 0@10; finish 1@5; finish 2..15@10; finish 16@10; 1:0@10; 2:0@10; 0:0@10", "0 60 " * 17 + "57 57 0"),
    ("5.5", "finish 0@100; finish 1..15@0; sweep 30; finish 16@30; 0:0@30; 1:0@30", "0 60 " * 16 + "0 0 60 57 0"),
    ("5.6", "7:0@0; sweep 30; 7:0@30", "0 0 0"),
    ("5.7", "3:0; 3:1!/1; 3:0; 3:1!/2; 3:0", "0 56 54 60 57"),
    ("5.8", "0:0; 0:1!; 0:0", "0 60 57"),
    ("5.9", "finish 7@0; 7:0@29; sweep 30; 7:0@30", "0 60 57 0 0"),
    ("5.10", "finish 0..15@0; finish 16@99; 1:0@99; 16:0@99; 0:0@99", "0 60 " * 17 + "57 57 0"),
    ("5.13", f"finish 7@{LATEST}; sweep {LATEST}; sweep 0; sweep 29; 7:0", "0 60 0 0 0 57"),
    ("5.13, at the edge", f"finish 7@{LATEST - 29}; finish 8@{LATEST - 30}; sweep {LATEST}; 7:0; 8:0", "0 60 0 60 0 57 0"),
    ("5.14", "7:0; 7:1!; 7:0; 8:0; 7:1!; 8:1!", "0 60 57 0 57 60"),
    ("5.15", "7:0; 7:1!; 7:0; 8:0; 7:1!; 8:1!; open 100..103; 104:0; 7:1!; 8:0", "0 60 57 0 57 60" + " 0" * 4 + " 52 57 57"),
    ("finished later than the sweep", "finish 7@100; sweep 50; sweep 129; 7:0@129; sweep 130; 7:0@130", "0 60 0 0 57 0 0"),
]

STEP = re.compile(r"(?:(sweep) (\d+)|(summary)|(?:n(\d+) )?(?:(finish|open) ([\d.]+?)|(\d+):(f?)(\d+)(!?)))(?:@(\d+))?(?:/(\d+))?(-?)")


def ids(text):
    """7, or the ids of 1..63."""
    first, _, last = text.partition("..")
    return range(int(first), int(last or first) + 1)


def replay(store, reading):
    """The answers to a reading's steps; finish is a message's two pieces, open its first; summary gives its four numbers."""
    answers = []
    for step in reading.split("; "):
        sweep, now, summary, neighbour, what, many, ident, follow, number, last, second, room, empty = STEP.fullmatch(step).groups()
        n, second, room, length = int(neighbour or 0), int(second or 0), int(room or MESSAGE), 0 if empty else 1
        if sweep:
            answers.append(store.sweep(int(now)))
        elif summary:
            answers.extend(store.summary())
        elif ident:
            answers.append(store.piece(n, int(ident), follow + number if follow else int(number), bool(last), second, length, room))
        for one in ids(many) if what else ():
            answers.append(store.piece(n, one, 0, False, second, length, room))
            if what == "finish":
                answers.append(store.piece(n, one, 1, True, second, length, room))
    return answers


class Sending:
    """A message on its way: how many pieces it has, and which were not sent yet."""

    def __init__(self, rng, ident):
        self.ident, self.count = ident, rng.choice((2, 2, 2, 3))
        self.left = rng.sample(range(self.count), self.count)

    def piece(self, store, neighbour, number, second, room=MESSAGE):
        return store.piece(neighbour, self.ident, number, number == self.count - 1, second, 1 + number, room)


def clock(rng, second):
    """Mostly the same second or the next; at times a leap, at times back."""
    roll = rng.random()
    step = rng.randrange(10, 60) if roll < 0.005 else -rng.randrange(40) if roll < 0.008 else rng.random() < 0.04
    return min(LATEST, max(0, second + int(step)))


class Traffic:
    """One neighbour's: messages under new ids, three at a time; pieces of finished ones again, remembered or forgotten; ids used anew."""

    def __init__(self, store, rng, neighbour, fresh):
        self.store, self.rng, self.neighbour, self.fresh = store, rng, neighbour, fresh
        self.sending, self.done = [], []

    def late(self):
        return self.rng.choice(self.done[-20:])

    def send(self, second):
        """The next piece of a message; after 52 and 56 it is sent again. Its answer."""
        message = self.rng.choice(self.sending)
        answer = message.piece(self.store, self.neighbour, message.left[-1], second, self.rng.choice((MESSAGE,) * 9 + (2,)))
        if answer not in (52, 56):
            message.left.pop()
        if not message.left:
            self.sending.remove(message)
            self.done.append(message)
        return answer

    def again(self, second):
        """A piece of a message that was sent. Its answer."""
        late = self.late()
        return late.piece(self.store, self.neighbour, self.rng.randrange(late.count), second)

    def step(self, second):
        """The clock after it: a neighbour with 4 open waits for a sweep."""
        roll, answer = self.rng.random(), 0
        while len(self.sending) < 3:
            self.fresh += 1
            self.sending.append(Sending(self.rng, self.fresh))
        if roll < 0.2 and self.done:
            answer = self.again(second)
        elif roll < 0.22 and self.done:
            self.sending.append(Sending(self.rng, self.late().ident))
        else:
            answer = self.send(second)
        return min(LATEST, second + 2 * (answer == 52))


def wander(store, rng, steps, neighbours=(0,), second=1000):
    """The traffic of some neighbours, in any order, under one clock; sweeps. All of them begin with the same ids."""
    fresh = rng.choice((0, 65000, (1 << 32) - 5000))
    traffics = [Traffic(store, rng, n, fresh) for n in neighbours]
    for _ in range(steps):
        second = clock(rng, second)
        if rng.random() < 0.05:
            store.sweep(min(LATEST, max(0, second + rng.choice((-31, -30, -1, 0, 0, 0, 1, 20)))))
        else:
            second = rng.choice(traffics).step(second)
