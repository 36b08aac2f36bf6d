"""Document 02's fair slots (P12): the inputs of its readings, each with the answers it gives, and crowds: neighbours that share a store.

Notation and what a store is are those of tests/late_repeats.py.
"""
from late_repeats import LATEST, Traffic, clock

ABOVE = 4, 5, 255, 256, 2 ** 32, 2 ** 63, 2 ** 64 - 1  # neighbours above 3, in any width; some are 0 in a narrower one

READINGS = [
    ("12.1", "n4 7:0-; n4 7:f0-; n4 7:f0; n3 7:0-; n3 7:f0; n4 7:0; summary", "58 58 58 50 51 58 0 0 0 0"),
    ("12.1, 58 before 57, 54, 55 and 52", "finish 7; open 0..3; n4 7:0; n256 7:1!; n256 0:0; n256 0:1; n256 8:0; 8:0; summary",
     "0 60" + " 0" * 4 + " 58" * 5 + " 52 4 0 0 0"),
    ("12.2", "n0 finish 7; n1 finish 7; n0 7:0; n1 7:1!; n2 7:0", "0 60 0 60 57 57 0"),
    ("12.3", "n0 finish 0..16; n0 1:0; n0 0:0", "0 60 " * 17 + "57 0"),
    ("12.3, the others' lists stay", "n1 finish 0; n3 finish 0..15; n0 finish 0..16; n0 1:0; n0 0:0; n1 0:0; n3 0:0", "0 60 " * 34 + "57 0 57 57"),
    ("12.4", "n0 1:0@0; n3 1:0@10; sweep 30; summary; n0 1:1!@30; n3 1:1!@30; summary", "0 0 0 0 0 0 1 0 60 1 0 0 0"),
    ("12.4, finished ones", "n0 finish 1@0; n3 finish 1@10; sweep 30; n0 1:0@30; n3 1:0@30; sweep 40; n3 1:0@40", "0 60 0 60 0 0 57 0 0"),
    ("12.5", "; ".join(f"n{n} 7:0; n{n} 7:1!" for n in ABOVE) + "; summary; n0 7:0; n3 7:0; summary",
     "58 58 " * len(ABOVE) + "0 0 0 0 0 0 1 0 0 1"),
    ("12.6", "n0 finish 9; n0 open 0..3; n0 9:0; n0 8:0; n1 8:0; summary", "0 60 0 0 0 0 57 52 0 4 1 0 0"),
    ("12.6, and with 3 open again", "n0 open 0..3; n0 8:0; n0 0:1!; n0 8:0; n0 9:0; sweep 30; n0 9:0@30; summary", "0 0 0 0 52 60 0 52 0 0 1 0 0 0"),
    ("12.6, each has its 4", "n2 open 0..3; n0 open 0..3; n3 open 0..3; n1 open 0..3; n0 8:0; n1 8:0; n2 8:0; n3 8:0; summary",
     "0 " * 16 + "52 52 52 52 4 4 4 4"),
    ("12.10", "n0 7:0; n1 7:0; n0 7:1!; n1 7:1!; summary; n0 7:0; n1 7:0; n2 7:0", "0 0 60 60 0 0 0 0 57 57 0"),
]


class Flood(Traffic):
    """A noisy neighbour: it opens message after message, and hardly ever finishes one."""

    def step(self, second):
        """The clock does not wait for it."""
        finishes = self.rng.random() < 0.1
        self.fresh += not finishes
        ident = max(0, self.fresh - self.rng.randrange(6)) if finishes else self.fresh
        self.store.piece(self.neighbour, ident, int(finishes), finishes, second, 1, 9)
        return second


def crowd(store, rng, steps, neighbours, noisy, second=1000):
    """The neighbours' traffic in any order, under one clock and from the same ids on; one step in three is the noisy one's. Sweeps at times."""
    fresh = rng.choice((0, 65000, (1 << 32) - 5000))
    quiet = [Traffic(store, rng, n, fresh) for n in neighbours if n != noisy]
    flood = Flood(store, rng, noisy, fresh)
    for _ in range(steps):
        second = clock(rng, second) if rng.random() < 0.4 else second
        if rng.random() < 0.03:
            store.sweep(min(LATEST, second + rng.choice((0, 10, 20, 25))))
        else:
            second = (rng.choice(quiet) if rng.randrange(3) else flood).step(second)
