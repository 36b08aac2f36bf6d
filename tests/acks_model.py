"""Acknowledgements as the rules say them, written from the document alone: a set of numbers, and no ring, marks or runs of ours."""
from itertools import groupby

from blocks_model import write


class Tracker:
    def __init__(self):
        self.received = set()
        self.highest = 0

    def window(self):
        """The 255 numbers ending at the highest seen, never below 0, falling."""
        return range(self.highest, max(self.highest - 255, -1), -1)

    def register(self, n):
        if n > self.highest + 255:
            return 40
        if n <= self.highest and n not in self.window():
            return 42
        if n in self.received:
            return 43
        if not self.received:
            self.received.add(0)
        self.received.add(n)
        self.highest = max(self.highest, n)
        return 0

    def is_duplicate(self, n):
        return n in self.window() and n in self.received

    def report(self):
        """(number, through, count, pair bytes)"""
        if not self.received:
            return 41, 0, 0, []
        runs = [(got, len(list(run))) for got, run in groupby(self.window()[1:], lambda n: n in self.received)]
        count = runs.pop(0)[1] if runs and runs[0][0] else 0
        lengths = [length for _, length in runs]
        return 0, self.highest, count, lengths + [0] * (len(lengths) % 2)


def expand(through, count, pairs, room):
    """(number, the numbers named)"""
    pairs = pairs[: len(pairs) // 2 * 2]
    if through - count - sum(pairs) < 0:
        return 44, []
    names = list(range(through, through - count - 1, -1))
    at = through - count
    for nack, ack in zip(pairs[::2], pairs[1::2]):
        at -= nack
        names += range(at - 1, at - ack - 1, -1)
        at -= ack
    return (0, names) if len(names) <= room else (46, [])


def ack_block(tracker, room):
    """(0, the report as an Ack block) or (number, None)"""
    number, through, count, pairs = tracker.report()
    return (number, None) if number else write(12, [through, count], bytes(pairs), room)
