"""Writes the list that acks_check replays: python3 tests/acks_list.py ORACLE > crates/acks_check/stdin

ORACLE is target/oracle/release/oracle, which oracle/build makes from the original Rust. Lines:

    new                            a new tracker
    start N                        a tracker that no call made: N is the highest, and alone marked
    register N ANSWER              the answers of tests/acks_model.py
    duplicate N 0|1
    ask PAIRS NUMBER THROUGH COUNT the report
    oracle PAIRS THROUGH COUNT     the Rust's report at this place of the calls, where they are in its domain
    expand PAIRS LIST THROUGH COUNT NUMBER NAMED   LIST is what a list of sevens, of its length, becomes
"""
import random
import re
import subprocess
import sys

from acks_model import Tracker, expand


class Domain:
    """Whether calls are in the Rust's domain: the numbers that its set holds, received or missing."""

    def __init__(self):
        self.keys, self.got, self.highest = set(), set(), 0

    def register(self, n):
        if self.highest + 255 < n:
            return
        if self.highest < n:
            self.keys |= set(range(self.highest, n + 1))
            self.got |= {self.highest, n}
            self.highest = n
        else:
            self.keys.add(n)
            self.got.add(n)

    def asks(self):
        """No hole, no clamped run, not empty; then the set is cut to 255 numbers."""
        falling = sorted(self.keys, reverse=True)
        whole = bool(falling) and falling[0] - falling[-1] + 1 == len(falling)
        run, longest = 0, 0
        for a, b in zip(falling, falling[1:]):
            run = run + 1 if (a in self.got) == (b in self.got) else 0
            longest = max(longest, run + 1)
        self.keys = set(falling[:255])
        self.got &= self.keys
        return whole and longest <= 255


class List:
    def __init__(self, oracle):
        self.oracle = subprocess.Popen([oracle, "acks"], stdin=subprocess.PIPE, stdout=subprocess.PIPE, text=True)
        self.out = []

    def rust(self, command):
        self.oracle.stdin.write(command + "\n")
        self.oracle.stdin.flush()
        return self.oracle.stdout.readline()

    def new(self):
        self.t, self.domain = Tracker(), Domain()
        self.rust("ack new")
        self.out.append("new")

    def start(self, n):
        self.t, self.domain = Tracker(), None
        self.t.received, self.t.highest = {n}, n
        self.out.append(f"start {n}")

    def register(self, n):
        self.out.append(f"register {n} {self.t.register(n)}")
        if self.domain:
            self.rust(f"ack reg {n}")
            self.domain.register(n)

    def duplicate(self, n):
        self.out.append(f"duplicate {n} {int(self.t.is_duplicate(n))}")

    def ask(self):
        number, through, count, pairs = self.t.report()
        self.out.append(f"ask {bytes(pairs).hex()} {number} {through} {count}")
        if self.domain and self.domain.keys:
            answer = self.rust("ack rep")
            if self.domain.asks():
                a, c, rest = re.match(r"through=(\d+) count=(\d+) pairs=(.*)", answer).groups()
                self.out.append(f"oracle {bytes(int(x) for x in re.findall(r'[0-9]+', rest)).hex()} {a} {c}")

    def expand(self, through, count, pairs, room):
        number, names = expand(through, count, pairs, room)
        filled = (names + [7] * room)[: max(room, len(names))]
        self.out.append(f"expand {bytes(pairs).hex()} {b''.join(n.to_bytes(4, 'big') for n in filled).hex()} {through} {count} {number} {len(names)}")


def calls(l, numbers, every):
    l.new()
    for i, n in enumerate(numbers, 1):
        l.register(n)
        if i % every == 0:
            l.duplicate(max(0, n - 1))
            l.ask()


def main():
    random.seed(8439)
    l = List(sys.argv[1])
    l.new()
    l.duplicate(0)
    l.ask()
    for case in ([5], [4, 2], [256], [255], [0], [0, 0], [1, 0, 1]):
        calls(l, case, 1)
    calls(l, range(1, 41), 8)
    calls(l, [255, 510, 765, 700, 511, 510, 509, 1020, 1021, 766, 765], 1)
    calls(l, [2 * k for k in range(1, 140)], 139)
    calls(l, [250, 251, 252, 505, 506, 250, 251, 252, 253, 761, 1, 0], 2)
    for gap, late in ((3, 2), (12, 30), (120, 200), (256, 300)):
        numbers, top = [], 0
        for _ in range(60):
            top += random.randrange(1, gap)
            numbers.append(max(0, top - random.choice([0, 0, 0, random.randrange(late)])))
        calls(l, numbers, 6)
    for top in (4294967295, 4294967040, 254, 255, 256):
        l.start(top)
        for n in (top, top + 1, top - 1, top - 254, top - 255, 4294967295, 0):
            if 0 <= n <= 4294967295:
                l.register(n)
                l.duplicate(n)
                l.ask()
    l.expand(10, 2, [1, 3], 8)
    for through, count, pairs in ((0, 0, []), (0, 1, []), (0, 0, [1, 0]), (5, 0, [4, 1]), (5, 0, [4, 2]), (5, 5, [9]), (5, 5, [1, 0]), (4294967295, 3, [255, 2, 0, 1]), (600, 255, [255, 90]), (9, 1, [0, 0, 2, 2, 1])):
        names = len(expand(through, count, pairs, 10**9)[1])
        for room in sorted({max(0, names - 1), names, names + 2} if names < 60 else {names - 1}):
            l.expand(through, count, pairs, room)
    print("# Made by tests/acks_list.py: oracle lines are the original Rust's answers, all others those of tests/acks_model.py.")
    print("\n".join(l.out))


main()
