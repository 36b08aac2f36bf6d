"""The sender's list: the calls beside tests/sender_model.py, the record after each of them, and the books of each history.

A record that no call made is the sender that its bytes are: every call does to it what the rules say.
"""
import collections
import itertools
import struct

from lent import Lent, numbers
from sender_histories import LATEST, READINGS, packets, ranged, replay, some_ack, wander
from sender_model import LAST, MOST, Books, Packet, Sender
from sender_record_model import HEAD, PACKET, SENDER, record_of, sender_in
from shrink import Remembered

CAME = collections.Counter()  # what the histories brought up


class Pair(Remembered):
    """A sender of the library's and one of the model's that are told the same calls, and the books of what they were told."""

    def __init__(self, calls, judge, rng):
        self.calls, self.judge, self.rng = calls, judge, rng
        self.model, self.books, self.told, self.shrunk = Sender(), Books(), [], False
        tail = rng.randbytes(rng.choice((0, 0, 1, 40)))
        self.settled, self.out = Lent(rng.randbytes(4 * MOST)), Lent(rng.randbytes(24))
        if rng.random() < 0.5:
            self.record = Lent(bytes(SENDER) + tail)
            return
        self.record = Lent(rng.randbytes(SENDER) + tail)
        self.judged(self.calls.sender_new(*self.record.slice()), 0, self.record.start_is(bytes(SENDER)), "sender_new")
        self.record.keep()

    def start(self, highest):
        """A sender that no call made: this is the highest number given out, and nothing is outstanding."""
        self.remember("start", highest)
        self.put(record_of(highest, []), Books(highest))

    def forge(self, content):
        """A record that no call made: these bytes in front. It has no history, and so no books."""
        self.remember("forge", content)
        self.put(content, None)

    def put(self, content, books):
        self.record = Lent(content + self.record.content()[len(content):])
        self.model, self.books = sender_in(self.record.content()), books

    def move(self):
        """The caller may keep the record anywhere between two calls."""
        self.record = Lent(self.record.content())

    def record_stands(self, answer):
        """A refusal leaves the record whole. An acceptance leaves the bytes of the model's sender, and those behind them as they were."""
        stands = self.record.stays() if answer else self.record.start_is(record_of(self.model.highest, self.model.packets))
        self.record.keep()
        return stands

    def given(self, call, got, wanted):
        """A send or a resend: its answer and the number that it gave out."""
        CAME[f"{wanted[0]} with {len(self.model.packets)}"] += self.books is not None
        self.judged((got.number, got.value), wanted, self.record_stands(wanted[0]), "sender_" + call, self.told)
        return wanted

    def send(self, second):
        self.remember("send", second)
        wanted = self.model.send(second)
        if self.books and not wanted[0]:
            self.books.sent(wanted[1])
        return self.given("send", self.calls.sender_send(*self.record.slice(), second), wanted)

    def resend(self, number, second):
        self.remember("resend", number, second)
        wanted = self.model.resend(number, second)
        if self.books and not wanted[0]:
            self.books.resent(number, wanted[1])
        return self.given("resend", self.calls.sender_resend(*self.record.slice(), number, second), wanted)

    def ack(self, through, count, pairs):
        self.remember("ack", through, count, pairs)
        lent, answer = Lent(pairs), self.model.ack(through, count, pairs)
        got = self.calls.sender_ack(*self.record.slice(), through, count, *lent.slice(), self.settled.address)
        wanted, settled = answer
        stands = self.record_stands(wanted) and lent.stays() and self.settled.start_is(numbers(settled, "I"))
        self.judged((got.number, got.value), (wanted, len(settled)), stands, "sender_ack", self.told)
        self.settled.keep()
        if self.books and not wanted:
            CAME["settled none" if not settled else "settled all" if not self.model.packets else "settled some"] += 1
            self.judge.compare(settled, sorted(self.books.acked(through, count, pairs)), True, "settled by the books", self.told)
        return answer

    def packet(self, k):
        """The k-th outstanding packet, read out."""
        self.remember("packet", k)
        got = self.calls.sender_outstanding(*self.record.slice(), k, self.out.address)
        stands = self.record.stays() and (self.out.start_is(numbers(self.model.packets[k])) if k < len(self.model.packets) else self.out.stays())
        self.judged((got.number, got.value), (0, len(self.model.packets)), stands, "sender_outstanding", self.told)
        self.out.keep()

    def listed(self):
        """All of them by the library's calls, as long as there is a next one."""
        found = []
        while self.calls.sender_outstanding(*self.record.slice(), len(found), self.out.address).value > len(found):
            found.append(Packet._make(struct.unpack("=3Q", self.out.content())))
        self.out.keep()
        return found

    def ask(self):
        """The list read out; and by the books each number given out is outstanding, settled or given up, and one of the three."""
        found = self.listed()
        self.judge.compare(found, self.model.packets, self.record.stays(), "the outstanding packets", self.told)
        for k in {0, max(0, len(found) - 1), len(found), len(found) + 1, MOST, (1 << 64) - 1}:
            self.packet(k)
        if self.books:
            outstanding = [packet.number for packet in found]
            self.judge.compare(self.books.parted(outstanding), True, True, "given out, in exactly one of three", self.told)


def readings(calls, judge, rng):
    """Each reading's answers and end are the document's own."""
    for name, reading, answers, outstanding, settled, given_up in READINGS:
        pair = Pair(calls, judge, rng)
        judge.compare(replay(pair, reading), list(map(int, answers.split())), True, f"reading {name}: {reading}")
        pair.ask()
        end = pair.listed(), sorted(pair.books.settled), sorted(pair.books.given_up)
        judge.compare(end, (packets(outstanding), ranged(settled), ranged(given_up)), True, f"the end of reading {name}: {reading}")


STEPS = (("send", 7), ("resend", 1, 9), ("resend", 2, 9), ("resend", 3, 9), ("ack", 0, 0, b""), ("ack", 1, 0, b""), ("ack", 2, 1, b""),
         ("ack", 3, 0, b"\1\1"), ("ack", 2, 3, b""), ("ack", 4, 1, b"\2"))


def short_histories(calls, judge, rng, length):
    for told in itertools.product(STEPS, repeat=length):
        pair = Pair(calls, judge, rng)
        pair.send(5)
        for call, *inputs in told:
            getattr(pair, call)(*inputs)
        pair.ask()


class Asked:
    """A pair as tests/sender_histories.py calls one; now and then it is asked for its list, or moved."""

    def __init__(self, pair):
        self.pair = pair

    @property
    def model(self):
        return self.pair.model

    def between(self, answer):
        roll = self.pair.rng.random()
        if roll < 0.05:
            self.pair.ask()
        elif roll < 0.1:
            self.pair.move()
        return answer

    def send(self, second):
        return self.between(self.pair.send(second))

    def resend(self, number, second):
        return self.between(self.pair.resend(number, second))

    def ack(self, through, count, given):
        return self.between(self.pair.ack(through, count, given))


def histories(calls, judge, rng, count, steps):
    """Few outstanding, many, or all that there may be; some end with the last number that there is."""
    for i in range(count):
        pair, most = Pair(calls, judge, rng), (3, 12, 60, MOST)[i % 4]
        if rng.random() < 0.3:
            pair.start(rng.choice((LAST, LAST - 1, LAST - 30, LAST - steps // 2, LAST - MOST, 1 << 31)))
        wander(Asked(pair), rng, steps, most)
        pair.ask()


def any_packets(rng, highest, count):
    """Numbers in any order, some of them twice, 0 and some above the highest among them; any seconds and resends."""
    near = rng.choice((3, 30, 300, LAST))
    numbered = [highest + 2, 0, *(highest - rng.randrange(near) for _ in range(9)), *(rng.randrange(near) for _ in range(9 + count // 2))]
    numbered = [max(0, min(LAST, n)) for n in numbered]
    seconds, resends = (0, LATEST, rng.getrandbits(64)), (0, LAST, rng.getrandbits(32))
    return [Packet(rng.choice(numbered), rng.choice(seconds), rng.choice(resends)) for _ in range(count)]


def any_record(rng):
    """Any packets, with any count."""
    highest, count = rng.choice((0, 5, 40, 1000, LAST - 1, LAST, rng.getrandbits(32))), rng.choice((0, 1, 2, 5, 30, 30, MOST))
    told = rng.choice((count, count, min(MOST, count + 3), 255, 256, 257, 512, 1 << 31, LAST))
    return record_of(highest, any_packets(rng, highest, count), told) + rng.randbytes(PACKET * (MOST - count))


def some_record(rng, real):
    """Random bytes, all ones, a sender with outstanding packets of which some bytes were changed, or any packets."""
    at, n, roll = rng.choice((rng.randrange(HEAD), rng.randrange(SENDER))), rng.choice((1, 4, 16, 400)), rng.random()
    changed = (real[:at] + rng.randbytes(n) + real[at + n:])[:SENDER]
    return rng.randbytes(SENDER) if roll < 0.1 else b"\xff" * SENDER if roll < 0.12 else changed if roll < 0.3 else any_record(rng)


def forged(calls, judge, rng, count):
    """Calls on records that no call made, two on each: the second one on what the first one left."""
    pair = Pair(calls, judge, rng)
    wander(pair, rng, 700, MOST)
    real = pair.record.content()[:SENDER]
    for _ in range(count):
        pair = Pair(calls, judge, rng)
        pair.forge(some_record(rng, real))
        CAME["count above 256"] += int.from_bytes(pair.record.content()[4:HEAD], "little") > MOST
        for _ in range(2):
            step(pair, rng)
            pair.model = sender_in(pair.record.content())  # a resend count that was full is 0 there
        if rng.random() < 0.2:
            pair.ask()


def step(pair, rng):
    """One call on a forged record; what came of it is counted."""
    held, roll = pair.model.numbers(), rng.random()
    if roll < 0.2:
        pair.send(rng.getrandbits(64))
    elif roll < 0.6:
        again = [n for n in held if held.count(n) > 1] if len(held) < 60 else []
        number = rng.choice(again if again and rng.random() < 0.5 else held or [0]) if rng.random() < 0.9 else rng.getrandbits(32)
        wraps = any(packet.resends == LAST for packet in pair.model.packets if packet.number == number)
        answer, _ = pair.resend(number, rng.getrandbits(64))
        CAME["first of several resent"] += answer == 0 and number in again
        CAME["resend count wraps"] += answer == 0 and wraps
    else:
        answer, settled = pair.ack(*some_ack(rng, pair.model, rng.choice((8, 300))))
        CAME["several of one number settled"] += len(set(settled)) < len(settled)
        CAME["settled out of order"] += settled != sorted(settled)
        CAME["settled none by a forged record"] += answer == 0 and not settled


def short_records(calls, judge, rng, sizes):
    """59 for a length below 4,104, whatever else would be refused, with nothing written."""
    for size in sizes:
        record, pairs, settled, out = (Lent(rng.randbytes(n)) for n in (size, 6, 4 * MOST, 24))
        numbered = (calls.sender_send(*record.slice(), size), calls.sender_resend(*record.slice(), size, 1),
                    calls.sender_ack(*record.slice(), 0, 0, *pairs.slice(), settled.address),
                    calls.sender_ack(*record.slice(), LAST, 0, *pairs.slice(), settled.address),
                    calls.sender_ack(*record.slice(), 0, 9, *pairs.slice(), settled.address),
                    calls.sender_outstanding(*record.slice(), 0, out.address))
        got = (calls.sender_new(*record.slice()), *((outcome.number, outcome.value) for outcome in numbered))
        stands = all(lent.stays() for lent in (record, pairs, settled, out))
        judge.compare(got, (59,) + ((59, 0),) * 6, stands, "sender calls on a short record", record.content())


WANTED = ("settled none", "settled some", "settled all", "70 with 256", "71 with 0", "71 with 256", "73 with 0", "73 with 256", "count above 256",
          "first of several resent", "resend count wraps", "several of one number settled", "settled out of order", "settled none by a forged record")


def run(calls, judge, rng, whole):
    CAME.clear()
    readings(calls, judge, rng)
    short_histories(calls, judge, rng, 4 if whole else 3)
    histories(calls, judge, rng, 160 if whole else 16, 3000 if whole else 400)
    forged(calls, judge, rng, 40000 if whole else 1200)
    short_records(calls, judge, rng, range(SENDER) if whole else [*range(0, SENDER - 8, 61), *range(SENDER - 8, SENDER), 1, 4, 7, 8, 24])
    for case in WANTED:
        judge.compare(CAME[case] > 0, True, True, f"senders, {case}: {CAME[case]}")
