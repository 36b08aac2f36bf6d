"""Both ends over a channel that loses, repeats and reorders: strawhub_sender_* at the near one, strawhub_tracker_* at the far one.

Ack blocks take such a way too, and any earlier one may be fed in again. No report is refused, and a number is settled only if the far tracker
had registered it. Where the daemon keeps reading 6.13's two rules, everything is settled in the end; where it does not, numbers may be refused
for ever. A run without a loss, a repeat, a reordering, a resend or a settled number has shown nothing, and counts as a difference.
"""
import collections
import struct

from acks import TRACKER
from lent import Lent
from sender_model import LAST
from senders import Pair

WINDOW = 255
PATIENCE = 9  # seconds without an acknowledgement after which a packet is sent again
HASTE = 5
HAPPENED = ("lost", "repeated", "reordered", "resent", "settled")


class Way:
    """What is on its way in one direction, by the second at which it comes."""

    def __init__(self, rng, loss, came):
        self.rng, self.loss, self.came = rng, loss, came
        self.coming, self.sent, self.latest, self.deaf = collections.defaultdict(list), 0, 0, False

    def send(self, now, what):
        """Lost, or there within some seconds, or much later; one in ten comes twice."""
        self.sent += 1
        copies = [self.deaf or self.rng.random() < self.loss for _ in range(2 if self.rng.random() < 0.1 else 1)]
        self.came["lost"] += all(copies)
        self.came["repeated"] += copies.count(False) == 2
        for _ in range(copies.count(False)):
            later = 1 + self.rng.randrange(5) if self.rng.random() < 0.95 else self.rng.randrange(6, 60)
            self.coming[now + later].append((self.sent, what))

    def arrived(self, now):
        found = self.coming.pop(now, [])
        self.rng.shuffle(found)
        for turn, what in found:
            self.came["reordered"] += turn < self.latest
            self.latest = max(self.latest, turn)
            yield what


class Far:
    """The far end: the tracker, and the numbers whose registration it answered 0."""

    def __init__(self, calls, start):
        self.calls, self.record = calls, Lent(bytes(TRACKER))
        self.registered, self.answers = {start}, collections.Counter()
        if start:
            self.begin(start)

    def begin(self, start):
        """A tracker that no call made: start is the highest, and alone marked; crates/acks/specs/Recorded.antt has the layout."""
        marks = bytearray(WINDOW)
        marks[start % WINDOW] = 1
        self.record = Lent(struct.pack("<I", start) + marks)

    def arrives(self, number):
        answer = self.calls.tracker_register(*self.record.slice(), number)
        self.answers[answer] += 1
        if answer == 0:
            self.registered.add(number)
        return answer

    def block(self):
        """Its report as an Ack block; None before any number."""
        room = Lent(bytes(262))
        written = self.calls.tracker_ack_block(*self.record.slice(), *room.slice())
        return room.content()[:written.value] if written.number == 0 else None


class Near:
    """The near end: a pair of senders, the daemon's rules, and the Ack blocks that come back."""

    def __init__(self, pair, far, came, keeps, start, patience):
        self.pair, self.far, self.came, self.keeps, self.patience = pair, far, came, keeps, patience
        self.highest = self.settled = start

    def allowed(self, left):
        """Reading 6.13's two rules, where they are kept: left is what stays outstanding beside the next number."""
        span = self.highest + 1 - (left[0].number if left else self.highest + 1)
        return not self.keeps or span < WINDOW and self.highest + 1 <= self.settled + WINDOW

    def gave(self, answer):
        """The next number, or None where it was refused."""
        number, given = answer
        self.came[number] += 1
        if number:
            return None
        self.pair.judge.compare(given, self.highest + 1, True, "numbers rise by one", self.pair.told)
        self.highest = given
        return given

    def overdue(self, now):
        """Packets that were sent long ago, by the library's own list, are sent again: their new numbers."""
        left = self.pair.listed()
        for packet in list(left):
            if packet.second + self.patience > now or not self.allowed(left[1:]):
                return
            given = self.gave(self.pair.resend(packet.number, now))
            if given is None:
                return
            self.came["resent"] += 1
            left = left[1:]
            yield given

    def send(self, now):
        return self.gave(self.pair.send(now)) if self.allowed(self.pair.model.packets) else None

    def feed(self, block):
        """An Ack block, read and taken in: it is never refused, and settles nothing that the far tracker had not registered."""
        lent, out = Lent(block), Lent(bytes(96))
        read = self.pair.calls.block_read(*lent.slice(), 0, out.address)
        kind, _, place, length, through, count = struct.unpack_from("=6Q", out.content())
        self.pair.judge.compare((read.number, read.value, kind), (0, len(block), 12), True, "a report read", block)
        answer, settled = self.pair.ack(through, count, block[place:place + length])
        good = answer == 0 and self.far.registered.issuperset(settled)
        self.pair.judge.compare(good, True, True, "a report fed in settles what was registered", block, self.pair.told)
        self.came["settled"] += len(settled)
        self.settled = max([self.settled, *settled])
        return settled


class Run:
    """A run: its two ends, the ways between them, and what happened."""

    def __init__(self, calls, judge, rng, loss, keeps, start=0, patience=PATIENCE):
        self.rng, self.judge, self.came = rng, judge, collections.Counter()
        self.pair, self.far = Pair(calls, judge, rng), Far(calls, start)
        if start:
            self.pair.start(start)
        self.near = Near(self.pair, self.far, self.came, keeps, start, patience)
        self.there, self.back, self.blocks = Way(rng, loss, self.came), Way(rng, loss, self.came), []

    def arrive(self, now):
        """Where the rules are kept no number is too high for the far tracker, and none that is outstanding is below its window."""
        for number in self.there.arrived(now):
            answer = self.far.arrives(number)
            refused = (40, 42) if number in self.pair.model.numbers() else (40,)
            self.judge.compare(self.near.keeps and answer in refused, False, True, "a number arrives", answer, number, self.pair.told)

    def reports(self, now):
        """Reports set out at any moment, and come at any later one; an earlier one may come again."""
        block = self.far.block() if self.rng.random() < 0.6 else None
        if block:
            self.blocks.append(block)
            self.back.send(now, block)
        for block in self.back.arrived(now):
            self.near.feed(block)
        if self.blocks and self.rng.random() < 0.1:
            self.came["fed again"] += 1
            self.near.feed(self.rng.choice(self.blocks))

    def second(self, now, count):
        """One second with up to so many new packets: how many were sent."""
        for number in self.near.overdue(now):
            self.there.send(now, number)
        fresh = [self.near.send(now) for _ in range(count)]
        for number in fresh:
            if number:
                self.there.send(now, number)
        self.arrive(now)
        self.reports(now)
        if self.rng.random() < 0.01:
            self.pair.ask()
        return sum(number is not None for number in fresh)

    def ended(self, name):
        """What has to have happened in every run, and the books at its end."""
        self.pair.ask()
        for what in HAPPENED:
            self.judge.compare(self.came[what] > 0, True, True, f"channel, {name}: {what} {self.came[what]}")
        self.came["40"] += self.far.answers[40]
        self.came["late"] += len(self.far.registered & self.pair.books.given_up)
        return self.came


def keeping(run, goal):
    """The rules are kept: packets are sent until there were so many, and all of them are settled, under whatever number."""
    now, sent = 0, 0
    while (sent < goal or run.pair.model.packets) and now < 2 * goal + 400:
        sent += run.second(now, min(goal - sent, run.rng.choice((0, 1, 5, 40))))
        now += 1
    run.judge.compare((sent, run.pair.model.packets), (goal, []), True, "sent and settled, the rules kept", run.pair.told)
    return run.ended("rules kept")


def to_the_top(run, goal):
    """The rules are kept up to the last number that there is; what is outstanding then can be settled, and not sent again."""
    for now in range(goal):
        run.second(now, run.rng.choice((0, 1, 5)))
    run.judge.compare((run.near.highest, run.came[71] > 0), (LAST, True), True, "the last number given out", run.pair.told)
    return run.ended("to the last number")


def breaking(run, goal):
    """The rules are broken; after a while 300 numbers in a row are lost, and every later one is too high for the far tracker."""
    for now in range(2 * goal + 400):
        if run.far.answers[40] >= goal:
            break
        run.there.deaf = run.near.highest > goal and run.came["settled"] > 0 and run.near.highest - max(run.far.registered) <= 300
        run.second(now, run.rng.choice((0, 1, 5, 40)) if len(run.pair.model.packets) < 250 else 0)
    run.judge.compare(run.far.answers[40] > 0, True, True, f"numbers refused by 40, the rules broken: {run.far.answers[40]}")
    return run.ended("rules broken")


def impatient(run, goal):
    """The rules are broken by packets that are sent again before an acknowledgement could have come."""
    for now in range(goal // 5):
        run.second(now, run.rng.choice((0, 1, 5)) if len(run.pair.model.packets) < 20 else 0)
    return run.ended("impatient")


def readings(calls, judge, rng):
    """Readings 6.12 and 6.13, with the tracker itself."""
    run = Run(calls, judge, rng, 0, False)
    blocks = []
    for number in (1, 2):
        run.near.send(0)
        run.far.arrives(number)
        blocks.append(run.far.block())
    settled = [run.near.feed(blocks[i]) for i in (1, 0, 0)]
    judge.compare(settled, [[1, 2], [], []], True, "reading 6.12: reports B, A, A")
    run = Run(calls, judge, rng, 0, False)
    given = [run.near.send(0) for _ in range(256)]
    judge.compare([run.far.arrives(number) for number in (*given[255:], 257, 300)], [40] * 3, True, "reading 6.13: 1 to 255 lost")
    run = Run(calls, judge, rng, 0, False)
    run.near.send(0)
    for number in range(1, 256):
        run.pair.resend(number, number)
    judge.compare(([p.number for p in run.pair.listed()], run.far.arrives(256)), ([256], 40), True, "reading 6.13: one packet resent 255 times")


def run(calls, judge, rng, whole):
    readings(calls, judge, rng)
    rounds, goal = (10, 6000) if whole else (1, 500)
    total = collections.defaultdict(collections.Counter)
    for _ in range(rounds):
        for loss in (0.1, 0.3, 0.5):
            total["rules kept"].update(keeping(Run(calls, judge, rng, loss, True), goal))
        total["rules broken"].update(breaking(Run(calls, judge, rng, 0.2, False), goal))
        total["impatient"].update(impatient(Run(calls, judge, rng, 0.3, False, patience=HASTE), goal))
        total["to the last number"].update(to_the_top(Run(calls, judge, rng, 0.2, True, LAST - goal), goal + 60))
    for name, came in total.items():
        said = ", ".join(f"{came[what]} {what}" for what in (*HAPPENED, "fed again"))
        print(f"channel, {name}: {said}; {came['late']} given up and registered, {came['40']} refused by 40", flush=True)
