"""Sessions with loss: neighbours that resend what was not acknowledged, each over a channel that loses, repeats and reorders; one store receives.

One of the four is noisy: it opens message after message and finishes none. The same packets go to two models. In the one no finished message is
remembered: there late repeats open messages anew. The other has 16 slots for whoever comes first, as before P12: there the letters of the
others meet 52, and are lost. A round that brings up no such ghost and no such loss has shown nothing, and counts as a difference.
"""
import collections
import itertools

import messages_model as model
from deliveries import Deliveries, fragment, message
from reassembly_model import Neighbours, Shared
from stores import ALL, LATEST, MESSAGE

LOSS = 7  # one packet in so many is lost, in each direction
RESEND = 3  # seconds without an acknowledgement after which a packet's pieces are sent again
SLOWEST = 3  # seconds that a packet may take
OPEN = 4  # messages on their way at most, for each neighbour
NOISE = 3  # messages that the noisy one opens in a second, at most


class Channel:
    """Packets on their way, by the second at which they come."""

    def __init__(self, rng):
        self.rng, self.coming = rng, collections.defaultdict(list)

    def send(self, now, packet):
        """Lost, or there within some seconds; one in ten comes twice."""
        for _ in range(2 if self.rng.random() < 0.1 else 1):
            if self.rng.randrange(LOSS):
                self.coming[now + 1 + self.rng.randrange(SLOWEST)].append(packet)

    def arrived(self, now):
        packets = self.coming.pop(now, [])
        self.rng.shuffle(packets)
        return packets


class Sender:
    """Messages cut into pieces, a few pieces to a packet. What is sent again has a new number; an acknowledgement of any of its numbers will do."""

    def __init__(self, rng, channel, messages):
        self.rng, self.channel, self.waiting = rng, channel, messages
        self.numbers, self.unacked = itertools.count(), []

    def send(self, now, packet):
        number = next(self.numbers)
        packet["second"], packet["numbers"] = now, packet["numbers"] | {number}
        self.channel.send(now, (number, packet["id"], packet["blocks"]))

    def second(self, now):
        """Resends what is overdue, then begins other messages while few are on their way."""
        for packet in self.unacked:
            if now >= packet["second"] + RESEND:
                self.send(now, packet)
        while self.waiting and len({packet["id"] for packet in self.unacked}) < OPEN:
            self.begin(now, *self.waiting.pop())

    def begin(self, now, ident, pieces):
        blocks = [fragment(ident, pieces, i) for i in range(len(pieces[1]))]
        while blocks:
            n = self.rng.randrange(1, 4)
            self.unacked.append({"id": ident, "blocks": blocks[:n], "numbers": set()})
            self.send(now, self.unacked[-1])
            blocks = blocks[n:]

    def acknowledged(self, numbers):
        self.unacked = [packet for packet in self.unacked if not packet["numbers"] & numbers]

    def done(self):
        return not self.waiting and not self.unacked


class Noise(Sender):
    """A sender that begins message after message and sends of each its first piece alone, whatever is acknowledged."""

    def second(self, now):
        for _ in range(self.rng.randrange(NOISE + 1)):
            ident = self.rng.getrandbits(32)
            self.send(now, {"id": ident, "blocks": [fragment(ident, message(self.rng), 0)], "numbers": set()})


class Received:
    """A model that is handed the packets: how often each message came out of it, and how many pieces of each neighbour met 52."""

    def __init__(self, store):
        self.store, self.came, self.refused = store, collections.Counter(), collections.Counter()
        self.sweep = store.sweep

    def deliver(self, neighbour, payload, at, now):
        return model.deliver(payload, at, self.store, neighbour, now, MESSAGE)[0]

    def receive(self, neighbour, ident, payload, at, now):
        number = self.deliver(neighbour, payload, at, now)
        self.came[neighbour, ident] += number == 60
        self.refused[neighbour] += number == 52

    def told(self, letters):
        """In numbers, of letters: open though they came, come twice, never come; and their neighbours' pieces that met 52."""
        open_, came = self.store.open(), [self.came[letter] for letter in letters]
        return collections.Counter(
            ghosts=sum(letter in open_ for letter in letters if self.came[letter]), twice=sum(n > 1 for n in came), never=came.count(0),
            refused=sum(self.refused[n] for n in {n for n, _ in letters}))


class Library(Received):
    """The library's store, and the model beside it."""

    def __init__(self, d):
        super().__init__(d.model)
        self.deliver, self.sweep = d.deliver, d.sweep


class Link:
    """A neighbour's sender, its channel and the acknowledgements' way back."""

    def __init__(self, rng, neighbour, sender, messages):
        self.neighbour, self.there, self.back, self.seen = neighbour, Channel(rng), Channel(rng), set()
        self.sender = sender(rng, self.there, messages)

    def busy(self):
        return not self.sender.done() or self.there.coming or self.back.coming

    def second(self, now, receive):
        """One second: what is sent, what arrives and what is acknowledged."""
        self.sender.second(now)
        packets = self.there.arrived(now)
        for number, ident, blocks in packets:
            self.seen.add(number)
            receive(self.neighbour, ident, blocks, now)
        if packets:
            self.back.send(now, frozenset(self.seen))
        for numbers in self.back.arrived(now):
            self.sender.acknowledged(numbers)


class Session:
    """Four neighbours over one store of the library's and two models: one without memory, one with 16 slots for whoever comes first."""

    def __init__(self, d, count, noisy):
        rng, idents = d.rng, d.rng.sample(range(1 << 32), count)
        self.d, self.noisy, self.most = d, noisy, 0
        self.ends = Library(d), Received(Neighbours(keep=0)), Received(Shared())
        self.quiet = [Link(rng, n, Sender, [(ident, message(rng)) for ident in idents]) for n in ALL if n != noisy]
        self.links = [*self.quiet, Link(rng, noisy, Noise, [])]
        self.letters = [(link.neighbour, ident) for link in self.quiet for ident in idents]

    def receive(self, neighbour, ident, blocks, now):
        """Each block of a packet to all three."""
        payload, at = b"".join(blocks), 0
        for one in blocks:
            for end in self.ends:
                end.receive(neighbour, ident, payload, at, now)
            at += len(one)

    def run(self):
        """Until every letter is acknowledged and nothing of the quiet ones is on its way; what came of it, at each of the three."""
        for now in itertools.takewhile(lambda _: any(link.busy() for link in self.quiet), itertools.count()):
            for end in self.ends:
                end.sweep(now)
            for link in self.d.rng.sample(self.links, 4):
                link.second(now, self.receive)
            self.most = max(self.most, *(len(store.finished) for store in self.d.model.stores))
        return [end.told(self.letters) for end in self.ends]


def judged(judge, session):
    """The quiet neighbours' letters came once each, none is open, none met 52; the noisy neighbour met it."""
    library, told = session.ends[0], session.d.told
    judge.compare({library.came[letter] for letter in session.letters}, {1}, True, "how often each letter of a session came", told)
    judge.compare(library.store.open().isdisjoint(session.letters), True, True, "letters left open at a session's end", told)
    refused = [library.refused[n] > 0 for n in ALL]
    judge.compare(refused, [n == session.noisy for n in ALL], True, "neighbours whose pieces met 52", told)


def run(calls, judge, rng, whole):
    d, most = Deliveries(calls, judge, rng), 0
    totals = fair, forgetful, unfair = [collections.Counter() for _ in range(3)]
    for _ in range(40 if whole else 2):
        d.start(new=rng.random() < 0.5)
        session = Session(d, rng.choice((20, 30, 50)), rng.choice(ALL))
        for total, came in zip(totals, session.run()):
            total.update(came)
        judged(judge, session)
        most = max(most, session.most)
        d.sweep(LATEST)
        d.empty()
    judge.compare(forgetful["ghosts"] > 0, True, True, f"ghosts that a store without memory leaves open: {forgetful['ghosts']}")
    harm = min(unfair["refused"], unfair["never"])
    judge.compare(harm > 0, True, True, f"letters lost by 52 where slots are for whoever comes first: {unfair['never']}")
    for name, came in (("fair slots", fair), ("the same without memory", forgetful), ("16 slots for whoever comes first", unfair)):
        said = f"{came['ghosts']} ghosts left open, {came['twice']} letters came twice, {came['never']} never came, {came['refused']} pieces met 52"
        print(f"sessions beside a noisy neighbour, {name}: {said}")
    print(f"sessions: at most {most} finished messages of a neighbour were remembered at once")
