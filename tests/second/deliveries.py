"""What the blocks of payloads deliver: strawhub_block_deliver beside tests/messages_model.py."""
import itertools

import messages_model as model
from blocks import REFUSED, block, live, some_block
from blocks_model import LISTED, listing
from fair_slots import ABOVE
from lent import Lent, numbers
from stores import ALL, EARLIER, LATEST, MESSAGE, RECORD, ROOM, Pair


class Deliveries(Pair):
    def deliver(self, neighbour, payload, at, second, size=MESSAGE):
        self.remember("deliver", neighbour, payload, at, second, size)
        lent, out, told, left = Lent(payload), Lent(self.noise[:size]), Lent(self.noise[:48]), self.by_bytes()
        by_bytes = model.deliver(payload, at, left, neighbour, second, size)
        by_model = model.deliver(payload, at, self.model, neighbour, second, size) if self.model else by_bytes
        number, place, wanted, message = by_model
        got = self.calls.block_deliver(*lent.slice(), at, *self.record.slice(), *self.room.slice(), *out.slice(), neighbour, second, told.address)
        stands = self.stands(left) and lent.stays() and out.start_is(message or b"") and by_bytes == by_model
        stands = stands and (told.stays() if wanted is None else told.start_is(numbers(wanted)))
        self.judged((got.number, got.value), (number, place), stands, "block_deliver", self.told)
        return number


def fragment(ident, pieces, i):
    """Piece i of a message as a block."""
    (kind, expires), parts = pieces
    if i == 0:
        return block(4, bytes([kind]) + ident.to_bytes(4, "big") + expires.to_bytes(4, "big") + parts[0])
    return block(5, bytes([i * 2 + (i == len(parts) - 1)]) + ident.to_bytes(4, "big") + parts[i])


def message(rng):
    lengths = [rng.choice((1, 2, 30, 300)) for _ in range(rng.randrange(2, 7))]
    return (rng.choice(sorted(LISTED)), rng.getrandbits(32)), [rng.randbytes(n) for n in lengths]


def hurt(rng, payload):
    """The payload with a byte changed, or cut."""
    at = rng.randrange(len(payload))
    return payload[:at] if rng.random() < 0.3 else payload[:at] + rng.randbytes(1) + payload[at + 1:]


def some_payload(rng, messages, late):
    """One to three blocks: fragments of messages on their way, at times of finished ones, and other blocks; at times hurt."""
    blocks = []
    for _ in range(rng.randrange(1, 4)):
        ident, pieces = rng.choice(late if late and rng.random() < 0.15 else list(messages.items()))
        blocks.append(fragment(ident, pieces, rng.randrange(len(pieces[1]))) if rng.random() < 0.8 else some_block(rng))
    payload = b"".join(blocks)
    return hurt(rng, payload) if rng.random() < 0.15 else payload


class Peer:
    """A neighbour's side of a conversation: its messages on their way, and those that came out."""

    def __init__(self, d, neighbour, idents):
        self.d, self.neighbour, self.late = d, neighbour, []
        self.messages = {ident: message(d.rng) for ident in idents}

    def payload(self, second):
        """Each block of a payload is delivered; at times under a number that is no neighbour's."""
        rng, payload = self.d.rng, some_payload(self.d.rng, self.messages, self.late)
        places = [found[0] for found in listing(payload, 99)[2]] or [0]
        for at in places + [rng.randrange(len(payload) + 2)]:
            if rng.random() < 0.05:
                self.d.deliver(rng.choice(ABOVE), payload, at, second)
            if self.d.deliver(self.neighbour, payload, at, second, rng.choice((MESSAGE, MESSAGE, 20, 0))) == 60:
                self.came(self.d.model.stores[self.neighbour].finished[-1][0])

    def came(self, ident):
        rng = self.d.rng
        self.late = self.late[-20:] + [(ident, self.messages.pop(ident, None) or message(rng))]
        self.messages[rng.getrandbits(32)] = message(rng)


def conversation(d, steps):
    """Payloads of one to four neighbours: fragments of a few messages under equal ids, whole messages, other blocks; some hurt, some again."""
    rng, second = d.rng, 1000
    idents = [rng.getrandbits(32) for _ in range(rng.choice((3, 6)))]
    peers = [Peer(d, n, idents) for n in rng.sample(ALL, rng.randrange(1, 5))]
    for _ in range(steps):
        rng.choice(peers).payload(second)
        second += rng.choice((0, 0, 1))
        if rng.random() < 0.01:
            d.sweep(second + 25)
    d.sweep(LATEST)


def limits(d, n):
    """Pieces of 1,500 and 1,501 bytes, number 0, four open, a total that passes 65,535, and each clash."""
    for length in (1, 1500, 1501):
        pieces = (11, 3), [d.rng.randbytes(length) for _ in range(128)]
        for i in (0, 0, 127, 127, 5, 5):
            d.deliver(n, fragment(length, pieces, i), 0, 5)
        d.deliver(n, fragment(length, (pieces[0], pieces[1][:5]), 4), 0, 5)
        d.deliver(n, block(5, bytes(5) + pieces[1][0]), 0, 5)
        for i in range(128):
            d.deliver(n, fragment(length, pieces, i), 0, 5, 127 * length)
    for ident in range(100, 106):
        for m in (n, (n + 1) % 4):
            d.deliver(m, fragment(ident, ((11, 3), [b"a", b"b"]), ident % 2), 0, 6)
    d.sweep(LATEST)
    for text in REFUSED.values():
        d.deliver(n, block(15, b"") + bytes.fromhex(text), 3, 0)
    for at in (0, 1, 11, 12, 13, 1 << 63, (1 << 64) - 1):
        d.deliver(n, block(3, bytes([18]) + bytes(8) + b"whole"), at, 0)


def whole_under_a_finished_id(d, n):
    """A whole I2NP block passes no store (02's reading 5.11): delivered under a remembered id, before and after, and not remembered itself."""
    whole = block(3, bytes([18]) + (7).to_bytes(4, "big") + bytes(4) + b"whole")
    pieces = ((20, 9), [b"one", b"two"])
    said = [d.deliver(n, payload, 0, 0) for payload in (whole, fragment(7, pieces, 0), fragment(7, pieces, 1), whole, fragment(7, pieces, 1), whole)]
    d.judge.compare(said, [0, 0, 60, 0, 57, 0], True, "a whole message under a finished id", whole)


def all_in_one(d, n):
    """A payload that holds all of a message delivers it at its last missing piece."""
    blocks = [fragment(3, ((20, 9), [b"one", b"two", b"three"]), i) for i in (2, 0, 1)]
    said = [d.deliver(n, b"".join(blocks), sum(map(len, blocks[:i])), 0, 11) for i in range(3)]
    d.judge.compare(said, [0, 0, 60], True, "three fragments in one payload", b"".join(blocks))


def cases():
    """Blocks behind one of 3 bytes, what a call answers to them where no store can take a piece (None: its refusal), and what it tells."""
    pieces = ((11, 3), [b"a", b"b"])
    none, whole = bytes(48), numbers((1, 18, 0, 0, 15, 5))
    return [(fragment(1, pieces, 0), None, None), (fragment(1, pieces, 1), None, None), (block(5, bytes(5) + b"x"), None, None),
            (block(4, bytes([99]) * 9), (3, 3), None), (b"", (1, 3), None), (block(15, b""), (0, 0), none),
            (block(3, bytes([18]) + bytes(8) + b"whole"), (0, 0), whole)]


def no_store(calls, judge, rng):
    """A fragment over a short record or room is a 59, one of no neighbour a 58, after the block's own refusals; other blocks need neither."""
    short = (0, ROOM), (RECORD - 1, ROOM), *((size, ROOM) for size in EARLIER), (RECORD, 0), (RECORD, ROOM - 1)
    for (record_size, room_size), number in [*((sizes, 59) for sizes in short), ((RECORD, ROOM), 58)]:
        record, room, out = Lent(rng.randbytes(record_size)), Lent(b"r" * room_size), Lent(b"o" * 20)
        for (last, wanted, message), n in itertools.product(cases(), ABOVE if number == 58 else (0, 3, 4)):
            payload = block(15, b"") + last
            lent, told = Lent(payload), Lent(b"t" * 48)
            got = calls.block_deliver(*lent.slice(), 3, *record.slice(), *room.slice(), *out.slice(), n, 1, told.address)
            stands = all(x.stays() for x in (lent, record, room, out)) and (told.stays() if message is None else told.start_is(message))
            judge.compare((got.number, got.value), wanted or (number, 3), stands, "block_deliver without a store", payload, record_size, room_size, n)


def run(calls, judge, rng, whole):
    d = Deliveries(calls, judge, rng)
    for part in (limits, all_in_one, whole_under_a_finished_id):
        part(d, rng.choice(ALL))
    d.empty()
    no_store(calls, judge, rng)
    for payload in list(live())[:None if whole else 300]:
        for at, *_ in listing(payload, 500)[2] or [(0,)]:
            d.deliver(rng.choice(ALL), payload, at, 1)
    d.sweep(LATEST)
    for _ in range(60 if whole else 3):
        d.start(new=True)
        conversation(d, 2000 if whole else 300)
        d.empty()
