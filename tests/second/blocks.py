"""Blocks read, written and listed: the calls beside tests/blocks_model.py."""
import struct

import blocks_model as model
from calls import ROOT
from lent import Lent, numbers

ENTRY = struct.Struct("=QBxH4x")
NAMED = (0, 1, 2, 3, 4, 5, 6, 12, 13, 15, 16, 17, 18, 19, 20, 21, 254)
SOME = tuple(range(24)) + (127, 128, 253, 254, 255)
HUGE = (1 << 63, (1 << 64) - 4, (1 << 64) - 1)

# a block for each refusal
REFUSED = {1: "000004655300", 2: "020002", 3: "040010090000000000000000", 4: "0400090b0000000100000002", 5: "04000a0b0000000100000002",
           6: "0500050200000001", 7: "0500060200000001", 8: "0d00071f90", 9: "030008"}



class Blocks:
    def __init__(self, calls, judge, rng):
        self.calls, self.judge, self.rng = calls, judge, rng
        self.noise = rng.randbytes(70000 * 16)

    def read(self, payload, at):
        lent, out = Lent(payload), Lent(self.noise[:96])
        got = self.calls.block_read(*lent.slice(), at, out.address)
        number, place, block = model.shown(payload, at)
        stands = lent.stays() and (out.stays() if number else out.start_is(told(block)))
        self.judge.compare((got.number, got.value), (number, place), stands, "block_read", payload, at)
        return block, place

    def write(self, kind, fields, data, size):
        room, lent, given = Lent(self.noise[:size]), Lent(data), Lent(numbers(fields))
        got = self.calls.block_write(*room.slice(), kind, given.address, *lent.slice())
        number, block = model.write(kind, fields, data, size)
        stands = lent.stays() and given.stays() and room.start_is(block or b"")
        self.judge.compare((got.number, got.value), (number, len(block or b"")), stands, "block_write", kind, fields, data, size)
        return block

    def list(self, payload, size):
        lent, room = Lent(payload), Lent(self.noise[:16 * size])
        got = self.calls.block_list(*lent.slice(), room.address, size)
        number, place, blocks = model.listing(payload, size)
        stands = lent.stays() and (room.stays() if number else entries_stand(room, blocks))
        self.judge.compare((got.number, got.value), (number, place if number else len(blocks)), stands, "block_list", payload, size)
        return blocks

    def whole(self, payload):
        """Listed into lists around the count; every block read at its place, and written again."""
        blocks = self.list(payload, len(payload) // 3 + 1)
        for size in {0, 1, max(0, len(blocks) - 1), len(blocks)}:
            self.list(payload, size)
        for at, *_ in blocks or [(0,)]:
            self.again(payload, at)

    def again(self, payload, at):
        """A block that was read is written: the same bytes where its size is what the writer puts; read, the same block."""
        block, after = self.read(payload, at)
        if block is None:
            return
        kind, size, place, length, fields = block
        written = self.write(kind, padded(fields), payload[place:place + length], 65538)
        same = model.written_again((at, kind, size, after))
        shown = model.shown(written, 0)[2] if written else None
        good = shown is not None and shown[4] == fields and shown[3] == length and (not same or written == payload[at:after])
        self.judge.compare(good, True, True, "a block read and written", payload, at)


def told(block):
    """What a read block is over the call: twelve numbers."""
    kind, size, place, length, fields = block
    return numbers([kind, size, place, length] + padded(fields))


def padded(fields):
    return (fields + [0] * 8)[:8]


def entries_stand(room, blocks):
    """An entry for each block; C says nothing of the bytes between an entry's fields."""
    end = ENTRY.size * len(blocks)
    return list(ENTRY.iter_unpack(room.content()[:end])) == [block[:3] for block in blocks] and room.outside(end)


def block(kind, body, size=None):
    return bytes([kind]) + (len(body) if size is None else size).to_bytes(2, "big") + body


def live():
    """Payloads of live routers; the same list has short and damaged ones after them."""
    for line in open(ROOT / "crates/blocks_check/stdin"):
        yield bytes.fromhex(line.split(" ")[0])


def shortest(b):
    """Every payload of 0 to 2 bytes."""
    for payload in [b""] + [bytes([x]) for x in range(256)] + [bytes([x, y]) for x in range(256) for y in range(256)]:
        b.read(payload, 0)
    for payload in [b""] + [bytes([x]) for x in range(256)] + [bytes([x, y]) for x in range(256) for y in (0, 1, 255)]:
        for at in (1, 2, 3, *HUGE):
            b.read(payload, at)
        b.list(payload, 0)
        b.list(payload, 2)


def every_size(b, kinds, sizes):
    """Types by sizes by truncations, alone and behind another block, with an I2NP type that is listed and one that is not."""
    for kind in kinds:
        for size in sizes:
            for first in (b.rng.choice(sorted(model.LISTED)), b.rng.randrange(256)):
                payload = block(kind, bytes([first]) + b.rng.randbytes(33), size)
                for end in range(3, 38):
                    b.read(payload[:end], 0)
            behind = b.rng.choice((block(15, b""), block(254, b"ab"), block(0, b"time", 99))) + payload[:b.rng.randrange(38)]
            for room in (0, 1, 2, 20):
                b.list(behind, room)


def i2np_types(b):
    for kind in (3, 4):
        for i2np in range(256):
            for size in (8, 9, 10, 12):
                payload = block(kind, bytes([i2np]) + b.rng.randbytes(11), size)
                b.read(payload, 0)
                b.read(payload[:b.rng.randrange(3, 13)], 0)


def longest(b):
    """Sizes at the end of their two bytes, with the bytes there or one missing."""
    body = bytes([11]) + b.rng.randbytes(65600)
    for kind in SOME:
        for size in (32767, 32768, 65533, 65534, 65535):
            for end in (size - 1, size, size + 1, size + 7):
                b.read(block(kind, body[:end], size), 0)
            b.list(block(15, b"") + block(kind, body[:size], size), 2)
    for count in (499, 500, 501, 21845):
        for room in (count - 1, count, count + 1):
            b.list(block(254, b"") * count, room)
        b.list(block(254, b"") * count + block(13, b"\0\0", 7), 3)


def some_block(rng):
    """A block that is mostly good."""
    kind = rng.choice(NAMED + (7, 14, 99)) if rng.random() < 0.9 else rng.randrange(256)
    length = model.EXACT.get(kind, 0) or rng.choice((0, 4, 5, 6, 7, 9, 10, 18, 30, rng.randrange(60)))
    body = rng.randbytes(length)
    if kind in (3, 4) and rng.random() < 0.95:
        body = bytes([rng.choice(sorted(model.LISTED))]) + rng.randbytes(rng.randrange(8, 40))
    if kind == 13 and rng.random() < 0.95:
        body = rng.randbytes(rng.choice((6, 18)))
    if kind in (2, 5) and rng.random() < 0.95:
        body += rng.randbytes(6)
    off = rng.choice((-3, -2, -1, 1, 2, 3)) if rng.random() < 0.04 else 0
    return block(kind, body, max(0, len(body) + off))


def made(b, count):
    for _ in range(count):
        payload = b"".join(some_block(b.rng) for _ in range(b.rng.choice((1, 2, 3, 6))))
        b.whole(payload[:b.rng.randrange(len(payload) + 1)] if b.rng.random() < 0.1 else payload)


def damaged(b, count):
    good = list(live())
    for payload in good if count > 5000 else good[:400]:
        b.whole(payload)
    for _ in range(count):
        payload = bytearray(b.rng.choice(good))
        how = b.rng.randrange(4)
        if how == 0:
            payload = payload[:b.rng.randrange(len(payload) + 1)]
        elif how == 1:
            payload += b.rng.randbytes(b.rng.randrange(1, 9))
        elif payload:
            payload[b.rng.randrange(len(payload) if how == 2 else min(len(payload), 16))] = b.rng.randrange(256)
        b.list(bytes(payload), 500)
        b.read(bytes(payload), b.rng.randrange(len(payload) + 2))


def edges(rng, width):
    top = 1 << 8 * width
    return rng.choice((0, 1, top - 1, rng.randrange(top), min(top, (1 << 64) - 1), (1 << 64) - 1))


def some_fields(rng, kind):
    """Fields for a type, at the edges of their places; what is beyond them may be anything."""
    fields = [edges(rng, width) if rng.random() < 0.3 else rng.randrange(1 << 8 * width) for width in model.WIDTHS.get(kind, ())]
    if kind in (3, 4) and rng.random() < 0.8:
        fields[0] = rng.choice(sorted(model.LISTED))
    if kind == 5:
        fields = [rng.choice((0, 1, 126, 127, 127, 128, 255, 1 << 32)), rng.choice((0, 1, 0, 1, 0, 1, 2, 255, 256, (1 << 64) - 1)), fields[1]]
    return (fields + [rng.choice((0, 0, rng.getrandbits(64))) for _ in range(8)])[:8]


def writes(b, count):
    """Fields, bytes and rooms around every limit: 32 before 31 before 30."""
    rng = b.rng
    for _ in range(count):
        kind = rng.choice(NAMED) if rng.random() < 0.9 else rng.randrange(256)
        fields, length = some_fields(rng, kind), rng.choice((0, 1, 2, 3, 4, 4, 5, 15, 16, 16, 17, 254, 1500))
        need = 3 + sum(model.WIDTHS.get(kind, ())) + (0 if kind in model.EXACT else length)
        written = b.write(kind, fields, rng.randbytes(length), max(0, rng.choice((0, 2, 3, need - 1, need, need, need + 1, need + 9))))
        if written:
            b.again(written, 0)


def long_writes(b):
    """Bodies of 65,535 bytes and one more, with room for them and without; for types with no bytes they are not looked at."""
    data = b.rng.randbytes(65537)
    for kind in SOME:
        used = sum(model.WIDTHS.get(kind, ()))
        for length in (65535 - used - 1, 65535 - used, 65535 - used + 1, 65537):
            for fields in ([11] + [0] * 7, [0, 1, 2, 3, 4, 5, 6, 7], [300] * 8):
                for size in (0, 65537, 65538, 65540):
                    b.write(kind, fields, data[:length], size)


def run(calls, judge, rng, whole):
    b = Blocks(calls, judge, rng)
    shortest(b)
    every_size(b, range(256) if whole else SOME, range(31) if whole else (*range(14), 17, 18, 19, 30))
    i2np_types(b)
    longest(b)
    made(b, 60000 if whole else 3000)
    damaged(b, 60000 if whole else 3000)
    writes(b, 200000 if whole else 15000)
    long_writes(b)
