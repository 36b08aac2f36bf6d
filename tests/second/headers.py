"""Keystream and headers: the calls beside tests/header_model.py."""
import header_model as model
from calls import ROOT
from lent import Lent, numbers

LENGTHS = (0, 1, 15, 16, 23, 24, 39, 40, 41, 47, 48, 55, 56, 57, 62, 63, 64, 65, 79, 80, 87, 88, 89, 128, 1500)
EDGES = (0, 1, 2, 15, 16, 17, 127, 128, 254, 255)


class Headers:
    def __init__(self, calls, judge, rng):
        self.calls, self.judge, self.rng = calls, judge, rng

    def keystream(self, key, counter, nonce):
        k, n, out = Lent(key), Lent(nonce), Lent(self.rng.randbytes(64))
        self.calls.keystream(k.address, counter, n.address, out.address)
        stands = k.stays() and n.stays() and out.outside(64)
        self.judge.compare(out.content(), model.chacha20(key, counter, nonce), stands, "keystream", key, counter, nonce)
        return out.content()

    def read(self, packet, key1, key2):
        p, k1, k2, out = Lent(packet), Lent(key1), Lent(key2), Lent(self.rng.randbytes(88))
        got = self.calls.header_read(*p.slice(), k1.address, k2.address, out.address)
        wanted, plain, fields = model.read(packet, key1, key2)
        stands = k1.stays() and k2.stays() and (out.stays() if wanted else out.start_is(numbers(fields)))
        stands = stands and (p.stays() if wanted else p.start_is(plain))
        self.judge.compare(got, wanted, stands, "header_read", packet, key1, key2)
        return wanted, plain, fields

    def write(self, packet, key1, key2, *fields):
        """fields: type, destination, number, version, network, source, token, fragment, count, immediate"""
        p, k1, k2 = Lent(packet), Lent(key1), Lent(key2)
        got = self.calls.header_write(*p.slice(), k1.address, k2.address, *fields)
        wanted, written = model.write(packet, key1, key2, *fields)
        stands = k1.stays() and k2.stays() and p.start_is(written)
        self.judge.compare(got, wanted, stands, "header_write", packet, key1, key2, *fields)
        return wanted, written

    def there_and_back(self, packet, key1, key2, kind, *fields):
        """A header that was written is read: the same fields, and the bytes that were not the header's."""
        number, written = self.write(packet, key1, key2, kind, *fields)
        if number:
            return
        number, plain, found = self.read(written, key1, key2)
        head = 16 if kind in model.WITHOUT_IDS else 32
        whole = number == 0 and plain[head:] == packet[head:] and found[0] == kind and found[6:8] == [fields[1], fields[0]]
        self.judge.compare(whole, True, True, "header written and read", packet, key1, key2, kind, *fields)


def live():
    """Packets of live routers: key 1, key 2, packet, plain header as the router logged it."""
    for line in open(ROOT / "crates/header_check/stdin"):
        words = line.split()
        yield tuple(bytes.fromhex(word) for word in words[:3] + words[11:])


def rfc8439(h):
    """The RFC's vectors: key, counter, nonce, plain and masked text."""
    for line in open(ROOT / "crates/keystream_check/stdin"):
        name, key, counter, nonce, plain, text = line.split()
        key, nonce, plain = map(bytes.fromhex, (key, nonce, plain))
        stream = b"".join(h.keystream(key, int(counter) + i, nonce) for i in range((len(plain) + 63) // 64))
        h.judge.compare(bytes(p ^ s for p, s in zip(plain, stream)).hex(), text, True, "RFC 8439", name)


def carries(h):
    """Keys, counters and nonces of all zeros and all ones."""
    for key in (bytes(32), b"\xff" * 32, bytes(range(32))):
        for counter in (0, 1, 2, 0x7FFFFFFF, 0x80000000, 0xFFFFFFFE, 0xFFFFFFFF):
            for nonce in (bytes(12), b"\xff" * 12, bytes(range(12))):
                h.keystream(key, counter, nonce)


def plain_packet(rng, size, kind, byte13, number):
    """A packet whose plain bytes 8 to 13 are these, and its keys; the masks go on as a sender puts them on."""
    packet, key1, key2 = rng.randbytes(size), rng.randbytes(32), rng.randbytes(32)
    if size < 40:
        return packet, key1, key2
    plain = packet[:8] + number.to_bytes(4, "big") + bytes([kind, byte13]) + packet[14:]
    return model.header_masked(plain, key1, key2), key1, key2


def every_type(h, lengths):
    """All 256 types, and all 256 bytes 13 under the named ones, at lengths around each limit; one key and nonce a length."""
    for size in lengths:
        tail, key1, key2 = h.rng.randbytes(size), h.rng.randbytes(32), h.rng.randbytes(32)
        cases = [(kind, byte13, n) for kind in range(256) for byte13 in (0, 1, 2, 4, 5) for n in (0, 1)]
        cases += [(kind, byte13, n) for kind in model.NAMED for byte13 in range(256) for n in (0, 1 << 31)]
        for kind, byte13, n in cases if size >= 40 else cases[:4]:
            plain = tail[:8] + n.to_bytes(4, "big") + bytes([kind, byte13]) + tail[14:] if size >= 40 else tail
            h.read(model.header_masked(plain, key1, key2) if size >= 40 else plain, key1, key2)


def every_writing(h, lengths):
    """Refusals in their order: every type, versions and nibbles around their limits, numbers 0 and not, at every length's edge."""
    for size in lengths:
        packet, key1, key2 = h.rng.randbytes(size), h.rng.randbytes(32), h.rng.randbytes(32)
        for kind in range(256):
            for version in ((0, 1, 2, 3, 4, 5, 255) if kind in model.NAMED else (2, 9)):
                for n in (0, 1):
                    h.write(packet, key1, key2, kind, 7, n, version, 99, 8, 9, h.rng.choice(EDGES), h.rng.choice(EDGES), n)
        for fragment in EDGES:
            for count in EDGES:
                h.there_and_back(packet, key1, key2, 2, 1 << 63, 0, 9, 9, 1, 1, fragment, count, 1)


def some_fields(rng):
    """Fields that are mostly good."""
    kind = rng.choice(model.NAMED) if rng.random() < 0.95 else rng.randrange(256)
    number = rng.choice((0, 0, 1, 0xFFFFFFFF, rng.getrandbits(32)))
    version = rng.choice((2, 3, 4)) if rng.random() < 0.9 else rng.randrange(256)
    nibble = [rng.randrange(16) if rng.random() < 0.9 else rng.randrange(256) for _ in range(2)]
    return kind, rng.getrandbits(64), number, version, rng.randrange(256), rng.getrandbits(64), rng.getrandbits(64), *nibble, rng.randrange(256)


def at_random(h, count):
    rng = h.rng
    for _ in range(count):
        size = rng.choice(LENGTHS) if rng.random() < 0.7 else rng.randrange(40, 200)
        packet, key1, key2 = plain_packet(rng, size, rng.choice(model.NAMED), rng.choice((0, 1, 2, 3, 4, 16, 255)), rng.choice((0, 0, 5)))
        h.read(packet, key1, key2)
        h.there_and_back(packet, key1, key2, *some_fields(rng))


def damaged(h, count):
    """Live packets, cut, lengthened, or with a byte changed; half of the changes fall on the header."""
    good = list(live())
    for key1, key2, packet, logged in good:
        number, plain, _ = h.read(packet, key1, key2)
        h.judge.compare(plain.startswith(logged), True, number == 0, "a live packet read", packet, key1, key2)
    for _ in range(count):
        key1, key2, packet, _ = h.rng.choice(good)
        how = h.rng.randrange(4)
        if how == 0:
            packet = packet[:h.rng.randrange(len(packet) + 1)]
        elif how == 1:
            packet += h.rng.randbytes(h.rng.randrange(1, 30))
        else:
            at = h.rng.randrange(len(packet) if how == 2 else 16)
            packet = packet[:at] + h.rng.randbytes(1) + packet[at + 1:]
        h.read(packet, key1, key2)


def run(calls, judge, rng, whole):
    h = Headers(calls, judge, rng)
    rfc8439(h)
    carries(h)
    for _ in range(100):
        h.keystream(rng.randbytes(32), rng.getrandbits(32), rng.randbytes(12))
    every_type(h, LENGTHS if whole else (39, 40, 63, 64))
    every_writing(h, LENGTHS if whole else (39, 40, 55, 56, 87, 88))
    at_random(h, 20000 if whole else 700)
    damaged(h, 20000 if whole else 700)
