"""Document 01's "Keystream and header", read again in Python: RFC 8439's ChaCha20 block, a header unmasked and read, written and masked."""
import functools
import struct

NAMED = (0, 1, 2, 6, 7, 9, 10, 11)
WITH_KEY = (0, 1)
WITHOUT_IDS = (2, 6)

# 01 leaves the first block counter to the wire: docs/DECISIONS.md has what fixed it
FIRST = 1
NO_NONCE = bytes(12)


def quarter(x, a, b, c, d):
    x[a] = (x[a] + x[b]) & 0xFFFFFFFF
    x[d] ^= x[a]
    x[d] = (x[d] << 16 | x[d] >> 16) & 0xFFFFFFFF
    x[c] = (x[c] + x[d]) & 0xFFFFFFFF
    x[b] ^= x[c]
    x[b] = (x[b] << 12 | x[b] >> 20) & 0xFFFFFFFF
    x[a] = (x[a] + x[b]) & 0xFFFFFFFF
    x[d] ^= x[a]
    x[d] = (x[d] << 8 | x[d] >> 24) & 0xFFFFFFFF
    x[c] = (x[c] + x[d]) & 0xFFFFFFFF
    x[b] ^= x[c]
    x[b] = (x[b] << 7 | x[b] >> 25) & 0xFFFFFFFF


@functools.lru_cache(maxsize=4096)
def chacha20(key, counter, nonce):
    """64 bytes of keystream: the state, twenty rounds on a copy of it, and their sum."""
    state = list(struct.unpack("<4I", b"expand 32-byte k") + struct.unpack("<8I", key) + (counter,) + struct.unpack("<3I", nonce))
    x = state[:]
    for _ in range(10):
        for column in range(4):
            quarter(x, column, 4 + column, 8 + column, 12 + column)
        for column in range(4):
            quarter(x, column, 4 + (column + 1) % 4, 8 + (column + 2) % 4, 12 + (column + 3) % 4)
    return struct.pack("<16I", *((a + b) & 0xFFFFFFFF for a, b in zip(x, state)))


def masked(packet, start, end, key, nonce):
    """The packet with the bytes from start to end under a mask; a mask taken twice is none."""
    stream = chacha20(key, FIRST, nonce)
    return packet[:start] + bytes(p ^ s for p, s in zip(packet[start:end], stream)) + packet[end:]


def header_masked(packet, key1, key2):
    """Bytes 0 to 15 under the two masks whose nonces are the packet's last 24 bytes as they came."""
    size = len(packet)
    nonce1, nonce2 = packet[size - 24:size - 12], packet[size - 12:]
    return masked(masked(packet, 0, 8, key1, nonce1), 8, 16, key2, nonce2)


def rest_masked(packet, kind, key2):
    """What a type has after byte 16, under key 2 and a zero nonce."""
    if kind in WITHOUT_IDS:
        return packet
    return masked(packet, 16, 64 if kind in WITH_KEY else 32, key2, NO_NONCE)


def refused_reading(plain):
    """20 has been tested; the plain bytes 0 to 15 decide the rest."""
    number, kind, byte13 = int.from_bytes(plain[8:12], "big"), plain[12], plain[13]
    if kind not in NAMED:
        return 21
    if kind not in WITHOUT_IDS and byte13 not in (2, 3, 4):
        return 22
    if kind in WITH_KEY and len(plain) < 64:
        return 23
    if kind == 2 and number != 0:
        return 24
    return 0


def fields(plain):
    """type, version, network, fragment, count, immediate, number, destination, source, token, place of the key"""
    kind, byte13 = plain[12], plain[13]
    number, destination = int.from_bytes(plain[8:12], "big"), int.from_bytes(plain[:8], "little")
    if kind == 2:
        return [2, 0, 0, byte13 >> 4, byte13 & 15, 0, number, destination, 0, 0, 0]
    if kind == 6:
        return [6, 0, 0, 0, 0, byte13 & 1, number, destination, 0, 0, 0]
    source, token = int.from_bytes(plain[16:24], "little"), int.from_bytes(plain[24:32], "little")
    return [kind, byte13, plain[14], 0, 0, 0, number, destination, source, token, 32 if kind in WITH_KEY else 0]


def read(packet, key1, key2):
    """(0, unmasked packet, fields) or (number, the packet as it came, None)"""
    if len(packet) < 40:
        return 20, packet, None
    plain = header_masked(packet, key1, key2)
    number = refused_reading(plain)
    if number:
        return number, packet, None
    plain = rest_masked(plain, plain[12], key2)
    return 0, plain, fields(plain)


def refused_writing(size, kind, number, version, fragment, count):
    if kind not in NAMED:
        return 21
    if kind not in WITHOUT_IDS and version not in (2, 3, 4):
        return 22
    if kind == 2 and number != 0:
        return 24
    if kind == 2 and (fragment > 15 or count > 15):
        return 25
    need = 40 if kind in WITHOUT_IDS else 88 if kind in WITH_KEY else 56
    return 20 if size < need else 0


def plain_header(kind, destination, number, version, network, source, token, fragment, count, immediate):
    """Bytes 0 to 15, and to 31 where a type has ids; what no field names is 0."""
    byte13 = fragment * 16 + count if kind == 2 else int(immediate != 0) if kind == 6 else version
    start = destination.to_bytes(8, "little") + number.to_bytes(4, "big") + bytes([kind, byte13])
    if kind in WITHOUT_IDS:
        return start + bytes(2)
    return start + bytes([network, 0]) + source.to_bytes(8, "little") + token.to_bytes(8, "little")


def write(packet, key1, key2, kind, destination, number, version, network, source, token, fragment, count, immediate):
    """(0, the packet with its header) or (number, the packet as it came)"""
    refusal = refused_writing(len(packet), kind, number, version, fragment, count)
    if refusal:
        return refusal, packet
    head = plain_header(kind, destination, number, version, network, source, token, fragment, count, immediate)
    return 0, header_masked(rest_masked(head + packet[len(head):], kind, key2), key1, key2)
