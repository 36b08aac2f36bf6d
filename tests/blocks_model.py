"""Document 01's "Blocks", read again in Python: where a block ends, why it is refused, its fields, the listing of a payload, writing."""

LISTED = {1, 2, 3, 10, 11} | set(range(18, 27))

# the sizes that the writer puts, of the types that have one
EXACT = {0: 4, 1: 12, 6: 9, 15: 0, 16: 4, 17: 12, 20: 4, 21: 1}

# the widths of a type's fields, in bytes; a follow-on fragment's first byte holds two of them
WIDTHS = {0: (4,), 1: (1, 1, 1, 1, 2, 2, 2, 2), 2: (1, 1), 3: (1, 4, 4), 4: (1, 4, 4), 5: (1, 4), 6: (8, 1), 12: (4, 1), 13: (2,),
          16: (4,), 17: (4, 8), 20: (4,), 21: (1,)}


class Refused(Exception):
    def __init__(self, number):
        super().__init__(number)
        self.number = number


def skip(payload, at, count, number=1):
    """The place after count bytes; refused where they are missing."""
    if len(payload) - at < count:
        raise Refused(number)
    return at + count


def fragment_head(payload, at):
    """The place after the nine bytes of an I2NP head whose type is listed."""
    after = skip(payload, at, 9)
    if payload[at] not in LISTED:
        raise Refused(3)
    return after


def read(payload, at):
    """(type, size, next place) of the block at a place."""
    body = skip(payload, at, 3)
    kind, size = payload[at], payload[at + 1] * 256 + payload[at + 2]
    if kind in (0, 15, 16, 17, 20, 21):
        return kind, size, skip(payload, body, EXACT[kind])
    if kind in (1, 6):
        return kind, size, skip(payload, body, max(EXACT[kind], size))
    if kind == 2:
        if size <= 2:
            raise Refused(2)
        return kind, size, skip(payload, body, size)
    if kind == 3:
        if size < 9:
            raise Refused(9)
        return kind, size, skip(payload, fragment_head(payload, body), size - 9)
    if kind == 4:
        after = fragment_head(payload, body)
        if size <= 9:
            raise Refused(4)
        return kind, size, skip(payload, after, size - 9, 5)
    if kind == 5:
        after = skip(payload, body, 5)
        if size <= 5:
            raise Refused(6)
        return kind, size, skip(payload, after, size - 5, 7)
    if kind == 12:
        after = skip(payload, body, 5)
        pairs = size - 5 if size > 5 and (size - 5) % 2 == 0 else 0
        return kind, size, skip(payload, after, pairs)
    if kind == 13:
        after = skip(payload, body, 2)
        if size not in (6, 18):
            raise Refused(8)
        return kind, size, skip(payload, after, size - 2)
    return kind, size, skip(payload, body, size)


def listing(payload, room):
    """(0, 0, blocks) or (number, place, []); a block is (place, type, size, next place)."""
    at, blocks = 0, []
    while True:
        try:
            kind, size, after = read(payload, at)
        except Refused as refused:
            return refused.number, at, []
        blocks.append((at, kind, size, after))
        at = after
        if at == len(payload):
            break
    if len(blocks) > room:
        return 10, blocks[room][0], []
    return 0, 0, blocks


def written_again(block):
    """Whether the size of a block that was read is the one that the writer puts."""
    at, kind, size, after = block
    if kind in EXACT:
        return size == EXACT[kind]
    return kind != 12 or size == after - at - 3


def split(number):
    """A follow-on fragment's first byte: number, last."""
    return [number // 2, number % 2]


def fields(payload, at):
    """The fields of a good block, and the place after them."""
    place, found = at + 3, []
    for width in WIDTHS.get(payload[at], ()):
        found.append(int.from_bytes(payload[place:place + width], "big"))
        place += width
    return (split(found[0]) + found[1:] if payload[at] == 5 else found), place


def shown(payload, at):
    """(0, next place, (type, size, place and length of the bytes after the fields, fields)) or (number, at, None)"""
    try:
        kind, size, after = read(payload, at)
    except Refused as refused:
        return refused.number, at, None
    found, place = fields(payload, at)
    if kind in EXACT:
        return 0, after, (kind, size, 0, 0, found)
    return 0, after, (kind, size, place, after - place, found)


def joined(found):
    """A follow-on fragment's fields as they are written, any flag but 0 set; None for a number above 127."""
    return None if found[0] > 127 else [found[0] * 2 + (found[1] != 0), found[2]]


def faulty(kind, found, data):
    """Whether a block cannot be written: 32."""
    if found is None or any(value >> 8 * width for value, width in zip(found, WIDTHS.get(kind, ()))):
        return True
    if kind in (3, 4) and found[0] not in LISTED:
        return True
    if kind in (2, 4, 5) and not data:
        return True
    return kind == 12 and len(data) % 2 == 1 or kind == 13 and len(data) not in (4, 16)


def write(kind, values, data, room):
    """(0, the block) or (number, None); values beyond a type's fields, and bytes where it has none, are not looked at."""
    found = joined(values) if kind == 5 else values
    data = b"" if kind in EXACT else data
    if faulty(kind, found, data):
        return 32, None
    body = b"".join(value.to_bytes(width, "big") for value, width in zip(found, WIDTHS.get(kind, ()))) + data
    if len(body) > 65535:
        return 31, None
    if len(body) + 3 > room:
        return 30, None
    return 0, bytes([kind]) + len(body).to_bytes(2, "big") + body
