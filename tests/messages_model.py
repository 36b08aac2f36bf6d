"""What a block of a payload delivers, by document 01: a whole message as a part of the payload, a rebuilt one of the assembly buffer."""
from blocks_model import shown

NOTHING = (0, 0, 0, 0, 0, 0)


def deliver(payload, at, store, neighbour, second, room):
    """A neighbour's block: (number, place of the block where it or its piece is refused, else 0, told, rebuilt message).

    told is (where, type, id, expiration, place, length) or None.
    """
    number, after, block = shown(payload, at)
    if number:
        return number, at, None, None
    kind, _, place, length, fields = block
    if kind == 3:
        return 0, 0, (1, *fields, place, length), None
    if kind not in (4, 5):
        return 0, 0, NOTHING, None
    data = payload[place:place + length]
    ident = fields[1] if kind == 4 else fields[2]
    if kind == 4:
        number, message = store.first(neighbour, ident, fields[0], fields[2], second, data, room)
    else:
        number, message = store.follow_on(neighbour, ident, fields[0], bool(fields[1]), second, data, room)
    if number == 60:
        return 60, 0, (2, message[0], ident, message[1], 0, len(message[2])), message[2]
    return (0, 0, NOTHING, None) if number == 0 else (number, at, None, None)
