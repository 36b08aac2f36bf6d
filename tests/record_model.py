"""A store's record and room in bytes, as crates/reassembly/specs lay them out: what a call answers and leaves by them, whoever wrote them.

Each neighbour has a share of the record: 4 heads of 24 bytes, 4 times 128 places and lengths, how many messages are open, then the memory:
16 ids, 16 seconds, how many of them are in use; and of the room 4 slots of 65,535 bytes.
"""
import struct
from typing import NamedTuple

NEIGHBOURS, SLOTS, KEPT = 4, 4, 16
SHARE, TABLES, OPEN, IDS, SECONDS, COUNT = 2338, 96, 2144, 2145, 2209, 2337
TABLE, ENTRY = 512, 4
SLOT = MESSAGE = 65535
RECORD, ROOM = 9352, 1048560
HEAD = struct.Struct("<IQIHBBBBxx")
HELD = 18  # where a head counts its pieces


class Head(NamedTuple):
    """A slot's head; with a count of 0 the slot is free."""
    ident: int = 0
    opened: int = 0
    expires: int = 0
    total: int = 0
    count: int = 0
    last: int = 0
    top: int = 0
    kind: int = 0

    def old(self, second):
        return self.count > 0 and second >= self.opened + 30

    def fits(self, piece):
        """Whether a piece whose number is not held may be of this message."""
        above = 0 < self.last < piece.number
        return not above and not (piece.last and (self.last or piece.number < self.top))

    def grown(self, piece):
        first, last = piece.number == 0, piece.number if piece.last else self.last
        return self._replace(
            expires=piece.expires if first else self.expires, total=self.total + len(piece.data), count=min(self.count + 1, 255),
            last=last, top=max(self.top, piece.number), kind=piece.kind if first else self.kind)

    def complete(self):
        return 0 < self.last < 128 and self.count == self.last + 1


class Piece(NamedTuple):
    """What a call brings; a first piece has the number 0 and a head, a follow-on any number and a flag."""
    follow_on: bool
    ident: int
    number: int
    last: bool
    kind: int
    expires: int
    second: int
    data: bytes


class Share:
    """A neighbour's share of a record, to read and to change; put_back gives the record with it."""

    def __init__(self, record, neighbour):
        self.neighbour, self.bytes = neighbour, bytearray(record[neighbour * SHARE:][:SHARE])

    def put_back(self, record):
        at = self.neighbour * SHARE
        return b"".join((record[:at], self.bytes, record[at + SHARE:]))

    def head(self, slot):
        return Head(*HEAD.unpack_from(self.bytes, slot * HEAD.size))

    def put_head(self, slot, head):
        HEAD.pack_into(self.bytes, slot * HEAD.size, *head)

    def used(self, slot):
        """Whether it holds a piece."""
        return self.bytes[slot * HEAD.size + HELD] > 0

    def slot_of(self, ident):
        """The first slot in use with this id."""
        return next((i for i in range(SLOTS) if self.used(i) and self.head(i).ident == ident), None)

    def free(self):
        return next((i for i in range(SLOTS) if not self.used(i)), None)

    def in_use(self):
        """The count over the slots."""
        return sum(map(self.used, range(SLOTS)))

    def entry(self, slot, number):
        """A piece's place in its slot and its length."""
        return struct.unpack_from("<HH", self.bytes, TABLES + slot * TABLE + number * ENTRY)

    def put_entry(self, slot, number, place, length):
        struct.pack_into("<HH", self.bytes, TABLES + slot * TABLE + number * ENTRY, place, length)

    def outside(self, slot, number):
        """Whether the piece's bytes end past the 65,535 of its slot."""
        return sum(self.entry(slot, number)) > SLOT

    def room_at(self, slot):
        return (self.neighbour * SLOTS + slot) * SLOT

    def held(self, room, slot, number):
        place, length = self.entry(slot, number)
        return bytes(room[self.room_at(slot) + place:][:length])

    def memory(self):
        """The remembered (id, second), the first finished first; a count above 16, which no call leaves, is read as 16."""
        count = min(self.bytes[COUNT], KEPT)
        return list(zip(struct.unpack_from(f"<{count}I", self.bytes, IDS), struct.unpack_from(f"<{count}Q", self.bytes, SECONDS)))

    def remember(self, finished, count=None):
        """Another memory, and at will with a count that is not its length; what stands behind it stays."""
        struct.pack_into(f"<{len(finished)}I", self.bytes, IDS, *(ident for ident, _ in finished))
        struct.pack_into(f"<{len(finished)}Q", self.bytes, SECONDS, *(second for _, second in finished))
        self.bytes[COUNT] = len(finished) if count is None else count

    def full(self):
        """By the summary 4 are open; or no slot is free, though a summary that no call made says fewer."""
        return self.bytes[OPEN] >= SLOTS or self.free() is None

    def lower(self):
        self.bytes[OPEN] = max(0, self.bytes[OPEN] - 1)

    def sweep(self, second):
        """Old slots are free, and the summary says one less for each; what is due is forgotten and the others move down; all else stays."""
        for i in range(SLOTS):
            if self.head(i).old(second):
                self.put_head(i, Head())
                self.lower()
        self.remember([(ident, at) for ident, at in self.memory() if not second >= at + 30])


def same_label(head, piece):
    """Whether the held piece of this number came with the same head, or the same flag."""
    if piece.number == 0:
        return (head.kind, head.expires) == (piece.kind, piece.expires)
    return (head.last == piece.number) == piece.last


class Bytes:
    """A record and a room as a store with the calls of tests/reassembly_model.py, which go by the bytes alone.

    What a call leaves stands in `record`; to the room it writes `written` at the place `at`.
    """

    def __init__(self, record, room):
        self.record, self.room = record, room
        self.at, self.written = 0, b""

    def first(self, neighbour, ident, kind, expires, second, data, size):
        return self._called(neighbour, Piece(False, ident, 0, False, kind, expires, second, data), size)

    def follow_on(self, neighbour, ident, number, last, second, data, size):
        return self._called(neighbour, Piece(True, ident, number, last, 0, 0, second, data), size)

    def sweep(self, second):
        """A record that is too short for a store has none."""
        if len(self.record) >= RECORD:
            for share in shares(self.record):
                share.sweep(second)
                self.record = share.put_back(self.record)
        return 0

    def _called(self, neighbour, piece, size):
        if len(self.record) < RECORD or len(self.room) < ROOM:
            return 59, None
        if neighbour >= NEIGHBOURS:
            return 58, None
        if not 1 <= len(piece.data) <= 1500:
            return 50, None
        if piece.follow_on and not 1 <= piece.number <= 127:
            return 51, None
        share = Share(self.record, neighbour)
        slot = share.slot_of(piece.ident)
        return self._opened(share, piece) if slot is None else self._added(share, slot, piece, size)

    def _opened(self, share, piece):
        """A piece of a message that is not open."""
        if any(ident == piece.ident for ident, _ in share.memory()):
            return 57, None
        if share.full():
            return 52, None
        slot = share.free()
        share.bytes[TABLES + slot * TABLE:TABLES + (slot + 1) * TABLE] = bytes(TABLE)
        share.bytes[OPEN] += 1
        return self._kept(share, slot, piece, Head(ident=piece.ident, opened=piece.second))

    def _added(self, share, slot, piece, size):
        """A piece of an open message."""
        head = share.head(slot)
        if share.entry(slot, piece.number)[1]:
            return self._compared(share, slot, head, piece), None
        if not head.fits(piece):
            return 55, None
        if head.total + len(piece.data) > MESSAGE:
            return 53, None
        if head.grown(piece).complete():
            return self._finished(share, slot, piece, head.grown(piece), size)
        return self._kept(share, slot, piece, head)

    def _compared(self, share, slot, head, piece):
        """The piece's number is held."""
        if share.outside(slot, piece.number):
            return 59
        return 54 if same_label(head, piece) and share.held(self.room, slot, piece.number) == piece.data else 55

    def _kept(self, share, slot, piece, head):
        """The piece stands after what its slot held."""
        share.put_entry(slot, piece.number, head.total, len(piece.data))
        share.put_head(slot, head.grown(piece))
        self.record = share.put_back(self.record)
        self.at, self.written = share.room_at(slot) + head.total, piece.data
        return 0, None

    def _finished(self, share, slot, piece, head, size):
        """The piece completes its message: 59, 56, or it comes out, its slot is free, the summary says one less, and it is remembered."""
        if any(k != piece.number and share.outside(slot, k) for k in range(head.last + 1)):
            return 59, None
        whole = b"".join(piece.data if k == piece.number else share.held(self.room, slot, k) for k in range(head.last + 1))
        if len(whole) > size:
            return 56, None
        share.put_head(slot, Head())
        share.lower()
        share.remember((share.memory() + [(piece.ident, piece.second)])[-KEPT:])
        self.record = share.put_back(self.record)
        return 60, (head.kind, head.expires, whole)


def shares(record):
    return [Share(record, neighbour) for neighbour in range(NEIGHBOURS)]
