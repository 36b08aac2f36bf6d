"""Bytes that a call is lent: a page that cannot be touched on one side, guard bytes on the other, compared whole after the call."""
import collections
import ctypes
import itertools
import mmap
import struct

GUARD = bytes(range(0x51, 0x91))
PAGE = mmap.PAGESIZE
NOBODY = 0

LIBC = ctypes.CDLL(None, use_errno=True)
LIBC.mprotect.argtypes = (ctypes.c_void_p, ctypes.c_size_t, ctypes.c_int)
LIBC.memcmp.argtypes = (ctypes.c_void_p, ctypes.c_char_p, ctypes.c_size_t)


class Arena:
    """Pages between two that nobody may read or write: a call that steps over a slice's end is ended there."""

    free = collections.defaultdict(list)

    def __init__(self, room):
        self.room, self.map = room, mmap.mmap(-1, room + 2 * PAGE)
        base = ctypes.addressof(ctypes.c_char.from_buffer(self.map))
        self.start, self.end = base + PAGE, base + PAGE + room
        for page in (base, self.end):
            if LIBC.mprotect(page, PAGE, NOBODY):
                raise OSError(ctypes.get_errno(), "mprotect")

    @classmethod
    def of(cls, count):
        """One that holds count bytes, used again where one is free."""
        room = max(PAGE, 1 << (count - 1).bit_length())
        return cls.free[room].pop() if cls.free[room] else cls(room)


class Lent:
    turn = itertools.count()

    def __init__(self, content=b""):
        self.size, total = len(content), len(content) + len(GUARD)
        self.arena = Arena.of(total)
        ahead = next(Lent.turn) % 2
        self.skip = 0 if ahead else len(GUARD)
        self.base = self.arena.start if ahead else self.arena.end - total
        self.address = self.base + self.skip
        self.before = content + GUARD if ahead else GUARD + content
        ctypes.memmove(self.base, self.before, total)

    def __del__(self):
        Arena.free[self.arena.room].append(self.arena)

    def slice(self):
        return self.address, self.size

    def now(self):
        return ctypes.string_at(self.base, len(self.before))

    def keep(self):
        """What stands now is what has to stand after a call that may not write."""
        self.before = self.now()

    def content(self):
        return ctypes.string_at(self.address, self.size)

    def was(self):
        """The content that stood there when it was lent or kept."""
        return self.before[self.skip:self.skip + self.size]

    def start_is(self, written):
        """Whether these bytes stand at the start and all others, the guard bytes too, are as they were."""
        return ctypes.string_at(self.address, len(written)) == written and self.outside(len(written))

    def outside(self, count):
        """Whether all but the first count bytes are as they were."""
        now, end = self.now(), self.skip + count
        return now[:self.skip] == self.before[:self.skip] and now[end:] == self.before[end:]

    def stays(self):
        return LIBC.memcmp(self.base, self.before, len(self.before)) == 0

    def view(self):
        """The content that stood there, without a copy."""
        return memoryview(self.before)[self.skip:self.skip + self.size]

    def expect(self, written, at=0):
        """These bytes have to stand from a place on, and all else as before."""
        before, at = memoryview(self.before), self.skip + at
        self.before = b"".join((before[:at], written, before[at + len(written):]))


def numbers(values, width="Q"):
    """Numbers as the machine keeps them."""
    return struct.pack(f"={len(values)}{width}", *values)
