"""Document 01's twelve marked cases as calls: what the library says, beside the numbers of the document itself."""
from lent import Lent, numbers
from stores import RECORD, ROOM


class Cases:
    def __init__(self, calls, judge):
        self.calls, self.judge = calls, judge

    def read(self, text):
        """(number, value, the twelve numbers)"""
        payload, out = Lent(bytes.fromhex(text)), Lent(bytes(96))
        got = self.calls.block_read(*payload.slice(), 0, out.address)
        return got.number, got.value, [int.from_bytes(out.content()[i:i + 8], "little") for i in range(0, 96, 8)]

    def says(self, name, got, wanted):
        self.judge.compare(got, wanted, True, f"case {name}")

    def refused(self, name, text, number, place=0):
        """Reading the block at 0, and listing the payload."""
        payload, room = Lent(bytes.fromhex(text)), Lent(bytes(160))
        listed = self.calls.block_list(*payload.slice(), room.address, 10)
        self.says(name + " listed", (listed.number, listed.value, room.stays()), (number, place, True))

    def tracker(self, told):
        record = Lent(bytes(259))
        return record, [self.calls.tracker_register(*record.slice(), n) for n in told]

    def report(self, name, told, wanted):
        """wanted: through, count, pairs."""
        record, answers = self.tracker(told)
        out, pairs = Lent(bytes(24)), Lent(bytes(254))
        got = self.calls.tracker_report(*record.slice(), out.address, pairs.address)
        through, count, named = wanted
        good = answers == [0] * len(told) and got == 0 and out.start_is(numbers([through, count, len(named)])) and pairs.start_is(bytes(named))
        self.says(name, good, True)


def blocks(c):
    number, value, out = c.read("00 0000 00000007")
    c.says("a", (number, value, out[0], out[4]), (0, 7, 0, 7))
    c.refused("b", "0C 0006 0000000A 02 01", 1, 8)
    number, value, out = c.read("0C 0007 0000000A 02 01 03")
    c.says("c", (number, value, out[2:6]), (0, 10, [8, 2, 10, 2]))
    c.says("d", c.read("0D 0007 1F90")[:2], (8, 0))
    number, value, out = c.read("0D 0006 1F90 0A000001")
    c.says("e", (number, value, out[2:5]), (0, 9, [5, 4, 8080]))
    c.says("f", c.read("04 0009 0B 00000001 00000002")[:2], (4, 0))
    c.says("g", c.read("04 000A 0B 00000001 00000002")[:2], (5, 0))
    for name, text, number in (("d", "0D 0007 1F90", 8), ("f", "04 0009 0B 00000001 00000002", 4), ("g", "04 000A 0B 00000001 00000002", 5)):
        c.refused(name, text, number)


def expansion(c):
    """Case (c): the numbers that its block names."""
    pairs, room = Lent(bytes([1, 3])), Lent(bytes(32))
    got = c.calls.ack_expand(10, 2, *pairs.slice(), room.address, 8)
    named = [int.from_bytes(room.content()[i:i + 4], "little") for i in range(0, 24, 4)]
    c.says("c expanded", (got.number, got.count, named), (0, 6, [10, 9, 8, 6, 5, 4]))


def acks(c):
    c.report("h", [5], (5, 0, [4, 1]))
    c.report("i", [4, 2], (4, 0, [1, 1, 1, 1]))
    c.says("j", c.tracker([256])[1], [40])
    c.report("k", [255], (255, 0, [254, 0]))


def pieces(c):
    """Case (l): pieces 0, 2 last, 5, 1, of neighbour 2."""
    record, room, out = Lent(bytes(RECORD)), Lent(bytes(ROOM)), Lent(bytes(9))
    kept, said = (*record.slice(), *room.slice(), *out.slice()), []
    data = {n: Lent(text) for n, text in ((0, b"abc"), (1, b"def"), (2, b"ghi"), (5, b"jkl"))}
    said.append(c.calls.store_first(*kept, 2, 77, 20, 900, 0, *data[0].slice()).number)
    for number, last in ((2, 1), (5, 0), (1, 0)):
        said.append(c.calls.store_follow_on(*kept, 2, 77, number, last, 0, *data[number].slice()).number)
    c.says("l", (said, out.content()), ([0, 0, 55, 60], b"abcdefghi"))


def run(calls, judge, rng, whole):
    c = Cases(calls, judge)
    expansion(c)
    acks(c)
    pieces(c)
    blocks(c)
