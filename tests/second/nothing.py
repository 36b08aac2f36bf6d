"""Slices of no bytes: with a count of 0 the pointer may be anything."""
from lent import Lent, numbers
from sender_model import MOST
from sender_record_model import SENDER
from stores import RECORD, ROOM

ANYTHING = (0, 1, 3, 4096, (1 << 47) - 1, (1 << 64) - 1)


class Nothing:
    def __init__(self, calls, judge, pointer):
        self.calls, self.judge, self.none = calls, judge, (pointer, 0)
        self.lent = {size: Lent(bytes(size)) for size in (11 * 8, 12 * 8, 259, 254, 24, SENDER, 4 * MOST, RECORD, ROOM, 48)}

    def at(self, size):
        return self.lent[size].slice()

    def says(self, call, got, wanted):
        """The call writes nothing: every lent byte stays."""
        answer = (got.number, got.value) if hasattr(got, "value") else got.number if hasattr(got, "number") else got
        self.judge.compare(answer, wanted, all(lent.stays() for lent in self.lent.values()), f"{call} with no bytes at", self.none[0])

    def headers(self):
        keys = [Lent(bytes(32)) for _ in range(2)]
        places = [key.address for key in keys]
        self.says("header_read", self.calls.header_read(*self.none, *places, self.lent[88].address), 20)
        self.says("header_write", self.calls.header_write(*self.none, *places, 6, 1, 1, 1, 1, 1, 1, 1, 1, 1), 20)

    def blocks(self):
        fields = Lent(numbers([11] + [0] * 7))
        for at in (0, 5, (1 << 64) - 1):
            self.says("block_read", self.calls.block_read(*self.none, at, self.lent[96].address), (1, at))
        self.says("block_write", self.calls.block_write(*self.none, 15, fields.address, *self.none), (30, 0))
        self.says("block_write", self.calls.block_write(*self.none, 4, fields.address, *self.none), (32, 0))
        self.says("block_list", self.calls.block_list(*self.none, *self.none), (1, 0))
        payload = Lent(b"\x0f\0\0")
        self.says("block_list", self.calls.block_list(*payload.slice(), *self.none), (10, 0))
        room = Lent(b"abcdef")
        got = self.calls.block_write(*room.slice(), 254, fields.address, *self.none)
        self.judge.compare((got.number, got.value), (0, 3), room.start_is(b"\xfe\0\0"), "block_write of no bytes at", self.none[0])

    def trackers(self):
        none, out, pairs = self.none, self.lent[24].address, self.lent[254].address
        self.says("tracker_new", self.calls.tracker_new(*none), 59)
        self.says("tracker_register", self.calls.tracker_register(*none, 1), 59)
        self.says("tracker_duplicate", self.calls.tracker_duplicate(*none, 1), 59)
        self.says("tracker_report", self.calls.tracker_report(*none, out, pairs), 59)
        self.says("tracker_ack_block", self.calls.tracker_ack_block(*none, *none), (59, 0))
        self.says("tracker_ack_block", self.calls.tracker_ack_block(*self.at(259), *none), (41, 0))
        self.says("ack_expand", self.calls.ack_expand(1, 1, *none, *none), 46)
        self.says("ack_expand", self.calls.ack_expand(1, 2, *none, *none), 44)

    def senders(self):
        none, record, settled, out = self.none, self.at(SENDER), self.lent[4 * MOST].address, self.lent[24].address
        self.says("sender_new", self.calls.sender_new(*none), 59)
        self.says("sender_send", self.calls.sender_send(*none, 1), (59, 0))
        self.says("sender_resend", self.calls.sender_resend(*none, 1, 1), (59, 0))
        self.says("sender_outstanding", self.calls.sender_outstanding(*none, 0, out), (59, 0))
        self.says("sender_ack", self.calls.sender_ack(*none, 0, 0, *none, settled), (59, 0))
        self.says("sender_ack", self.calls.sender_ack(*record, 0, 0, *none, settled), (0, 0))
        self.says("sender_ack", self.calls.sender_ack(*record, 0, 1, *none, settled), (44, 0))
        self.says("sender_ack", self.calls.sender_ack(*record, 1, 1, *none, settled), (72, 0))

    def stores(self):
        none, record, room, piece = self.none, self.at(RECORD), self.at(ROOM), Lent(b"abc").slice()
        self.says("store_new", self.calls.store_new(*none), 59)
        self.says("store_sweep", self.calls.store_sweep(*none, 99), 0)
        self.says("store_first", self.calls.store_first(*none, *none, *none, 1, 1, 1, 1, 1, *piece), 59)
        self.says("store_first", self.calls.store_first(*record, *none, *none, 4, 1, 1, 1, 1, *none), 59)
        self.says("store_follow_on", self.calls.store_follow_on(*none, *room, *none, 1, 1, 1, 1, 1, *piece), 59)
        self.says("store_first", self.calls.store_first(*record, *room, *none, 4, 1, 1, 1, 1, *none), 58)
        self.says("store_follow_on", self.calls.store_follow_on(*record, *room, *none, 4, 1, 1, 1, 1, *none), 58)
        self.says("store_first", self.calls.store_first(*record, *room, *none, 3, 1, 1, 1, 1, *none), 50)
        self.says("store_follow_on", self.calls.store_follow_on(*record, *room, *none, 3, 1, 1, 1, 1, *none), 50)

    def deliveries(self):
        none, told = self.none, self.lent[48].address
        self.says("block_deliver", self.calls.block_deliver(*none, 0, *none, *none, *none, 4, 1, told), (1, 0))
        fragment = Lent(b"\x05\0\x06\x02\0\0\0\1x")
        self.says("block_deliver", self.calls.block_deliver(*fragment.slice(), 0, *none, *none, *none, 4, 1, told), (59, 0))
        self.says("block_deliver", self.calls.block_deliver(*fragment.slice(), 0, *self.at(RECORD), *self.at(ROOM), *none, 4, 1, told), (58, 0))


def run(calls, judge, rng, whole):
    for pointer in ANYTHING:
        n = Nothing(calls, judge, pointer)
        n.headers()
        n.trackers()
        n.senders()
        n.stores()
        n.blocks()
        n.deliveries()
