"""Records that no call made: a call returns, answers a number of 01's and 02's, leaves all bytes at a refusal, and writes none that it was not lent.

Answers, record, room and assembly buffer are what the record's own bytes say (tests/record_model.py), whatever stands in them: 59 exactly where
a call would read bytes outside their slot, 57 exactly where no slot is in use with an id that is remembered, 52 where the summary says 4 or
more or no slot is free; a summary is raised, lowered and never counted anew.
"""
import collections
import itertools

from acks import TOP, TRACKER
from blocks_model import LISTED
from deliveries import Deliveries, fragment
from lent import Lent
from reassembly import mixtures
from record_model import COUNT, IDS, KEPT, OPEN, RECORD, SHARE, SLOTS, Head, Share, shares
from stores import ALL, LATEST, MESSAGE

CAME = collections.Counter()  # what calls on forged records met


def some_tracker(rng):
    """Random bytes, the same byte everywhere, no mark with any highest number; one byte of it changed."""
    fill = rng.choice((rng.randbytes(TRACKER), b"\xff" * TRACKER, bytes([rng.randrange(256)]) * TRACKER, bytes(255) + rng.randbytes(4)))
    at = rng.randrange(TRACKER)
    return fill[:at] + rng.randbytes(1) + fill[at + 1:] + bytes(rng.randrange(3))


def asked(calls, rng, record, number):
    """The three calls that only ask: whether their numbers are 01's and all bytes stand."""
    out, pairs, room = Lent(rng.randbytes(24)), Lent(rng.randbytes(254)), Lent(rng.randbytes(rng.choice((0, 8, 100, 262))))
    good = calls.tracker_duplicate(*record.slice(), number) in (0, 1)
    report = calls.tracker_report(*record.slice(), out.address, pairs.address)
    stands = out.stays() and pairs.stays() if report else out.outside(24) and pairs.outside(254)
    block = calls.tracker_ack_block(*record.slice(), *room.slice())
    stands = stands and (room.stays() if block.number else room.outside(block.value)) and block.value <= room.size
    return good and report in (0, 41) and block.number in (0, 30, 41), stands and record.stays()


def trackers(calls, judge, rng, count):
    for _ in range(count):
        content, number = some_tracker(rng), rng.choice((0, 255, TOP, rng.getrandbits(32), rng.getrandbits(9)))
        record = Lent(content)
        good, stands = asked(calls, rng, record, number)
        judge.compare(good, True, stands, "questions to a forged tracker", content, number)
        registered = calls.tracker_register(*record.slice(), number)
        stands = record.stays() if registered else record.outside(TRACKER)
        judge.compare(registered in (0, 40, 42, 43), True, stands, "tracker_register on a forged tracker", content, number)


def any_memory(rng, share):
    """Any memory: open messages' ids and others, some of them twice, any seconds; a count that is small, whole or above 16."""
    idents = [share.head(i).ident for i in range(SLOTS)] + [rng.getrandbits(32) for _ in range(10)]
    seconds = 0, 1, LATEST, LATEST - 29, rng.getrandbits(10), rng.getrandbits(64)
    share.remember([(rng.choice(idents), rng.choice(seconds)) for _ in range(KEPT)], rng.choice((0, 1, 2, 15, 16, 17, 128, 255)))


def any_summary(rng, share):
    """One that is right, one off, none, 4 or above."""
    used = share.in_use()
    share.bytes[OPEN] = rng.choice((used, used + 1, max(0, used - 1), 0, 3, 4, 5, 255))


def some_free(rng, share):
    """Some of the slots in use are free."""
    for i in rng.sample(range(SLOTS), rng.randrange(SLOTS)):
        share.put_head(i, Head())


def changed(rng, record, *ways):
    """The record with each neighbour's share changed in these ways."""
    for share in shares(record):
        for way in ways:
            way(rng, share)
        record = share.put_back(record)
    return record


def some_record(rng, real):
    """Random bytes, all ones, or a store with open messages of which some bytes were changed, or which has any memory, or any summary."""
    at, n = rng.randrange(RECORD), rng.choice((1, 4, 24, 400))
    hurt = (real[:at] + rng.randbytes(n) + real[at + n:])[:RECORD]
    whole = rng.choice((real, hurt))
    forged = changed(rng, whole, some_free, any_summary), changed(rng, whole, some_free, any_memory, any_summary)
    return rng.choice((rng.randbytes(RECORD), b"\xff" * RECORD, hurt, *forged))


def some_ident(rng, share):
    """An id; likely one that stands somewhere in the share."""
    at = rng.choice((24 * rng.randrange(SLOTS), IDS + 4 * rng.randrange(KEPT), rng.randrange(SHARE - 4)))
    return int.from_bytes(share.bytes[at:at + 4], "little") if rng.random() < 0.8 else rng.getrandbits(32)


def edge(rng):
    """A piece's place and length: anywhere inside its slot, up to the slot's end, or past it."""
    n = rng.choice((1, 20, 1500, rng.randrange(1, 65536)))
    return rng.choice(((rng.randrange(65536 - n), n), (65535 - n, n), (65536 - n, n), (65535, n), (rng.getrandbits(16), n)))


def lacking_one(rng):
    """A share whose one open message lacks one piece; up to two of its pieces stand at an edge; any memory and summary.

    With the message's id, that number, the last, and a held one.
    """
    share, slot, ident, last = Share(bytes(RECORD), rng.choice(ALL)), rng.randrange(SLOTS), rng.getrandbits(32), rng.choice((1, 2, 5, 127))
    number = rng.choice((0, last, rng.randrange(last + 1)))
    held = [k for k in range(last + 1) if k != number]
    known = 0 if number == last else last
    share.put_head(slot, Head(ident, rng.getrandbits(64), 7, rng.choice((0, 64035, 65535)), last, known, max(held), 20))
    edges = rng.sample(held, min(len(held), rng.randrange(3)))
    for k in held:
        share.put_entry(slot, k, *(edge(rng) if k in edges else (rng.randrange(64000), 40)))
    any_memory(rng, share)
    any_summary(rng, share)
    return share, ident, number, last, rng.choice(edges or held)


def met(share, ident, number, answer):
    """Counts what a call met in the share as it was."""
    slot = share.slot_of(ident)
    if any(i == ident for i, _ in share.memory()):
        CAME["remembered", "late" if slot is None else "open"] += 1
    if slot is not None and number < 128 and answer in (54, 55, 56, 59, 60):
        held = share.entry(slot, number)[1] > 0
        CAME["held" if held else "joined", answer == 59] += held or answer != 55
        CAME["held again"] += answer == 54
        CAME["finished with a summary of 0"] += answer == 60 and share.bytes[OPEN] == 0
    if slot is None:
        CAME["52 by the summary alone"] += answer == 52 and share.free() is not None
        CAME["opened under a wrong summary"] += answer == 0 and share.bytes[OPEN] != share.in_use()


def piece(pair, neighbour, ident, number=None, last=None, data=None):
    """A first or a follow-on piece."""
    rng, share = pair.rng, Share(pair.record.was(), neighbour)
    first = rng.random() < 0.5 if number is None else number == 0
    data = rng.randbytes(rng.choice((0, 1, 20, 1500, 1501))) if data is None else data
    a, b = rng.randrange(256) if number is None else number, rng.randrange(2) if last is None else last
    call, second, size = pair.first if first else pair.follow_on, rng.getrandbits(64), rng.choice((0, 100, MESSAGE))
    answer = call(neighbour, ident, *((20, 7) if first and number is not None else (a, b)), second, data, size)
    met(share, ident, 0 if first else a, answer)


def delivery(pair, neighbour, ident):
    """A fragment as a block."""
    rng, share = pair.rng, Share(pair.record.was(), neighbour)
    parts = [rng.randbytes(rng.choice((1, 20, 1501))) for _ in range(rng.randrange(2, 129))]
    i = rng.choice((0, rng.randrange(len(parts))))
    payload = fragment(ident, ((rng.choice(sorted(LISTED)), 7), parts), i)
    answer = pair.deliver(neighbour, payload, 0, rng.getrandbits(64), rng.choice((0, 100, MESSAGE)))
    met(share, ident, i, answer)


def sweep(pair, second):
    for share in shares(pair.record.was()):
        old = sum(share.head(i).old(second) for i in range(SLOTS))
        CAME["swept more than the summary says"] += old > share.bytes[OPEN]
        CAME["forgotten from a count above 16"] += share.bytes[COUNT] > KEPT
    pair.sweep(second)


def enough(judge, least, *cases):
    for case in cases:
        judge.compare(CAME[case] > least, True, True, f"calls on forged records, {case}: {CAME[case]}")


def stores(pair, count):
    rng, real = pair.rng, pair.record.content()[:RECORD]
    CAME.clear()
    for _ in range(count):
        pair.forge(some_record(rng, real))
        for _ in range(3):
            for call in (piece, delivery):
                n = rng.choice(ALL)
                call(pair, n, some_ident(rng, Share(pair.record.was(), n)))
        sweep(pair, rng.choice((0, 30, 31, LATEST, rng.getrandbits(10), rng.getrandbits(64))))
    enough(pair.judge, count // 4, ("remembered", "late"), ("remembered", "open"), "forgotten from a count above 16")
    enough(pair.judge, 0, "52 by the summary alone", "opened under a wrong summary", "swept more than the summary says")


def with_open(rng, used, summary):
    """A share in which so many slots are in use, each with the first of two pieces, under the ids 0, 1 and so on; the summary says what it will."""
    share = Share(bytes(RECORD), rng.choice(ALL))
    for ident, slot in enumerate(rng.sample(range(SLOTS), used)):
        share.put_head(slot, Head(ident, 0, 7, 9, 1, 0, 0, 20))
        share.put_entry(slot, 0, 0, 9)
    share.bytes[OPEN] = summary
    return share


def summaries(pair):
    """Every summary beside every count of open messages: a piece that would open one more, a piece that finishes one, a sweep that drops them all."""
    judge = pair.judge
    for used, summary in itertools.product(range(SLOTS + 1), (0, 1, 2, 3, 4, 5, 128, 254, 255)):
        share = with_open(pair.rng, used, summary)
        n, content = share.neighbour, share.put_back(bytes(RECORD))
        pair.forge(content)
        said = pair.first(n, 99, 20, 7, 40, b"new"), Share(pair.record.content(), n).bytes[OPEN]
        full = summary >= 4 or used == SLOTS
        judge.compare(said, (52, summary) if full else (0, summary + 1), True, "a new message under a forged summary", used, summary)
        pair.forge(content)
        said = pair.follow_on(n, 0, 1, 1, 40, b"end"), Share(pair.record.content(), n).bytes[OPEN]
        judge.compare(used and said, used and (60, max(0, summary - 1)), True, "a message finished under a forged summary", used, summary)
        pair.forge(content)
        said = pair.sweep(30), Share(pair.record.content(), n).bytes[OPEN]
        judge.compare(said, (0, max(0, summary - used)), True, "a sweep under a forged summary", used, summary)


def nearly_whole(pair, count):
    """The piece that a message lacks, and one that it holds, at times exactly: both halves of what a call reads, inside and outside."""
    rng = pair.rng
    CAME.clear()
    for _ in range(count):
        share, ident, number, last, held = lacking_one(rng)
        content, n = share.put_back(bytes(RECORD)), share.neighbour
        again = share.held(pair.room.view(), share.slot_of(ident), held)
        for k in (held, number):
            pair.forge(content)
            piece(pair, n, ident, k, int(k == last), again if k == held and rng.random() < 0.5 else None)
    enough(pair.judge, count // 20, *itertools.product(("held", "joined"), (False, True)), "held again")
    enough(pair.judge, 0, "finished with a summary of 0")


def run(calls, judge, rng, whole):
    trackers(calls, judge, rng, 50000 if whole else 3000)
    pair = Deliveries(calls, judge, rng)
    for one in mixtures(pair, 600, 4):
        for _ in zip(range(140), one):
            pass
    stores(pair, 4000 if whole else 120)
    summaries(pair)
    nearly_whole(pair, 20000 if whole else 1000)
