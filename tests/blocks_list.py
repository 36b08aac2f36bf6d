#!/usr/bin/env python3
"""Makes crates/blocks_check/stdin and stdout: live payloads, and short and damaged ones, with what the model says of them.

usage: tests/blocks_list.py PAYLOADS FOLDER    PAYLOADS has a payload a line, in hexadecimal; stdin and stdout are written to FOLDER
"""
import collections
import random
import sys

from blocks_model import LISTED, listing, written_again

ENOUGH = 500


def block(kind, body, size=None):
    return bytes([kind]) + (len(body) if size is None else size).to_bytes(2, "big") + body


def some(count):
    return bytes(random.randrange(256) for _ in range(count))


def marked():
    """01's cases about blocks, the lister's example, and the empty payload."""
    for text in ["00000000000007", "0c00060000000a0201", "0c00070000000a020103", "0d00071f90", "0d00061f900a000001",
                 "0400090b0000000100000002", "04000a0b0000000100000002", "0000046553F10015000101FE00020000", ""]:
        yield bytes.fromhex(text), ENOUGH


def by_type():
    """Every kind of type with sizes around its own, alone and behind another block, and cut at many lengths."""
    for kind in list(range(0, 24)) + [127, 253, 254, 255]:
        for size in (0, 1, 2, 3, 4, 5, 6, 7, 8, 9, 10, 12, 13, 18, 19):
            body = bytearray(some(20))
            if kind in (3, 4) and size % 2 == 0:
                body[0] = random.choice(sorted(LISTED))
            if size in (5, 9, 10):
                yield block(kind, bytes(body[:size]), size), ENOUGH
            if kind in (2, 3, 4, 5, 13):
                yield block(254, some(2)) + block(kind, bytes(body[:size]), size), ENOUGH
            if kind in (2, 3, 4, 5, 12, 13):
                yield block(15, b"") + block(kind, bytes(body), size), ENOUGH
        full = block(kind, bytes([11]) + some(17))
        for count in (1, 2, 3, 4, 7, 8, 11, 12, 14, 15, 20):
            yield full[:count], ENOUGH


def off_by_some():
    """Sizes that say more or less than the body."""
    for kind, exact in ((0, 4), (1, 12), (6, 9), (12, 5), (15, 0), (16, 4), (17, 12), (20, 4), (21, 1)):
        for size in (exact - 2, exact - 1, exact + 1, exact + 2):
            if size >= 0:
                yield block(kind, some(max(exact, size)), size), ENOUGH
                yield block(kind, some(exact), size), ENOUGH


def short_lists():
    """Lists with less room than blocks, with and without a bad block further on."""
    three = block(15, b"") + block(254, some(3)) + block(21, b"\1")
    for room in range(0, 5):
        yield three, room
        yield three + block(13, some(7)), room
        yield three * 4, room
    yield block(254, b"") * 400, 400
    yield block(254, b"") * 400, 399
    yield block(99, b"") * 500, 0


def damaged(good):
    small = [payload for payload in good if len(payload) < 200]
    for _ in range(160):
        payload = bytearray(random.choice(small))
        how = random.randrange(3)
        if how == 0:
            payload = payload[:random.randrange(len(payload))]
        elif how == 1:
            payload[random.randrange(len(payload))] = random.randrange(256)
        else:
            payload += some(random.randrange(1, 5))
        yield bytes(payload), ENOUGH


def said(cases):
    """What the check program has to print."""
    types, sizes, refused, places = (collections.Counter() for _ in range(4))
    same = other = 0
    for payload, room in cases:
        number, place, blocks = listing(payload, room)
        if number:
            refused[number] += 1
            places[number] += place
        for found in blocks:
            types[found[1]] += 1
            sizes[found[1]] += found[2]
            if written_again(found):
                same += 1
            else:
                other += 1
    lines = [f"type {kind}: {types[kind]}, sizes {sizes[kind]}" for kind in range(256) if types[kind]]
    lines += [f"refused {number}: {refused[number]}, places {places[number]}" for number in range(1, 11)]
    lines += [f"written again: {same}, with another size: {other}", f"{len(cases)} payloads"]
    return "".join(line + "\n" for line in lines)


def main():
    if len(sys.argv) != 3:
        sys.exit(__doc__)
    random.seed(8439)
    good = [bytes.fromhex(line.strip()) for line in open(sys.argv[1])]
    cases = [(payload, ENOUGH) for payload in good]
    for made in (marked(), by_type(), off_by_some(), short_lists(), damaged(good)):
        cases += list(made)
    with open(sys.argv[2] + "/stdin", "w") as out:
        out.writelines(f"{payload.hex()} {room}\n" for payload, room in cases)
    with open(sys.argv[2] + "/stdout", "w") as out:
        out.write(said(cases))
    print(f"{len(cases)} payloads, {len(good)} of them live")


if __name__ == "__main__":
    main()
