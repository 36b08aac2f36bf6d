#!/usr/bin/env python3
"""Holds the library, over its C calls, to an independent second program of documents 01 and 02: tests/*_model.py.

usage: tests/second/run.py [-l] [-s SEED] [-r ROUNDS] [PART ...]
  -l    the long round: every type, every length, longer sequences; without it about 30 seconds
  -s    the seed, 8439 if none is given; -r so many rounds, each with the next seed
  PART  cases, nothing, headers, blocks, acks, senders, channel, reassembly, repeats, neighbours, deliveries, sessions, forged, lister; all if
        none is named
"""
import argparse
import faulthandler
import importlib
import os
import pathlib
import random
import sys
import time

sys.path.insert(0, str(pathlib.Path(__file__).resolve().parents[1]))

from calls import Calls
from judge import Judge

PARTS = ("cases", "nothing", "headers", "blocks", "acks", "senders", "channel",
         "reassembly", "repeats", "neighbours", "deliveries", "sessions", "forged", "lister")

# what each call has to have answered in a whole round, or the round tried too little
ANSWERS = {
    "header_read": {0, 20, 21, 22, 23, 24}, "header_write": {0, 20, 21, 22, 24, 25},
    "block_read": set(range(10)), "block_write": {0, 30, 31, 32}, "block_list": set(range(11)),
    "tracker_register": {0, 40, 42, 43}, "tracker_duplicate": {0, 1}, "tracker_report": {0, 41}, "tracker_ack_block": {0, 30, 41},
    "ack_expand": {0, 44, 46}, "sender_send": {0, 70, 71}, "sender_resend": {0, 71, 73}, "sender_ack": {0, 44, 72},
    "store_first": {0, *range(50, 61)} - {51}, "store_follow_on": {0, *range(50, 61)}, "block_deliver": {*range(10), *range(50, 61)},
}


def asked():
    words = argparse.ArgumentParser(usage=__doc__.split("usage: ")[1])
    words.add_argument("-l", action="store_true")
    words.add_argument("-s", type=int, default=8439)
    words.add_argument("-r", type=int, default=1)
    words.add_argument("parts", nargs="*", metavar="PART")
    given = words.parse_args()
    for part in given.parts:
        if part not in PARTS:
            words.error(f"no part is called {part}")
    return given


def rounds(given, calls, judge):
    for seed in range(given.s, given.s + given.r):
        for part in given.parts or PARTS:
            before, start = judge.compared, time.monotonic()
            judge.doing = f"{'-l ' if given.l else ''}-s {seed} {part}"
            importlib.import_module(part).run(calls, judge, random.Random(f"{part} {seed}"), given.l)
            print(f"{judge.doing}: {judge.compared - before} comparisons in {time.monotonic() - start:.1f} s", flush=True)
    if not given.parts:
        for call, numbers in ANSWERS.items():
            judge.compare(sorted(judge.answers[call]), sorted(numbers), True, f"answers tried of {call}")


def compared(given):
    judge = Judge()
    rounds(given, Calls(), judge)
    print(f"second program: {judge.compared} comparisons, {judge.different} differences", flush=True)
    return judge.different > 0


def main():
    """The rounds run in a process of their own, so that a call that ends it is seen and said."""
    given, child = asked(), os.fork()
    if child == 0:
        faulthandler.enable()
        sys.exit(compared(given))
    status = os.waitstatus_to_exitcode(os.waitpid(child, 0)[1])
    if status < 0:
        print(f"second program: a call ended the process with signal {-status}; the part that was not finished repeats it")
    sys.exit(status != 0)


if __name__ == "__main__":
    main()
