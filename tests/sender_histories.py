"""Document 02's sender's list (P6): the inputs of its readings in their own notation, each with what it gives, and histories of any calls.

A sender here is anything that has start(highest), send(second), resend(number, second) and ack(through, count, pairs), and answers a number
and a value; its model is the one of tests/sender_model.py that was told the same calls.
"""
import re

from sender_model import LAST, Packet

LATEST = 2 ** 64 - 1

# send@10 x3 is sent three times at second 10; ack 4+1 (1,1) has through 4, count 1 and one pair, [0101] the same pair as bytes;
# from N: N is the highest given out and nothing is outstanding. Then the answers, and at the end what is outstanding (4@17+1: number 4,
# second 17, resent once), settled and given up; 1..3 are numbers one after another
READINGS = [
    ("6.1", "send@10 x3; resend 2@17", "0 0 0 0", "1@10 3@10 4@17+1", "0", "2"),
    ("6.2", f"from {LAST - 256}; send x256; send; resend {LAST - 255}; resend {LAST - 256}; resend 0; ack {LAST}+0; resend {LAST - 1}; send",
     "0 " * 256 + "71 71 73 73 0 71 71", f"{LAST - 255}..{LAST - 1}", f"{LAST - 256} {LAST}", ""),
    ("6.2, nothing outstanding", f"from {LAST}; send; resend {LAST}; ack {LAST}+0; ack {LAST}+255", "71 73 0 0", "", f"{LAST}", ""),
    ("6.3", "send x3; ack 4+3; ack 4+0 (1,1)", "0 0 0 72 72", "1..3", "0", ""),
    ("6.4", "send x3; ack 4+5", "0 0 0 44", "1..3", "0", ""),
    ("6.5", "send x3; resend 2; ack 3+2", "0 0 0 0 0", "4+1", "0 1 3", "2"),
    ("6.5, resent again", "send x3; resend 2; resend 4; ack 4+2; resend 2; resend 4; ack 5+0", "0 0 0 0 0 0 73 73 0", "1", "0 3 5", "2 4"),
    ("6.6", "ack 0+0; resend 0", "0 73", "", "0", ""),
    ("6.7", "send x3; ack 3+0 [010101]", "0 0 0 0", "2", "0 1 3", ""),
    ("6.7, far too low but for the last byte", "send x3; ack 3+0 [0101FF]; ack 3+0 [0101FF00]", "0 0 0 0 44", "2", "0 1 3", ""),
    ("6.8", "send x3; ack 0+0", "0 0 0 0", "1..3", "0", ""),
    ("6.9", "send x256; send; resend 256; send; resend 256; ack 1+0; send; send", "0 " * 256 + "70 0 70 73 0 0 70", "2..255 257+1 258", "0 1", "256"),
    ("6.11", "send; send; resend 1; ack 2+0", "0 0 0 0", "3+1", "0 2", "1"),
    ("6.12, as numbers", "send x2; ack 2+2; ack 1+1; ack 1+1", "0 0 0 0 0", "", "0..2", ""),
]


def ranged(text):
    """The numbers of 1..3 5."""
    ends = (word.partition("..") for word in text.split())
    return [n for first, _, last in ends for n in range(int(first), int(last or first) + 1)]


def packets(text):
    """The packets of 1..2 4@17+1."""
    words = (re.fullmatch(r"([\d.]+?)(?:@(\d+))?(?:\+(\d+))?", word).groups() for word in text.split())
    return [Packet(n, int(second or 0), int(resends or 0)) for numbers, second, resends in words for n in ranged(numbers)]


def replay(sender, reading):
    """The answers to a reading's steps."""
    answers = []
    for step in reading.split("; "):
        pattern = r"(?:(from|resend) (\d+)|send|ack (\d+)\+(\d+)(?: \((.*)\)| \[(.*)\])?)(?:@(\d+))?(?: x(\d+))?"
        what, number, through, count, pairs, raw, second, times = re.fullmatch(pattern, step).groups()
        for _ in range(int(times or 1)):
            if what == "from":
                sender.start(int(number))
            elif what:
                answers.append(sender.resend(int(number), int(second or 0))[0])
            elif through:
                given = bytes.fromhex(raw) if raw else bytes(map(int, pairs.split(","))) if pairs else b""
                answers.append(sender.ack(int(through), int(count), given)[0])
            else:
                answers.append(sender.send(int(second or 0))[0])
    return answers


def some_number(rng, model):
    """Mostly one outstanding; else one settled or given up, 0, or one never given out."""
    if model.packets and rng.random() < 0.75:
        return rng.choice(model.packets).number
    return rng.choice((0, model.highest, min(LAST, model.highest + 1), max(0, model.highest - rng.randrange(300)), LAST, rng.getrandbits(32)))


def some_ack(rng, model, longest):
    """Around what is outstanding: from one number to all; at times it goes below 0, or names what was never given out, or both."""
    top, low = model.highest, min([*model.numbers(), model.highest])
    through = rng.choice((top, top, top - rng.randrange(4), rng.choice(model.numbers() or [0]), rng.randrange(low, top + 1), top + 1, LAST, 0))
    through = max(0, min(LAST, through - rng.choice((0, 0, 0, 1))))
    biggest, most = rng.choice((1, 1, 2, 3, 9, 60, 255)), rng.choice((0, 1, 2, 3, 4, 7, 20, longest))
    count = rng.choice((0, 0, 1, 2, rng.randrange(biggest + 1), 255 if rng.random() < 0.1 else 0))
    pairs = bytes(rng.randrange(biggest + 1) for _ in range(min(most, longest)))
    below, fits = count + sum(pairs[:len(pairs) // 2 * 2]), rng.random()
    if fits < 0.1:
        return max(0, min(LAST, below + rng.choice((-1, 0, 1)))), count, pairs
    while fits < 0.85 and pairs and count + sum(pairs) > through:
        pairs = pairs[:-1]
    return through, min(count, through) if fits < 0.85 else count, pairs


def wander(sender, rng, steps, most, longest=300):
    """Any calls, with up to so many packets outstanding and pairs of up to so many bytes: it sends until there are most, then other calls take over."""
    second, filling = rng.choice((0, 1000, LATEST - 40)), True
    for _ in range(steps):
        second = min(LATEST, max(0, second + rng.choice((0, 0, 1, 1, 5, -3))))
        held, roll = len(sender.model.packets), rng.random()
        filling = held < most // 4 + 1 or filling and held < most
        if roll < (0.9 if filling else 0.25):
            sender.send(second)
        elif roll < (1 - 1 / most if filling else 0.75):
            sender.resend(some_number(rng, sender.model), second)
        else:
            sender.ack(*some_ack(rng, sender.model, longest))
