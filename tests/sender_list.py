"""Writes the list that sender_check replays: python3 tests/sender_list.py > crates/sender_check/stdin

Answers are those of tests/sender_model.py, for document 02's readings those of the document. Lines:

    new BYTES                                      a record of zeros, with these bytes in front
    send TIMES SECOND ANSWER NUMBER PACKETS        so many sends; the answer and the number are the last one's
    resend OLD SECOND ANSWER NUMBER PACKETS
    ack PAIRS SETTLED THROUGH COUNT ANSWER PACKETS SETTLED are the numbers settled, four bytes each

PACKETS are those outstanding after it, the oldest first, 16 bytes each: number, second, resends; or . where they are not looked at.
Bytes are hex digits, and numbers in them have their high byte first.
"""
import random
import struct

from sender_histories import READINGS, packets, replay, wander
from sender_model import LAST, Packet
from sender_record_model import HEAD, record_of, sender_in

LONG = 40  # a list of more packets is looked at only where a reading ends


class Sequence:
    def __init__(self, out):
        self.out = out
        self.forge(b"")

    def forge(self, content):
        """A record of these bytes, in the place of the one that was made last if no call came to it."""
        self.model = sender_in(content.ljust(HEAD, b"\0"))
        if self.out and self.out[-1].startswith("new"):
            self.out.pop()
        self.out.append(f"new {content.hex()}")

    def start(self, highest):
        self.forge(record_of(highest, []))

    def listed(self):
        return b"".join(struct.pack(">IQI", *packet) for packet in self.model.packets).hex()

    def line(self, *words):
        """A call and, where it is not long, the list after it, as the record has it."""
        self.model = sender_in(record_of(self.model.highest, self.model.packets))
        self.out.append(" ".join(map(str, words)) + " " + (self.listed() if len(self.model.packets) <= LONG else "."))

    def send(self, second):
        """Sends in a row that are taken, at one second, are told in one line."""
        answer, number = self.model.send(second)
        before = self.out[-1].split()
        again = before[0] == "send" and before[2:4] == [str(second), str(answer)] and answer == 0
        if again:
            self.out.pop()
        self.line("send", int(before[1]) + 1 if again else 1, second, answer, number)
        return answer, number

    def resend(self, old, second):
        answer, number = self.model.resend(old, second)
        self.line("resend", old, second, answer, number)
        return answer, number

    def ack(self, through, count, pairs):
        answer, settled = self.model.ack(through, count, pairs)
        self.line("ack", pairs.hex(), b"".join(n.to_bytes(4, "big") for n in settled).hex(), through, count, answer)
        return answer, settled

    def end(self):
        """The last call's list is looked at, however long it is."""
        self.out[-1] = self.out[-1].removesuffix(".") + (self.listed() if self.out[-1].endswith(".") else "")


def readings(out):
    for name, reading, answers, outstanding, _, _ in READINGS:
        sequence = Sequence(out)
        got = replay(sequence, reading)
        if got != list(map(int, answers.split())) or sequence.model.packets != packets(outstanding):
            raise SystemExit(f"reading {name}: the model answers {got}")
        sequence.end()


def histories(out, rng, count):
    """A few packets, then a few calls; some with the last number."""
    for i in range(count):
        sequence, held, second = Sequence(out), rng.randrange(7), rng.randrange(1000)
        if i % 5 == 4:
            sequence.start(LAST - held - rng.randrange(3))
        for _ in range(held):
            sequence.send(second)
        wander(sequence, rng, rng.randrange(1, 5), max(1, held - 1), 5)


def forged(out, rng, count):
    """Lists that no call made: numbers in any order, some twice, some never given out; a resend count that is full."""
    for _ in range(count):
        sequence = Sequence(out)
        rows = [Packet(rng.randrange(9), rng.randrange(99), rng.choice((0, 3, LAST))) for _ in range(rng.randrange(2, 6))]
        sequence.forge(record_of(7, rows))
        number = rng.choice(rows).number
        sequence.resend(number, 100)
        sequence.ack(rng.randrange(5, 9), rng.randrange(3), bytes((1, rng.randrange(3))))


def main():
    out, rng = [], random.Random(6)
    readings(out)
    histories(out, rng, 110)
    forged(out, rng, 12)
    print("\n".join(out))


if __name__ == "__main__":
    main()
