"""Document 02's sender's list (P6), written from its text and its readings and from nothing else: the list, and beside it the books of a history."""
import collections
import math

from acks_model import expand

MOST, LAST = 256, 4294967295

Packet = collections.namedtuple("Packet", "number second resends")


class Sender:
    """The packets outstanding, the oldest first, and the highest number given out: 0 and all up to it are given out."""

    def __init__(self, highest=0, packets=()):
        self.highest, self.packets = highest, list(packets)

    def numbers(self):
        return [packet.number for packet in self.packets]

    def _give_out(self, second, resends):
        self.highest += 1
        self.packets.append(Packet(self.highest, second, resends))
        return 0, self.highest

    def send(self, second):
        """(answer, the packet's number)"""
        if self.highest >= LAST:
            return 71, 0
        if len(self.packets) >= MOST:
            return 70, 0
        return self._give_out(second, 0)

    def resend(self, number, second):
        """(answer, the packet's new number)"""
        if number not in self.numbers():
            return 73, 0
        if self.highest >= LAST:
            return 71, 0
        old = self.packets.pop(self.numbers().index(number))
        return self._give_out(second, old.resends + 1)

    def ack(self, through, count, pairs):
        """(answer, the numbers settled, the oldest first)"""
        below, named = expand(through, count, pairs, math.inf)
        if below:
            return 44, []
        if any(n > self.highest for n in named):
            return 72, []
        named = set(named)
        settled = [n for n in self.numbers() if n in named]
        self.packets = [packet for packet in self.packets if packet.number not in named]
        return 0, settled


class Books:
    """The numbers given out, settled and given up, counted from a history of calls and no list.

    0 is given out and settled from the start; so is any other number that a history starts with, and those below it are not counted.
    """

    def __init__(self, start=0):
        self.given_out, self.settled, self.given_up = {start}, {start}, set()

    def outstanding(self):
        return self.given_out - self.settled - self.given_up

    def sent(self, number):
        self.given_out.add(number)

    def resent(self, old, number):
        self.given_up.add(old)
        self.given_out.add(number)

    def acked(self, through, count, pairs):
        """An ack that was answered 0: the numbers that it settles."""
        settled = self.outstanding() & set(expand(through, count, pairs, math.inf)[1])
        self.settled |= settled
        return settled

    def parted(self, outstanding):
        """Whether the numbers given out are those outstanding, settled and given up, each in exactly one of the three."""
        return sorted([*outstanding, *self.settled, *self.given_up]) == sorted(self.given_out)
