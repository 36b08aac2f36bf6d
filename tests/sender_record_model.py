"""A sender's record in bytes, laid out as crates/sender/specs/Recorded.antt says: the sender that any bytes are, and the bytes of a sender."""
import struct

from sender_model import MOST, Packet, Sender

SENDER, HEAD, PACKET = 4104, 8, 16


def sender_in(content):
    """The sender that a record is, whoever wrote it; a count above 256, which no call leaves, is read as 256."""
    highest, count = struct.unpack_from("<II", content)
    rows = struct.iter_unpack("<IIQ", content[HEAD:HEAD + PACKET * min(count, MOST)])
    return Sender(highest, [Packet(number, second, resends) for number, resends, second in rows])


def record_of(highest, packets, count=None):
    """The bytes of a sender, at will with a count that is not how many packets it has. A resend count has four bytes and drops its carry."""
    head = struct.pack("<II", highest, len(packets) if count is None else count)
    return head + b"".join(struct.pack("<IIQ", p.number, p.resends % (1 << 32), p.second) for p in packets)
