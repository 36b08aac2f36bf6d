"""The C calls of include/strawhub.h over ctypes."""
import ctypes
import pathlib
import subprocess

ROOT = pathlib.Path(__file__).resolve().parents[2]
ARCHIVE = ROOT / "target/native/libstrawhub.a"
SHARED = ROOT / "target/native/libstrawhub.so"

U8, U16, U32, U64, SIZE, AT = (ctypes.c_uint8, ctypes.c_uint16, ctypes.c_uint32, ctypes.c_uint64, ctypes.c_size_t, ctypes.c_void_p)


class Outcome(ctypes.Structure):
    _fields_ = [("number", U64), ("value", U64)]


class Entry(ctypes.Structure):
    _fields_ = [("place", SIZE), ("kind", U8), ("size", U16)]


class Expanded(ctypes.Structure):
    _fields_ = [("number", U32), ("count", SIZE)]


class Reply(ctypes.Structure):
    _fields_ = [("number", U8), ("kind", U8), ("expires", U32), ("length", SIZE)]


# a call's answer and arguments; a slice is an address and a count, an array an address
SLICE = (AT, SIZE)
DECLARED = {
    "keystream": (None, AT, U32, AT, AT),
    "header_read": (U32, *SLICE, AT, AT, AT),
    "header_write": (U32, *SLICE, AT, AT, U8, U64, U32, U8, U8, U64, U64, U8, U8, U8),
    "block_read": (Outcome, *SLICE, SIZE, AT),
    "block_write": (Outcome, *SLICE, U8, AT, *SLICE),
    "block_list": (Outcome, *SLICE, *SLICE),
    "tracker_new": (U32, *SLICE),
    "tracker_register": (U32, *SLICE, U32),
    "tracker_duplicate": (U32, *SLICE, U32),
    "tracker_report": (U32, *SLICE, AT, AT),
    "tracker_ack_block": (Outcome, *SLICE, *SLICE),
    "ack_expand": (Expanded, U32, U8, *SLICE, *SLICE),
    "sender_new": (U32, *SLICE),
    "sender_send": (Outcome, *SLICE, U64),
    "sender_resend": (Outcome, *SLICE, U32, U64),
    "sender_ack": (Outcome, *SLICE, U32, U8, *SLICE, AT),
    "sender_outstanding": (Outcome, *SLICE, SIZE, AT),
    "store_new": (U8, *SLICE),
    "store_first": (Reply, *SLICE, *SLICE, *SLICE, U64, U32, U8, U32, U64, *SLICE),
    "store_follow_on": (Reply, *SLICE, *SLICE, *SLICE, U64, U32, U8, U8, U64, *SLICE),
    "store_sweep": (U8, *SLICE, U64),
    "block_deliver": (Outcome, *SLICE, SIZE, *SLICE, *SLICE, *SLICE, U64, U64, AT),
}


def link():
    """The archive as a shared object, made anew where it is older than the archive."""
    if not ARCHIVE.exists():
        raise SystemExit(f"second program: {ARCHIVE.relative_to(ROOT)} is missing; tools/native-lib makes it")
    if not SHARED.exists() or SHARED.stat().st_mtime <= ARCHIVE.stat().st_mtime:
        subprocess.run(["cc", "-shared", "-o", SHARED, "-Wl,--whole-archive", ARCHIVE, "-Wl,--no-whole-archive"], check=True)
    return ctypes.CDLL(str(SHARED))


class Calls:
    """A method for each call of the header, by its name without strawhub_, bound at its first use."""

    def __init__(self):
        self.library = link()

    def __getattr__(self, name):
        try:
            call = getattr(self.library, "strawhub_" + name)
        except AttributeError:
            raise SystemExit(f"second program: the library has no strawhub_{name}") from None
        call.restype, *call.argtypes = DECLARED[name]
        setattr(self, name, call)
        return call
