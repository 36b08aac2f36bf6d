"""The lister program: the lines that document 01 gives, from the model's listing."""
import subprocess
import time

from blocks import REFUSED, block, live, some_block
from blocks_model import listing
from calls import ROOT

MOST = 1500
PROGRAM = ROOT / "crates/lister/out/lister"


def lines(payload):
    if len(payload) > MOST:
        return "at type size\ntoo long\n"
    number, place, blocks = listing(payload, MOST)
    if number:
        return f"at type size\nrefused {number} at {place}\n"
    return "".join(["at type size\n"] + [f"{at} {kind} {size}\n" for at, kind, size, _ in blocks] + [f"blocks {len(blocks)}\n"])


def printed(parts):
    """What the program prints of bytes that come in parts; a status below 0 is a signal."""
    program = subprocess.Popen([PROGRAM], stdin=subprocess.PIPE, stdout=subprocess.PIPE, stderr=subprocess.PIPE)
    try:
        for part in parts[:-1]:
            program.stdin.write(part)
            program.stdin.flush()
            time.sleep(0.02)
    except BrokenPipeError:
        pass
    out, err = program.communicate(parts[-1])
    return out.decode(), err.decode(), program.returncode >= 0


def at_limits(rng):
    """Nothing, one byte, and 1,499 bytes to many more, as one block, as many, and refused at the end."""
    yield [b""]
    yield [b"\0"]
    for size in (1499, 1500, 1501, 1502, 4096, 65535, 65536, 200000):
        yield [block(254, bytes(min(size - 3, 65535))) + bytes(max(0, size - 65538))]
        yield [(block(7, b"") * (size // 3 + 1))[:size]]
        yield [rng.randbytes(size)]
    whole = block(254, b"") * 500
    yield [whole[i:i + 100] for i in range(0, 1500, 100)]
    yield [whole, b"\0"]


def refusals(rng):
    """Each refusal at 0 and behind other blocks."""
    for number, text in REFUSED.items():
        bad = bytes.fromhex(text)
        assert listing(bad, MOST)[:2] == (number, 0)
        yield [bad]
        yield [block(15, b"") + block(254, rng.randbytes(rng.randrange(200))) + bad]


def some(rng, count):
    good = [payload for payload in live() if len(payload) <= MOST + 9]
    for _ in range(count):
        yield [rng.choice(good)]
        yield [b"".join(some_block(rng) for _ in range(rng.randrange(1, 12)))]


def run(calls, judge, rng, whole):
    if not PROGRAM.exists():
        raise SystemExit(f"second program: {PROGRAM.relative_to(ROOT)} is missing; `tools/run lister` makes it")
    sample = bytes.fromhex("00 0004 6553F100 15 0001 01 FE 0002 0000")
    judge.compare(printed([sample])[0], "at type size\n0 0 4\n7 21 1\n11 254 2\nblocks 3\n", True, "lister", sample)
    for parts in (*at_limits(rng), *refusals(rng), *some(rng, 300 if whole else 8)):
        out, err, ended = printed(parts)
        judge.compare(out, lines(b"".join(parts)), ended and not err, "lister", b"".join(parts))
