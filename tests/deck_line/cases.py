"""01, "Checked by hand": the cases that need a deck, through the deck program, and the markings that it may be given.
cases.py PROGRAM.. runs it on each."""
import struct
import subprocess
import sys

COMPUTE = struct.pack("<HBB", 0, 4, 0)
NOP = 0xFF00
STATE_BYTES = 42


def deck(words, state={}, samples=(COMPUTE,), states=1, state_bytes=STATE_BYTES):
    """A deck without rows; state gives bytes of the state by their place (12 is R2, 28 LC, 30 RR, 41 the outputs)."""
    whole = bytearray(state_bytes)
    for at, value in state.items():
        whole[at] = value
    return (
        struct.pack("<H", len(words)) + struct.pack(f"<{len(words)}I", *words)
        + struct.pack("<H", 0)
        + struct.pack("<H", states) + whole
        + struct.pack("<H", len(samples)) + b"".join(samples)
    )


def at(lc, rr=0):
    return {28: lc % 256, 29: lc // 256, 30: rr % 256, 31: rr // 256}


CASES = [
    ("add R3 to R2, the deck program's example", deck([0xA132], {12: 255, 13: 1}), "0 1 1 1 87"),
    ("A232 executed", deck([0xA232]), "0 1 2 1 4"),
    ("A232 crosswise: 7F+01 is 80, 01+80 is 81", deck([0xA232], {12: 127, 13: 1}), "0 1 2 1 8"),
    ("A222 executed", deck([0xA222]), "0 1 2 1 4"),
    ("7800", deck([0x7800]), "6 0 0 0 0"),
    ("AD32", deck([0xAD32]), "6 0 0 0 0"),
    ("AC22", deck([0xAC22]), "6 0 0 0 0"),
    ("ISB with b 4", deck([0xE442]), "8 0 0 0 0"),
    ("ISB with b 3 executed", deck([0xE432]), "0 1 1 1 4"),
    ("RFS with bit 16, LC 5, RR 9", deck([NOP] * 5 + [0x10800], at(5, 9)), "0 1 2 9 0"),
    ("and RR 6 after it: RFS again at 9", deck([NOP] * 5 + [0x10800] + [NOP] * 3 + [0x0800], at(5, 9), [COMPUTE] * 2), "0 2 4 6 0"),
    ("JZF to 10 at 1FF, Z 0", deck([NOP] * 511 + [0x1810], at(0x1FF)), "0 1 2 272 0"),
    ("NOP at 2047", deck([NOP] * 2048, at(2047)), "0 1 1 0 0"),
    ("2,048 words accepted", deck([NOP] * 2048), "0 1 1 1 0"),
    ("2,049 refused 2", deck([NOP] * 2049), "2 0 0 0 0"),
    ("no samples", deck([], {}, []), "0 0 0 0 0"),
    ("no word at LC", deck([]), "5 0 0 0 0"),
    ("the deck's own state on 1", deck([NOP], {**at(2048), 27: 87}), "1 0 0 2048 87"),
    ("a word of 2^22", deck([1 << 22], {27: 87}), "2 0 0 0 87"),
    ("lines of 32", deck([NOP], {}, [struct.pack("<HBB", 0, 36, 0)]), "4 0 0 0 0"),
    ("outputs, before and in the word", deck([0x14A132], {12: 255, 13: 1, 41: 10}), "0 1 1 1 87"),
    ("outputs of 16", deck([NOP], {41: 16}), "1 0 0 0 0"),
    ("a state of 41 bytes", deck([NOP], state_bytes=41), "9 0 0"),
    ("the longest deck, 65,534 bytes", deck([NOP], {}, [COMPUTE] * 16370), "5 1 1 1 0"),
    ("a well-formed deck of 65,538 bytes", deck([], {}, [COMPUTE] * 16372), "9 0 0"),
    ("65,536 bytes, two too many", deck([NOP], {}, [COMPUTE] * 16370) + bytes(2), "9 0 0"),
    ("empty", b"", "9 0 0"),
    ("two states", deck([NOP], {}, states=2), "9 0 0"),
]

ADD = deck([0xA132], {12: 255, 13: 1, 27: 16})
DONE, UNKNOWN = "0 1 1 1 87", "24 0 0 0 16"

# arguments, deck, line
MARKED = [
    (["1661"], ADD, DONE),
    (["1621"], ADD, DONE),
    (["0000001621"], ADD, DONE),
    (["00000001621"], ADD, UNKNOWN),  # longer than is read
    (["1622"], ADD, UNKNOWN),
    (["0"], ADD, UNKNOWN),
    (["4294968917"], ADD, UNKNOWN),  # 1621 modulo 2^32
    (["999999999"], ADD, UNKNOWN),
    (["1" * 5000], ADD, UNKNOWN),
    ([""], ADD, UNKNOWN),
    (["CP1621B"], ADD, UNKNOWN),
    (["1621B"], ADD, UNKNOWN),
    (["0x655"], ADD, UNKNOWN),
    (["+1621"], ADD, UNKNOWN),
    (["-1621"], ADD, UNKNOWN),
    ([" 1621"], ADD, UNKNOWN),
    (["1621/"], ADD, UNKNOWN),  # the bytes before and after the digits
    (["1621:"], ADD, UNKNOWN),
    (["1661", "1661"], ADD, UNKNOWN),
    (["1661", ""], ADD, UNKNOWN),
    (["1621"], b"", "9 0 0"),
    (["1622"], b"", "9 0 0"),
    (["1621"], deck([NOP], {**at(2048), 27: 87}), "1 0 0 2048 87"),
    (["1622"], deck([NOP], {**at(2048), 27: 87}), "24 0 0 2048 87"),
    (["1622"], deck([1 << 22], {27: 87}), "24 0 0 0 87"),
    (["1622"], deck([0x7800]), "24 0 0 0 0"),
]

ALL = [(name, [], given, expected) for name, given, expected in CASES]
ALL += [(f"{words}"[:60], words, given, expected) for words, given, expected in MARKED]
failed = 0
for name, words, given, expected in ALL:
    line = subprocess.run(sys.argv[1:] + words, input=given, capture_output=True, check=True).stdout.decode()
    if line != expected + "\n":
        failed += 1
        print(f"{name}: {line!r}, and not {expected!r}")
print(f"{len(ALL) - failed} passed, {failed} failed")
sys.exit(failed != 0)
