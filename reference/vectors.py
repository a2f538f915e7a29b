"""Writes three replay tests to a folder: NAME.sheet, NAME.acts and NAME.expected.

    python3 -B reference/vectors.py FOLDER

Blocks are computed here, by code of this file. What is expected comes from census.py beside it; where an act
is given here with a hope (a refusal, a rank, a code, a block), the two are compared.
"""
import struct
import subprocess
import sys
from pathlib import Path

HERE = Path(sys.argv[1]).resolve()
REFERENCE = Path(__file__).resolve().parent / "census.py"
BIG = 4294967295


def seal(block):
    """Sets the check: the sum of (i + 1) x byte i is the sum of all tails of bytes 0 to 507."""
    tail = total = 0
    for byte in reversed(block[:508]):
        tail += byte
        total += tail
    struct.pack_into("<I", block, 508, total % 65521)
    return block


def block(code, job, K=None, put={}, after={}):
    """A mark block; K as claimed in the head; bytes put before the check is made, and after it."""
    b = bytearray(512)
    struct.pack_into("<BBHI", b, 0, 1, 0, len(code) if K is None else K, job)
    b[8:8 + len(code)] = code
    for place, byte in put.items():
        b[place] = byte
    seal(b)
    for place, byte in after.items():
        b[place] = byte
    return bytes(b)


def bits(K, *numbers):
    row = bytearray(K)
    for e in numbers:
        row[e // 8] |= 1 << e % 8
    return bytes(row)


class Script:
    def __init__(self):
        self.acts, self.hopes = [], []

    def __call__(self, act, hope=None):
        self.acts.append(act)
        self.hopes.append(hope)

    def next(self, times=1, hope=None):
        for _ in range(times):
            self("next", hope)

    def resume(self, job, data, hope="done"):
        self(f"resume {job} {data.hex() or '-'}", hope if hope == "done" else f"refused {hope}")

    def write(self, sheet, names):
        files = [HERE / name for name in names]
        files[0].write_text("".join(line + "\n" for line in sheet))
        files[1].write_text("".join(act + "\n" for act in self.acts))
        with files[1].open("rb") as acts, files[2].open("wb") as expected:
            subprocess.run([sys.executable, "-B", REFERENCE, "replay", files[0]], stdin=acts, stdout=expected, check=True)
        printed = files[2].read_text().split("\n")[:-1]
        assert len(printed) == len(self.acts), printed[:1]
        for i, (act, hope, line) in enumerate(zip(self.acts, self.hopes, printed), 1):
            if hope is not None and hope != line:
                sys.exit(f"{names[1]} line {i}: {act[:60]}: hoped {hope[:60]}, reference {line[:60]}")
        hopes = sum(hope is not None for hope in self.hopes)
        print(f"{names[1]}: {len(self.acts)} acts, {hopes} with a hope, all as hoped")


def regions(*members):
    return bits(8, *members)


# ---- a map of five regions: the cycle 0 2 4 1 and the tail 1 3; the cap 3 is below n ------------------------------
# Objects by size: 1 empty, 5 single, 5 pairs, 6 connected triples (each a chain): N = 17. M plays no part.
# Filled slots: 5 + 5 x 2 + 6 x 2 = 27 ways to put a region in, and as many back: F = 54. N x D + F = 139.

MAP = ["R 5", "- 0 2", "- 2 4", "- 4 1", "- 1 0", "- 1 3", "- 3 1", "C 3", ". 2"]
s = Script()
empty, good = regions(), block(regions(1, 3), 7)

s("tally", "1 0")
s("read 8", "00" * 8)
s("read 7", "refused 1")
s("read 0", "refused 1")
s("read 11", "00" * 8 + "ee" * 3)
s("save 7 511", "refused 1")
s("save 7 0", "refused 1")
s("save 7 512", block(empty, 7).hex())
s("save 0 513", block(empty, 0).hex() + "ee")
s("next", "1")                                          # one step: {0}
s("tally", "2 1")
s("read 8", regions(0).hex())
s(f"save {BIG} 512", block(regions(0), BIG).hex())
s.next(4)
s("tally")
s("read 9")
s("save 7 600")

s.resume(7, good)                                       # in the middle
s("tally", "1 0")
s("read 8", regions(1, 3).hex())
s("next")
s("tally")
s.resume(0, good, 5)                                    # under another job
s.resume(BIG, good, 5)
s.resume(7, block(regions(1, 3), 7 + 2 ** 24), 5)       # the job's high byte
s("read 8")
s("tally")
s.resume(0, block(regions(2), 0))
s("save 0 512", block(regions(2), 0).hex())
s("next")
s.resume(BIG, block(regions(2, 1, 0), BIG))             # as large as the cap allows
s("next")
s("read 8")

s.resume(7, b"", 2)
s.resume(7, good[:511], 2)
s.resume(7, good + b"\0", 2)
s.resume(7, good[:1], 2)
s("read 8")
s.resume(7, block(regions(1, 3), 7, after={8: 11}), 3)  # a code byte changed, and with it an object
s.resume(7, block(regions(1, 3), 7, after={510: 1}), 3)
s.resume(7, block(regions(1, 3), 7, after={511: 128}), 3)
s.resume(7, block(regions(1, 3), 7, after={508: 0, 509: 0}), 3)
s.resume(7, block(regions(1, 3), 7, after={507: 1}), 3)
s("tally")
s("next")

s.resume(7, block(regions(1, 3), 7, put={0: 2}), 4)
s.resume(7, block(regions(1, 3), 7, put={0: 0}), 4)
s.resume(7, block(regions(1, 3), 7, put={1: 1}), 4)
s.resume(7, block(b"", 7, K=0), 4)
s.resume(7, block(regions(1, 3), 7, K=0), 4)
s.resume(7, block(empty, 7, K=481), 4)
s.resume(7, block(empty, 7, K=8 + 256 * 2), 4)          # K's high byte
s.resume(7, block(regions(1, 3), 7, put={16: 1}), 4)    # the first filling byte
s.resume(7, block(regions(1, 3), 7, put={300: 1}), 4)
s.resume(7, block(regions(1, 3), 7, put={507: 1}), 4)   # the last
s("read 8")
s.next(2)

s.resume(7, block(regions(1, 3) + b"\1", 7), 6)         # K = 9: byte 16 is code, the filling begins at 17
s.resume(7, block(regions(1, 3) + b"\1", 7, put={17: 1}), 4)
s.resume(7, block(regions(1, 3) + b"\0", 7), 6)         # K = 9
s.resume(7, block(regions(1, 3)[:7], 7), 6)             # K = 7
s.resume(7, block(regions(1, 3), 7, K=7, put={15: 1}), 4)
s.resume(7, block(b"\xff" * 480, 7), 6)                 # K = 480: the sum is above 65,521
s.resume(7, block(b"\xff" * 480, 7, put={488: 1}), 4)
whole = struct.pack("<I", sum((i + 1) * x for i, x in enumerate(block(b"\xff" * 480, 7)[:508])))
s.resume(7, block(b"\xff" * 480, 7)[:508] + whole, 3)   # the check not reduced
s("tally")
s("read 8")

s.resume(7, block(regions(0, 4), 7), 6)                 # not connected
s.resume(7, block(regions(0, 3, 4), 7), 6)              # joined by 1, which is no member
s("read 8")
s("next")
s.resume(7, block(regions(0, 1, 2, 4), 7), 6)           # connected, above the cap
s("read 8")
s("next")
s.resume(7, block(regions(0, 1, 2, 3, 4), 7), 6)
s("next")
s("tally")
s.resume(7, block(regions(5), 7), 6)                    # region n
s.resume(7, block(regions(1, 3, 63), 7), 6)
s("read 8")

s.resume(7, block(regions(1, 3), 7, after={8: 11})[:511], 2)                    # 2 before 3
s.resume(7, block(regions(1, 3), 7, after={511: 1}) + b"\1", 2)
s.resume(7, block(regions(1, 3), 7, after={0: 2}), 3)                           # 3 before 4
s.resume(0, block(regions(1, 3), 7, after={1: 1}), 3)                           # 3 before 4 and 5
s.resume(0, block(regions(1, 3), 7, put={0: 2}), 4)                             # 4 before 5
s.resume(0, block(regions(0, 4), 7, put={200: 9}), 4)                           # 4 before 5 and 6
s.resume(0, block(regions(0, 4), 7), 5)                                         # 5 before 6
s.resume(BIG, block(regions(1, 3) + b"\1", 7), 5)
s("tally")

s("restart", "done")
s("tally", "1 0")
s("read 8", empty.hex())
s.next(16)                                              # to the 17th object
s("read 8")
s("save 7 512")
s("tally")
s("next", "end")
s("tally", "17 139")                                    # at the end: N and N x D + F
s("next", "refused 7")
s("next", "refused 7")
s("read 8", "refused 7")
s("read 0", "refused 7")                                # 7 before 1
s("save 7 512", "refused 7")
s("save 7 511", "refused 7")
s("tally")
s.resume(7, b"", 2)                                     # past the end these are judged as ever
s.resume(7, block(regions(1, 3), 7, after={8: 11}), 3)
s.resume(7, block(regions(1, 3), 7, put={16: 1}), 4)
s.resume(0, good, 5)
s.resume(7, block(regions(0, 1, 2, 4), 7), 6)
s("next", "refused 7")
s("tally")
s.resume(7, good)
s("tally", "1 0")
s("read 8", regions(1, 3).hex())
s("next")
s("tally")
s.resume(7, block(regions(1, 2, 4), 7))                 # the last object of the list
s("next", "end")
s("tally")
s("next", "refused 7")
s("restart", "done")
s("tally", "1 0")
s("next", "1")
s("read 8", regions(0).hex())
s("tally", "2 1")
s.write(MAP, ["map.sheet", "map.acts", "map.expected"])


# ---- the path of three regions: save at every object, then resume at every object, the last first -----------------
# (The last first, since in the order of the list each next would already stand at the next block's object.)

s = Script()
PATH = [0, 1, 2, 3, 4, 6, 7]                            # the list (section 9)
codes = [struct.pack("<Q", number) for number in PATH]
after = [str(bin(number).count("1")) for number in PATH[1:]] + ["end"]
for code, answer in zip(codes, after):
    s("save 7 512", block(code, 7).hex())
    s("next", answer)
s("tally", "7 39")
s("restart", "done")
for code, answer in reversed(list(zip(codes, after))):
    s.resume(7, block(code, 7))
    s("read 8", code.hex())
    s("next", answer)
    s("tally")
s.write(["R 3", "- 0 1", "- 1 2", ". 100"], ["roundtrip.sheet", "roundtrip.acts", "roundtrip.expected"])


# ---- the polygon of five corners ----------------------------------------------------------------------------------

def pairs(*numbers):
    return bits(35, *numbers)


s = Script()
FIVE = [pairs(1, 3), pairs(3, 4), pairs(4, 7), pairs(1, 8), pairs(7, 8)]            # the list (section 9)
after = ["1", "2", "1", "2", "end"]
s("tally", "1 0")
s("read 34", "refused 1")
s("read 36", FIVE[0].hex() + "ee")
for triangulation, answer in zip(FIVE, after):
    s("read 35", triangulation.hex())
    s("next", answer)
    s("tally", "5 60" if answer == "end" else None)
s("next", "refused 7")
s("read 35", "refused 7")
s("save 7 512", "refused 7")
s("tally", "5 60")
s("restart", "done")
s.next(2)
s("save 7 511", "refused 1")
s("save 7 512", block(FIVE[2], 7).hex())
s("next", "1")
s.resume(7, block(FIVE[2], 7))
s("read 35", FIVE[2].hex())
s("tally", "1 0")
s.resume(0, block(FIVE[1], 7), 5)
s.resume(7, block(FIVE[1], 7, put={43: 1}), 4)          # the first filling byte
for wrong in (pairs(), pairs(1), pairs(1, 4), pairs(1, 3, 4),                   # not maximal, or crossing
              pairs(0, 1, 3), pairs(1, 3, 6),                                   # with a side: (0, 1), (0, 4)
              pairs(1, 3, 10), pairs(1, 3, 275), pairs(1, 3, 276), pairs(1, 3, 279),    # no pair of this polygon
              pairs(1, 3)[:8], pairs(1, 3) + b"\0"):                            # K = 8, K = 36
    s.resume(7, block(wrong, 7), 6)
s("read 35", FIVE[2].hex())
s("next", "1")
s("tally")
for triangulation, answer in reversed(list(zip(FIVE, after))):
    s.resume(BIG, block(triangulation, BIG))
    s("next", answer)
    s("tally")
s.write(["P 5", ". 1000"], ["polygon.sheet", "polygon.acts", "polygon.expected"])
