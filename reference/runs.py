"""Makes the cases of .ci/runs anew: runs of the programs that the gate compares byte by byte.

    python3 -B reference/runs.py [FOLDER]

What a program must print comes from census.py beside it, and so from the rules alone; totals that are known from a
formula are compared here. A case is files PROGRAM-CASE.stdin, .sheet (replay's file), .args and .stdout, and a line
of the file `cases`: its name, the exit status that is wanted, and what it is. Long bytes are written as a recipe
(.recipe behind the name of the file): each line, COUNT TEXT, is the text so many times, \\n being a line break. An
output of some megabytes is not kept: .sha256 in place of .stdout is the checksum of all of it.
"""
import hashlib
import re
import sys
from itertools import combinations, groupby, islice
from pathlib import Path

from census import MOST_JOB as BIG, LONGEST, Cap, Polygon, Regions, check, code, listing, mark_block, output, verdict

FOLDER = Path(sys.argv[1] if len(sys.argv) > 1 else Path(__file__).resolve().parent.parent / ".ci" / "runs")
cases = []


def made(parts):
    """The bytes of a recipe, whose parts are texts, or counts with a text."""
    return b"".join(text.encode() * count for count, text in parts)


def recipe(parts):
    assert all(text and "\\" not in text and count > 0 for count, text in parts)
    return "".join(f"{count} {text}".replace("\n", "\\n") + "\n" for count, text in parts).encode()


def parts_of(printed):
    """Lines that are the same are counted, and so is the long rest of ee of a buffer."""
    for line, same in groupby(printed.decode().splitlines(keepends=True)):
        count = len(list(same))
        rest = re.search(r"(ee){40,}\n$", line)
        if rest and count == 1:
            yield from [(1, line[:rest.start()]), (len(rest[0]) // 2, "ee"), (1, "\n")]
        else:
            yield count, line


def put(name, content):
    """Writes bytes, or parts as a recipe."""
    if isinstance(content, bytes):
        (FOLDER / name).write_bytes(content)
        return content
    (FOLDER / f"{name}.recipe").write_bytes(recipe(content))
    return made(content)


def case(name, what, status=0, lines=None, hope=None, checksum=False, **files):
    """A case; hope is the last line that it must print. With checksum that of the output stands for the output."""
    given = {end: put(f"{name}.{end}", content) for end, content in files.items()}
    program = name.split("-")[0]
    if lines is None:
        lines = {"census": lambda: output(given["stdin"]),
                 "sheetcheck": lambda: [verdict(given["stdin"])],
                 "replay": lambda: output(given["sheet"], given["stdin"])}[program]()
    lines = list(lines)
    assert hope is None or lines[-1] == hope, (name, lines[-1])
    printed = "".join(line + "\n" for line in lines).encode()
    parts = list(parts_of(printed))
    if checksum:
        put(f"{name}.sha256", hashlib.sha256(printed).hexdigest().encode() + b"\n")
    else:
        put(f"{name}.stdout", parts if 2 * len(recipe(parts)) < len(printed) and len(printed) > 500 else printed)
    cases.append(f"{name} {status} {what}\n")


def text(*lines):
    return "".join(line + "\n" for line in lines)


def sheet(*lines):
    return text(*lines).encode()


def pair_lines(pairs):
    return [f"- {a} {b}" for a, b in pairs]


def all_touching(n):
    """The sheet of n regions of which any two touch, and the lines of its census without a cap, from the rules alone.

    Objects (section 6): any members are connected, so that every set of regions is an object, and N is 2 to the n.
    Home slot (6): the smallest member that can go, and so the smallest member.
    Children (3): slot j of v puts in or takes out region j and returns by j, which must be the home slot of the
    neighbour, its smallest member. So v has a child by j exactly if j is below every member of v, and it is v with j.
    List (3): v, and then the lists of its children by ascending slot; the root is the empty set.
    Lines (7): the rank, which is the number of members (6), and the code, whose bit i mod 8 of byte i // 8 is region i.
    Steps (3): N x D + F. D is n (6), and every slot is filled, so that F is N x n.
    """
    def listed(mask, least):
        yield mask
        for j in range(least):
            yield from listed(mask | 1 << j, j)

    def lines():
        for mask in listed(0, n):
            yield f"{mask.bit_count()} {mask.to_bytes(8, 'little').hex()}"
        yield f"whole {2 ** n} steps {2 ** n * n + 2 ** n * n}"

    return sheet(f"R {n}", *pair_lines(combinations(range(n), 2)), ". 1000000"), lines()


FOLDER.mkdir(parents=True, exist_ok=True)
for old in FOLDER.iterdir():
    assert old.name == "cases" or old.name.split("-")[0] in ("census", "replay", "sheetcheck"), old
    old.unlink()

# ---- sheets --------------------------------------------------------------------------------------------------------

GRID = [(a, a + 1) for a in range(16) if a % 4 < 3] + [(a, a + 4) for a in range(12)]
PATH = [(a, a + 1) for a in range(63)]
ALL = list(combinations(range(64), 2))
BOTH = sheet("R 64", *pair_lines(ALL), *pair_lines((b, a) for a, b in ALL), "C 2", ". 1000000")
# 5 + 10,921 x 6 + 5 bytes are 65,536; each pair line has 6.
LONG = [(1, "R 20\n"), (10921, "- 0 1\n"), (1, ". 10\n")]
OVER = [(1, "R 20\n"), (10921, "- 0 1\n"), (1, ". 100\n")]
BEHIND = LONG + [(1, "\n")]
LATE = [(1, "R 20\n"), (9000, "- 0 1\n"), (1, "- 5 5\n"), (1900, "- 0 1\n"), (1, ". 10\n")]
FAR = [(1, "R 20\n"), (900000, "- 0 1\n"), (1, ". 10\n")]
ENDLESS = [(1, "R "), (5000000, "1")]
# 108 lines, which the gate also hands over one at a time; each pair is an object
PIECES = sheet("R 15", *pair_lines(combinations(range(15), 2)), "C 2", ". 1000")
FAULTY = sheet("R 4", "- 0 1", "- 1 2", "- 2 2", "- 9 9", ". 5")
SHEETS = [
    ("empty", "the empty input", b"", "fault 14 line 1 layer 2"),
    ("faulty", "a pair of a region with itself, and a later fault", FAULTY, "fault 13 line 4 layer 3"),
    ("no-sheet", "bytes that are no text", bytes(range(256)), "fault 9 line 1 layer 1"),
    ("unfinished", "a last line that is not finished", b"R 2\n- 0 1\n. 5", "fault 14 line 3 layer 2"),
    ("behind", "a byte behind the full-stop line", b"R 2\n- 0 1\n. 5\n\n", "fault 11 line 4 layer 2"),
    ("late", "a fault at line 9,002 of a long sheet", LATE, "fault 13 line 9002 layer 3"),
    ("too-long", "a good sheet but for its 65,537 bytes", OVER, "fault 15 line 0 layer 1"),
    ("byte-too-long", "a good sheet of 65,536 bytes and a byte behind it", BEHIND, "fault 15 line 0 layer 1"),
    ("far-too-long", "5.4 million bytes of pair lines", FAR, "fault 15 line 0 layer 1"),
    ("endless-line", "5 million bytes without a line break", ENDLESS, "fault 15 line 0 layer 1"),
]
assert len(made(LONG)) == LONGEST and len(made(OVER)) == len(made(BEHIND)) == LONGEST + 1

for name, what, content, said in SHEETS:
    case(f"sheetcheck-{name}", what, stdin=content, hope=said)
    case(f"census-{name}", what, stdin=content, hope=said)

case("sheetcheck-regions", "a map of sixteen regions", stdin=sheet("R 16", *pair_lines(GRID), ". 6000"),
     hope="accepted R 16 pairs 24 cap 16 most 6000")
case("sheetcheck-polygon", "a polygon and a cap above its height", stdin=sheet("P 24", "C 1000000", ". 0"),
     hope="accepted P 24 pairs 0 cap 1000000 most 0")
case("sheetcheck-pairs", "4,032 pair lines, each pair both ways round", stdin=BOTH,
     hope="accepted R 64 pairs 2016 cap 2 most 1000000")
case("sheetcheck-pieces", "108 lines, one at a time", stdin=PIECES, hope="accepted R 15 pairs 105 cap 2 most 1000")
case("sheetcheck-longest", "a good sheet of 65,536 bytes", stdin=LONG, hope="accepted R 20 pairs 1 cap 20 most 10")

# ---- census --------------------------------------------------------------------------------------------------------
# A polygon has Catalan's number of triangulations, each with n - 3 filled slots. A run of regions of a path is given
# by its two ends. Of a map where all touch, the cap 2 leaves the empty set, the regions and the pairs.

case("census-polygon", "4,862 triangulations, printed to the last: M is N", stdin=sheet("P 11", ". 4862"),
     hope=f"whole 4862 steps {4862 * 55 + 4862 * 8}")
case("census-open", "6,000 of the 11,507 sets of a square of sixteen regions",
     stdin=sheet("R 16", *pair_lines(GRID), ". 6000"))
case("census-path", "64 regions in a row", stdin=sheet("R 64", *pair_lines(PATH), ". 1000000"),
     hope=f"whole 2081 steps {2081 * 64 + 2 * (64 + 2 * sum(range(1, 64)))}")
case("census-pairs", "4,032 pair lines, each pair both ways round, and a cap", stdin=BOTH,
     hope=f"whole 2081 steps {2081 * 64 + 2 * (64 + 2 * 2016)}")
case("census-corners", "300 triangulations of 24 corners", stdin=sheet("P 24", ". 300"))
case("census-none", "M is 0", stdin=sheet("P 24", ". 0"), hope="open 0 steps 0")
case("census-longest", "a good sheet of 65,536 bytes", stdin=LONG)
case("census-pieces", "108 lines, one at a time", stdin=PIECES,
     hope=f"whole 121 steps {121 * 15 + 2 * (15 + 2 * 105)}")

# More than a thousand pages of 256 lines.
for n in 4, 5, 6:
    small, lines = all_touching(n)
    assert list(lines) == list(output(small)), n
touching, lines = all_touching(18)
case("census-touching", "262,145 lines: every set of 18 regions of which any two touch", stdin=touching, lines=lines,
     checksum=True, hope="whole 262144 steps 9437184")

# ---- replay --------------------------------------------------------------------------------------------------------


def sealed(block):
    return block[:508] + check(block).to_bytes(4, "little")


def changed(block, place, byte):
    return block[:place] + bytes([byte]) + block[place + 1:]


def every_act(setup, count):
    """Acts of every kind in a mixed order, given by a congruential sequence."""
    objects, state = list(listing(setup, setup.root)), 1

    def below(n):
        nonlocal state
        state = (state * 1103515245 + 12345) % 2 ** 31
        return (state >> 12) % n

    def block(job):
        """A block, good in one of two cases, or with one of the faults 2 to 6."""
        v = objects[-1 - below(3)] if below(2) else objects[below(len(objects))]
        good = mark_block(setup, v, job)
        return [good[:below(512)], good + bytes(below(3) + 1), changed(good, below(508), 0xa5),
                changed(good, 508 + below(4), 0xa5), sealed(changed(good, 0, 3)), sealed(changed(good, 1, 1)),
                sealed(changed(good, 2, 0)), sealed(changed(good, 3, 2)), sealed(changed(good, 16 + below(492), 1)),
                mark_block(setup, v, job ^ 1 << below(32)), sealed(changed(good, 9, 2)), sealed(changed(good, 2, 9))
                ][below(12)] if below(2) else good

    for _ in range(count):
        kind, job = below(100), [0, 7, 65536, BIG][below(4)]
        if kind < 3:
            row = block(job)
            yield f"resume {job} {row.hex() or '-'}"
        elif kind < 5:
            yield f"save {job} {508 + below(9)}"
        elif kind < 15:
            yield f"read {below(12)}"
        elif kind < 25:
            yield "tally"
        elif kind < 26 and below(3) == 0:
            yield "restart"
        else:
            yield "next"


SQUARE = [(a, a + 1) for a in range(9) if a % 3 < 2] + [(a, a + 3) for a in range(6)]
NINE = sheet("R 9", *pair_lines(SQUARE), "C 7", ". 1")
TEN = sheet("P 10", ". 0")
ten = Cap(Polygon(10), 7)
acts = text(*every_act(Cap(Regions(9, SQUARE), 7), 5000)).encode()
fifth = mark_block(ten, next(islice(listing(ten, ten.root), 4, None)), 7)
last = mark_block(ten, list(listing(ten, ten.root))[-1], 7).hex()
LONG_ACTS = [
    (1, "tally\n"), (1, "read 65536\n"), (1, "save 7 65536\n"), (1, "read 35\n"),
    (1430, "next\n"), (3, "next\n"), (1, "read 65536\n"), (1, "save 7 65536\n"), (1, "tally\n"),     # past the end
    (1, "resume 7 "), (65536, "00"), (1, "\n"), (1, "resume 7 "), (100001, "a5"), (1, "\n"), (1, "resume 7 -\n"),
    (20, "resume 7 " + fifth.hex() + "\nnext\n"), (1, "tally\n"), (1, "save 7 512\n"),
    (9, "resume 8 " + fifth.hex() + "\n"), (1, "resume 7 " + fifth.hex()[:-2] + "\n"), (700, "next\n"), (2, "tally\n"),
    (40, "resume 7 " + last + "\ntally\nnext\ntally\n"), (3000, "read 35\n"), (3000, "save 4294967295 512\n"),
    (100, "restart\nnext\nnext\n"), (2500, "tally\n"), (2500, "read 34\n"), (2500, "save 0 511\n"), (2500, "read 0\n"),
    (1, "restart\n"), (1, "read 65536\n"), (4000, "next\n"), (1, "tally\n"), (3000, "restart\n"), (1, "save 7 65536\n"),
    (1, "next\n"), (1, "save 4294967295 65536\n"),
]

case("replay-long", "acts of every kind, of more than 600,000 bytes", sheet=TEN, stdin=LONG_ACTS)
case("replay-mixed", "5,000 acts of every kind in a mixed order", sheet=NINE, stdin=acts)
case("replay-unreadable", "a last line that is no act, behind 20,000 that are", sheet=TEN,
     stdin=[(20000, "next\n"), (1, "next \n")], hope="unreadable line 20001")
case("replay-unfinished", "a last line that is not finished, behind 20,000 that are", sheet=TEN,
     stdin=[(10000, "next\ntally\n"), (1, "next")], hope="unreadable line 20001")
case("replay-odd", "a block with an odd number of digits, longer than a sheet", sheet=TEN,
     stdin=[(1, "next\n"), (1, "resume 7 "), (100001, "0"), (1, "\n"), (5, "next\n")], hope="unreadable line 2")
case("replay-long-line", "a first line of a million bytes", sheet=TEN, stdin=[(1000000, "next ")],
     hope="unreadable line 1")
case("replay-wide", "a buffer of 65,537 bytes", sheet=TEN, stdin=b"next\nread 65537\n", hope="unreadable line 2")
case("replay-line-break", "an empty line", sheet=TEN, stdin=b"\n", hope="unreadable line 1")
case("replay-no-acts", "no acts", sheet=TEN, stdin=b"")
case("replay-faulty", "a faulty sheet, before acts that cannot be read", sheet=FAULTY, stdin=b"next\n \n", hope="fault 13 line 4 layer 3")
case("replay-empty", "an empty sheet", sheet=b"", stdin=b"next\n", hope="fault 14 line 1 layer 2")
case("replay-longest", "a good sheet of 65,536 bytes", sheet=LONG, stdin=b"next\nread 8\ntally\n")
case("replay-far-too-long", "a sheet of 5.4 million bytes", sheet=FAR, stdin=b"next\n", hope="fault 15 line 0 layer 1")
case("replay-no-file", "no file name", status=1, lines=[], stdin=b"next\n")
case("replay-missing-file", "the name of no file", status=1, lines=[], args=b"missing\n", stdin=b"next\n")
case("replay-folder", "a folder in place of a file", status=1, lines=[], args=b".\n", stdin=b"next\n")
case("census-full", "a device that takes no byte", status=1, lines=[], stdin=sheet("R 1", ". 100"))
case("sheetcheck-full", "a device that takes no byte", status=1, lines=[], stdin=sheet("R 1", ". 100"))
case("replay-full", "a device that takes no byte", status=1, lines=[], sheet=sheet("R 1", ". 100"), stdin=b"next\n")

# A map of two regions that touch, and the block of the first region alone under job 7. The other blocks differ from it
# in their check or in their K, at a bound or beyond it, and the check of each but the second is right.
PAIR = sheet("R 2", "- 0 1", ". 3")
first = mark_block(Cap(Regions(2, [(0, 1)]), 2), {0}, 7)
more = first[:508] + (check(first) + 65521).to_bytes(4, "little")
empty = first[:8] + bytes(504)
BLOCKS = [
    (first, "done"),
    (more, "refused 3"),                                                # the check and 65,521 more
    (sealed(changed(changed(empty, 2, 0xe0), 3, 1)), "refused 6"),      # K = 480
    (sealed(changed(changed(empty, 2, 0xe1), 3, 1)), "refused 4"),      # K = 481
    (sealed(changed(changed(empty, 2, 0xea), 3, 1)), "refused 4"),      # K = 490
    (sealed(changed(empty, 2, 0)), "refused 4"),                        # K = 0
]
bounds = text(*(f"resume 7 {block.hex()}" for block, said in BLOCKS)).encode()
assert list(output(PAIR, bounds)) == [said for block, said in BLOCKS]
case("replay-bounds", "blocks at the bounds of the code size and of the check", sheet=PAIR, stdin=bounds)

(FOLDER / "cases").write_text("".join(cases))
print(f"{len(cases)} cases, {sum(file.stat().st_size for file in FOLDER.iterdir())} bytes")
