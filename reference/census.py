"""Reference for the rules of the engine, written from the definitions (section numbers are those of RULES.md).

    python3 census.py census < SHEET
    python3 census.py sheetcheck < SHEET
    python3 census.py replay SHEETFILE < ACTS

Every answer is the plain census's (section 4): a place in the list of the set-up. The list comes from its
recursive definition (section 3), not from the walk; the walk is simulated only for what it costs, and each walk
is checked to end at the next place. In small families the list is checked against all objects, enumerated.
The list is built only as far as it is needed; a resume in a very large family may take very long.
"""
import re
import sys
from itertools import combinations, count

CEILING = 2 ** 64 - 1                                       # of the tally (section 4)
LONGEST, MOST_JOB = 65536, 2 ** 32 - 1                      # bytes of a sheet or buffer; job (section 7)
LAYER = {9: 1, 10: 1, 15: 1, 11: 2, 14: 2, 12: 3, 13: 3}

class Refused(Exception):
    """Its arguments are the number and, at a sheet's fault, the line."""

def refuse_if(applies, *what):
    if applies:
        raise Refused(*what)

# ---- the set-ups (sections 2 and 6) ---------------------------------------------------------------------------
# An object is a frozenset of numbers: region numbers, or numbers of pairs of corners. In both codes number e is
# bit e mod 8 of byte e // 8. A set-up has D, H, K, root, is_object, slot, home, rank, small and objects.
# slot answers None if the slot is vacant, else the neighbour and the return slot.

def code(setup, v):
    return sum(1 << e for e in v).to_bytes(setup.K, "little")

def take(setup, row):
    """The object whose code the row of bytes is, or None."""
    bits = int.from_bytes(row, "little")
    v = frozenset(e for e in range(8 * len(row)) if bits >> e & 1)
    return v if len(row) == setup.K and setup.is_object(v) else None

class Regions:
    K = 8

    def __init__(self, n, pairs):
        self.n = self.D = self.H = n
        self.touch = {frozenset(p) for p in pairs}          # a pair given twice, either way round, counts once
        self.root, self.small = frozenset(), n <= 12

    def is_object(self, v):
        """Empty or connected, by chains of members only; no region n or above."""
        reached, edge = set(), set(sorted(v)[:1])
        while edge:
            reached |= edge
            edge = {b for a in edge for b in v - reached if frozenset((a, b)) in self.touch}
        return reached == v and all(i < self.n for i in v)

    def objects(self):
        subsets = (frozenset(c) for r in range(self.n + 1) for c in combinations(range(self.n), r))
        return [v for v in subsets if self.is_object(v)]

    def slot(self, v, j):
        w = v ^ {j}                                         # takes j out or puts it in
        return (w, j) if self.is_object(w) else None

    def home(self, v):
        return next((i for i in sorted(v) if self.is_object(v - {i})), None)    # the smallest such member

    def rank(self, v):
        return len(v)

def number(a, b):
    """The number of the pair of corners a and b, in either order."""
    a, b = min(a, b), max(a, b)
    return b * (b - 1) // 2 + a

def cross(p, q):
    (a, b), (c, d) = p, q
    return a < c < b < d or c < a < d < b

class Polygon:
    K = 35

    def __init__(self, n):
        self.n, self.D, self.H = n, n * (n - 1) // 2, n - 3
        self.pair = {number(a, b): (a, b) for a, b in combinations(range(n), 2)}
        self.sides = {e for e, (a, b) in self.pair.items() if b == a + 1 or (a, b) == (0, n - 1)}
        self.diagonals = sorted(set(self.pair) - self.sides)
        self.root = frozenset(e for e in self.diagonals if self.pair[e][0] == 0)
        self.small = n <= 9

    def fits(self, e, v):
        """Diagonal e crosses no diagonal of v."""
        return not any(cross(self.pair[e], self.pair[f]) for f in v)

    def is_object(self, v):
        """Diagonals of which no two cross, and to which none can be added without a crossing."""
        return (v <= set(self.diagonals) and all(self.fits(e, v) for e in v)
                and not any(self.fits(e, v) for e in self.diagonals if e not in v))

    def objects(self):
        """All sets of diagonals without a crossing that are maximal."""
        sets = [frozenset()]
        for e in self.diagonals:
            sets += [v | {e} for v in sets if self.fits(e, v)]
        return [v for v in sets if self.is_object(v)]

    def drawn(self, v, a, b):
        """The pair of corners a and b is a side or in the set."""
        return number(a, b) in self.sides or number(a, b) in v

    def slot(self, v, e):
        if e not in v:
            return None
        a, b = self.pair[e]
        apex = [c for c in range(self.n) if c not in (a, b) and self.drawn(v, a, c) and self.drawn(v, b, c)]
        (one,) = [c for c in apex if a < c < b]             # exactly one corner on each side
        (other,) = [c for c in apex if not a < c < b]
        new = number(one, other)
        return v - {e} | {new}, new

    def home(self, v):
        good = (e for e in sorted(v) if self.pair[e][0] > 0 and all(self.drawn(v, 0, c) for c in self.pair[e]))
        return next(good, None)

    def rank(self, v):
        return sum(1 for e in v if self.pair[e][0] > 0)

class Cap:
    def __init__(self, below, c):
        self.below, self.c, self.D, self.K, self.H = below, c, below.D, below.K, min(c, below.H)
        self.root, self.home, self.rank, self.small = below.root, below.home, below.rank, below.small

    def is_object(self, v):
        return self.below.is_object(v) and self.rank(v) <= self.c

    def objects(self):
        return [v for v in self.below.objects() if self.rank(v) <= self.c]

    def slot(self, v, j):
        filled = self.below.slot(v, j)
        return filled if filled and self.rank(filled[0]) <= self.c else None

# ---- the list and the walk (section 3) ------------------------------------------------------------------------

def listing(setup, v):
    """The list of v: v itself, then the lists of its children in ascending order of their slots."""
    yield v
    for j in range(setup.D):
        filled = setup.slot(v, j)
        if filled and setup.home(filled[0]) == filled[1]:   # the return slot decides
            yield from listing(setup, filled[0])

def walk(setup, v):
    """The object the walk from v reaches (None: the end) and its number of steps."""
    j = steps = 0
    while True:
        if j < setup.D:
            steps += 1
            filled = setup.slot(v, j)
            if filled:
                w, k = filled
                if setup.home(w) == k:
                    return w, steps
                steps += 1
                assert setup.slot(w, k) == (v, j)           # law 1: stepping back leads to v
            j += 1
        else:
            home = setup.home(v)
            if home is None:
                return None, steps
            steps += 1
            v, i = setup.slot(v, home)
            j = i + 1

# ---- mark blocks (section 5) ----------------------------------------------------------------------------------

def check(block):
    return sum((i + 1) * block[i] for i in range(508)) % 65521

def mark_block(setup, v, job):
    head = bytes([1, 0]) + setup.K.to_bytes(2, "little") + job.to_bytes(4, "little")
    front = (head + code(setup, v)).ljust(508, b"\0")
    return front + check(front).to_bytes(4, "little")

# ---- the acts of the plain census (section 4) -----------------------------------------------------------------

def buffer(size, row):
    """A buffer of that size, all ee, after the row was written to its front."""
    refuse_if(size < len(row), 1)
    return row + b"\xee" * (size - len(row))

class PlainCensus:
    def __init__(self, setup):
        self.setup, self.known, self.more = setup, [], listing(setup, setup.root)
        self.unchecked = setup.small
        self.restart()

    def at(self, place):
        """The object at a place of the list (the first is 1), or None at N + 1."""
        while len(self.known) < place:
            v = next(self.more, None)
            if v is None:
                if self.unchecked:                          # "Complete": every object exactly once
                    self.unchecked = False
                    assert sorted(map(sorted, self.known)) == sorted(map(sorted, self.setup.objects()))
                return None
            self.known.append(v)
        return self.known[place - 1]

    def current(self):
        v = self.at(self.place)
        refuse_if(v is None, 7)
        return v

    # The acts. Each sends back what `replay` prints: a number, a word, or the buffer.

    def next(self):
        reached, steps = walk(self.setup, self.current())
        self.place += 1
        v = self.at(self.place)
        assert reached == v                                 # "In step"
        self.objects = min(self.objects + (v is not None), CEILING)
        self.steps = min(self.steps + steps, CEILING)
        return "end" if v is None else self.setup.rank(v)

    def restart(self, place=1):
        self.place, self.objects, self.steps = place, 1, 0
        return "done"

    def tally(self):
        return f"{self.objects} {self.steps}"

    def read(self, size):
        return buffer(size, code(self.setup, self.current()))

    def save(self, job, size):
        return buffer(size, mark_block(self.setup, self.current(), job))

    def resume(self, job, block):
        refuse_if(len(block) != 512, 2)
        refuse_if(int.from_bytes(block[508:], "little") != check(block), 3)
        K = int.from_bytes(block[2:4], "little")
        refuse_if(block[0] != 1 or block[1] != 0 or K == 0 or K > 480 or any(block[8 + K:508]), 4)
        refuse_if(int.from_bytes(block[4:8], "little") != job, 5)
        v = take(self.setup, block[8:8 + K])                # a row of another length is no object's code
        refuse_if(v is None, 6)
        return self.restart(next(p for p in count(1) if self.at(p) == v))

# ---- sheets (section 7) ---------------------------------------------------------------------------------------

NUMBER = rb" (0|[1-9][0-9]{0,6})"
LINE = re.compile(rb"[RPC.]" + NUMBER + rb"|-" + NUMBER + NUMBER)

def read_sheet(sheet):
    """The subject, the cap (H without a C line) and the most; a fault is raised as Refused."""
    refuse_if(len(sheet) > LONGEST, 15, 0)
    kind = n = cap = None
    pairs, start, line = [], 0, 0
    while True:
        line += 1
        end = sheet.find(b"\n", start)
        refuse_if(end < 0, 14, line)                        # nothing left, or an unfinished line
        text, start = sheet[start:end], end + 1
        letter = text[:1]
        refuse_if(letter not in (b"R", b"P", b"-", b"C", b"."), 9, line)
        refuse_if(not LINE.fullmatch(text), 10, line)
        # out of place: R or P after line 1, another kind on line 1, a pair or a C after the C line
        refuse_if((letter in b"RP") != (line == 1) or letter in b"-C" and cap is not None, 11, line)
        values = [int(word) for word in text.split(b" ")[1:]]
        if letter in b"RP":
            kind, n = letter, values[0]
            refuse_if(not (1 <= n <= 64 if kind == b"R" else 3 <= n <= 24), 12, line)
        elif letter == b"-":
            refuse_if(max(values) >= n, 12, line)
            refuse_if(kind == b"P" or values[0] == values[1], 13, line)
            pairs.append(values)
        else:
            refuse_if(values[0] > 1_000_000, 12, line)
            if letter == b".":
                refuse_if(start < len(sheet), 11, line + 1)  # any byte after the full-stop line
                subject = Regions(n, pairs) if kind == b"R" else Polygon(n)
                return subject, subject.H if cap is None else cap, values[0]
            cap = values[0]

# ---- the programs (section 7) ---------------------------------------------------------------------------------

def census(setup, most):
    """The lines program `census` prints."""
    plain, printed = PlainCensus(setup), 0
    while printed < most and plain.at(plain.place) is not None:
        v = plain.current()
        yield f"{setup.rank(v)} {code(setup, v).hex()}"
        printed += 1
        plain.next()
    ending = "whole" if plain.at(plain.place) is None else "open"
    yield f"{ending} {printed} steps {plain.steps}"

DECIMAL = rb" (0|[1-9][0-9]{0,9})"
ACT = re.compile(rb"next|restart|tally|read" + DECIMAL + rb"|save" + DECIMAL + DECIMAL
                 + rb"|resume" + DECIMAL + rb" (-|([0-9a-f][0-9a-f])+)")

def read_act(line):
    """The act and its arguments, or None if the line cannot be read."""
    if not ACT.fullmatch(line):
        return None
    name, *words = line.decode("ascii").split(" ")
    block = [bytes.fromhex(words.pop().replace("-", ""))] if name == "resume" else []
    values = [int(word) for word in words]
    limits = {"read": [LONGEST], "save": [MOST_JOB, LONGEST], "resume": [MOST_JOB]}.get(name, [])
    return (name, *values, *block) if all(a <= b for a, b in zip(values, limits)) else None

def carry_out(plain, name, *values):
    """What the act prints."""
    try:
        answer = getattr(plain, name)(*values)
    except Refused as refused:
        return f"refused {refused}"
    return answer.hex() if isinstance(answer, bytes) else str(answer)

def replay(setup, text):
    """The lines program `replay` prints."""
    *lines, rest = text.split(b"\n")
    acts = [read_act(line) for line in lines] + [None] * (rest != b"")      # an unfinished line is unreadable
    if None in acts:
        return [f"unreadable line {acts.index(None) + 1}"]
    plain = PlainCensus(setup)
    return [carry_out(plain, *act) for act in acts]

def fault_line(fault):
    no, line = fault.args
    return f"fault {no} line {line} layer {LAYER[no]}"

def output(sheet, acts=None):
    """The lines that `census` prints, or with acts those of `replay`."""
    try:
        subject, cap, most = read_sheet(sheet)
    except Refused as fault:
        return [fault_line(fault)]
    setup = Cap(subject, cap)
    return census(setup, most) if acts is None else replay(setup, acts)

def verdict(sheet):
    """The one line that `sheetcheck` prints."""
    try:
        subject, cap, most = read_sheet(sheet)
    except Refused as fault:
        return fault_line(fault)
    letter, pairs = ("P", 0) if isinstance(subject, Polygon) else ("R", len(subject.touch))
    return f"accepted {letter} {subject.n} pairs {pairs} cap {cap} most {most}"

def main(words):
    if words == ["census"]:
        lines = output(sys.stdin.buffer.read(LONGEST + 1))
    elif words == ["sheetcheck"]:
        lines = [verdict(sys.stdin.buffer.read(LONGEST + 1))]
    elif words[:1] == ["replay"] and len(words) == 2:
        with open(words[1], "rb") as file:
            lines = output(file.read(LONGEST + 1), sys.stdin.buffer.read())
    else:
        sys.exit("usage: census.py census < SHEET | census.py sheetcheck < SHEET | census.py replay SHEETFILE < ACTS")
    sys.stdout.writelines(line + "\n" for line in lines)

if __name__ == "__main__":
    main(sys.argv[1:])
