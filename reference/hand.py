"""Compares census.py with the hand values of section 9, and small set-ups with the laws (sections 2 to 4)."""
import random
from itertools import combinations

from census import Cap, Polygon, Regions, check, listing, mark_block, number, output, read_act, walk

bad = 0


def compare(what, hand, reference):
    global bad
    bad += hand != reference
    print(f"{'same' if hand == reference else 'DIFFERENT'}: {what}: hand {hand}, reference {reference}")


def numbers(setup):
    """N, D, F and the steps of all walks, these taken from the walks alone."""
    objects = list(listing(setup, setup.root))
    filled = sum(setup.slot(v, j) is not None for v in objects for j in range(setup.D))
    return len(objects), setup.D, filled, sum(walks(setup))


def walks(setup):
    v = setup.root
    while v is not None:
        v, steps = walk(setup, v)
        yield steps


def lawful(s):
    """The three laws, Complete, and the steps N x D + F, over all objects as enumerated."""
    objects, places = s.objects(), {}
    for place, v in enumerate(listing(s, s.root)):
        assert v not in places
        places[v] = place
    assert set(places) == set(objects) and len(objects) == len(set(objects)) and places[s.root] == 0
    assert s.rank(s.root) == 0 and s.home(s.root) is None
    for v in objects:
        assert 0 <= s.rank(v) <= s.H
        for j in range(s.D):
            if s.slot(v, j):
                w, k = s.slot(v, j)
                assert w in places and k < s.D and s.slot(w, k) == (v, j)
        if v != s.root:
            parent, _ = s.slot(v, s.home(v))
            assert s.rank(parent) < s.rank(v) and places[parent] < places[v]
    N, D, F, steps = numbers(s)
    assert steps == N * D + F


def sheet(*lines):
    return "".join(line + "\n" for line in lines).encode()


path = Regions(3, [(0, 1), (1, 2)])
value = lambda v: sum(1 << i for i in v)
for name, setup, hand_list, hand_numbers in (
        ("R 3 with 0 1 and 1 2", path, [0, 1, 2, 3, 4, 6, 7], (7, 3, 18, 39)),
        ("the same with C 1", Cap(path, 1), [0, 1, 2, 4], (4, 3, 6, 18)),
        ("R 1", Regions(1, []), [0, 1], (2, 1, 2, 4)),
        ("P 3", Polygon(3), [[]], (1, 3, 0, 3)),
        ("P 4", Polygon(4), [[1], [4]], (2, 6, 2, 14)),
        ("P 5", Polygon(5), [[1, 3], [3, 4], [4, 7], [1, 8], [7, 8]], (5, 10, 10, 60))):
    form = sorted if name[0] == "P" else value
    compare(f"{name}, list", hand_list, [form(v) for v in listing(setup, setup.root)])
    compare(f"{name}, N D F steps", hand_numbers, numbers(setup))

compare("number of (1, 3)", 4, number(1, 3))
compare("number of (22, 23)", 275, number(22, 23))
table = [(a, b) for b in range(24) for a in range(b)]
compare("the numbers of the pairs below 24 are 0 to 275 in the table's order", True,
        [number(a, b) for a, b in table] == list(range(276)))
compare("the table's beginning", [(0, 1), (0, 2), (1, 2), (0, 3), (1, 3), (2, 3), (0, 4), (1, 4), (2, 4), (3, 4)],
        table[:10])
block = mark_block(path, frozenset({0, 1}), 7)
compare("check of {0, 1} under job 7", 87, check(block))
compare("the same block's bytes 508 to 511", "57000000", block[508:].hex())
for line, fault in (("R 64", None), ("R 65", 12), ("P 3", None), ("P 2", 12), ("P 24", None), ("P 25", 12)):
    first = list(output(sheet(line, ". 0")))[0]
    compare(line, "open 0 steps 0" if fault is None else f"fault {fault} line 1 layer 3", first)
compare("R 07", "fault 10 line 1 layer 1", list(output(sheet("R 07", ". 0")))[0])
compare("empty sheet", "fault 14 line 1 layer 2", list(output(b""))[0])
compare("R 1 with . 100", ["0 0000000000000000", "1 0100000000000000", "whole 2 steps 4"],
        list(output(sheet("R 1", ". 100"))))
for text in (b"", b"next ", b" next", b"read 08", b"read 65537", b"save 4294967296 512", b"resume 0 ", b"resume 7 0",
             b"resume 7 0A", b"read  8", b"next\r", b"Next", b"read", b"read 8 8", b"resume 7 -0"):
    assert read_act(text) is None, text
for text in (b"next", b"read 0", b"read 65536", b"save 4294967295 0", b"resume 0 -", b"resume 4294967295 00"):
    assert read_act(text) is not None, text

chance = random.Random(1)
tried = 0
for n in (1, 2, 3, 4, 5, 6):
    for _ in range(6):
        pairs = [p for p in combinations(range(n), 2) if chance.random() < 0.5]
        below = Regions(n, pairs)
        for setup in (below, Cap(below, chance.randrange(n + 2)), Cap(Cap(below, n - 1), 2)):
            lawful(setup)
            tried += 1
for n in (3, 4, 5, 6, 7):
    for c in (0, 1, 2, 1000000):
        lawful(Cap(Polygon(n), c))
        tried += 1
compare("triangulations of 3 to 8 corners (Catalan)", [1, 2, 5, 14, 42, 132],
        [len(Polygon(n).objects()) for n in range(3, 9)])
print(f"{tried} small set-ups keep the laws; their lists are complete; their steps are N x D + F")
print("all same" if bad == 0 else f"{bad} different")
