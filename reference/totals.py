#!/usr/bin/env python3
"""The lines that the program totals has to print, each total from a formula; nothing is listed.

    python3 reference/totals.py > crates/totals/stdout
"""
from math import comb


def catalan(k):
    return comb(2 * k, k) // (k + 1)


# Triangulations of a convex polygon with n corners. Each has n - 3 diagonals, and each diagonal's
# slot is filled.
def polygon(n):
    objects = catalan(n - 2)
    return f"polygon {n} objects {objects} filled {objects * (n - 3)}"


# Connected sets, and the empty one.

# A run of regions is given by its two ends.
def path(n):
    return n * (n + 1) // 2 + 1


# An arc of 1 to n - 1 regions is given by its first region and its length; then the whole cycle.
def cycle(n):
    return n * (n - 1) + 2


# Every set is connected.
def complete(n):
    return 2 ** n


# The middle with any of the others, one of the others alone, or nothing.
def star(n):
    return 2 ** (n - 1) + n


# Connected sets of cells of a square grid of n by n: no closed formula, but known numbers, here
# with the empty set.
GRID = {2: 14, 3: 219, 4: 11507}


def grid(n):
    return GRID[n]


# The sets of at most c regions.
def complete_capped(n, c):
    return sum(comb(n, i) for i in range(c + 1))


# n - k + 1 runs have k regions.
def path_capped(n, c):
    return 1 + sum(n - k + 1 for k in range(1, c + 1))


FAMILIES = [
    (path, [1, 2, 5, 20, 64]),
    (cycle, [3, 4, 10, 64]),
    (complete, [1, 2, 5, 12]),
    (star, [3, 5, 12]),
    (grid, [2, 3, 4]),
]

CAPPED = [
    ("complete", complete_capped, 10, [0, 1, 3, 10]),
    ("complete", complete_capped, 20, [3]),
    ("path", path_capped, 10, [0, 1, 4, 10]),
    ("path", path_capped, 64, [5]),
]


def main():
    for n in range(3, 14):
        print(polygon(n))
    for family, sizes in FAMILIES:
        for n in sizes:
            print(f"{family.__name__} {n} objects {family(n)}")
    for name, family, n, caps in CAPPED:
        for c in caps:
            print(f"{name} {n} cap {c} objects {family(n, c)}")


if __name__ == "__main__":
    main()
