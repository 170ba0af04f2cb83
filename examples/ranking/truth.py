#!/usr/bin/env python3
"""The ranking in fractions, as the solution of its equations, and how far the ranks in `expected` are from it."""
import csv
from fractions import Fraction

LARGEST = Fraction(1, 10**10)
FOLLOWED = Fraction(85, 100)


def solve(a, b):
    """Gauss, without rounding."""
    n = len(b)
    a = [row + [value] for row, value in zip(a, b)]
    for c in range(n):
        pivot = next(r for r in range(c, n) if a[r][c] != 0)
        a[c], a[pivot] = a[pivot], a[c]
        for r in range(n):
            if r != c:
                factor = a[r][c] / a[c][c]
                a[r] = [u - factor * v for u, v in zip(a[r], a[c])]
    return [a[r][n] / a[r][r] for r in range(n)]


with open("expected") as text:
    first, second = text.read().split("set links\n")
pages = list(csv.DictReader(first.splitlines()[1:]))
links = [(int(row["p0"]), int(row["p1"])) for row in csv.DictReader(second.splitlines())]
number = len(pages)
# rank[i] = 0.15/number + 0.85 * (the sum of rank[j]/links[j] over the links from j to i + the same share of every page without links)
a = [[Fraction(i == j) for j in range(number)] for i in range(number)]
for j in range(number):
    out = [q for p, q in links if p == j]
    for i in out or range(number):
        a[i][j] -= FOLLOWED / (len(out) or number)
rank = solve(a, [(1 - FOLLOWED) / number] * number)
difference = max(abs(u - Fraction(page["rank"])) for u, page in zip(rank, pages))
print(f"largest difference of a rank: {float(difference):.13f}")
assert sum(rank) == 1 and difference < LARGEST
