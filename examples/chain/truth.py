#!/usr/bin/env python3
"""The chain at rest in double precision, by Newton's method on its forces, and how far the places in `expected` are from it."""
import csv
from math import hypot

LARGEST = 0.00000001  # metres


def solve(a, b):
    """Gauss, with the largest pivot of a column."""
    n = len(b)
    a = [row + [value] for row, value in zip(a, b)]
    for c in range(n):
        pivot = max(range(c, n), key=lambda r: abs(a[r][c]))
        a[c], a[pivot] = a[pivot], a[c]
        for r in range(c + 1, n):
            factor = a[r][c] / a[c][c]
            a[r] = [u - factor * v for u, v in zip(a[r], a[c])]
    x = [0.0] * n
    for r in reversed(range(n)):
        x[r] = (a[r][n] - sum(a[r][c] * x[c] for c in range(r + 1, n))) / a[r][r]
    return x


def forces(x):
    """The force on each mass, and how it changes with the places."""
    f = [float(masses[i // 2][f"load.{i % 2}"]) for i in range(size)]
    change = [[0.0] * size for _ in range(size)]
    for link in links:
        a, b = int(link["p0"]), int(link["p1"])
        k, rest = float(link["stiffness"]), float(link["rest"])
        d = [x[2 * b + c] - x[2 * a + c] for c in range(2)]
        length = hypot(*d)
        for c in range(2):
            f[2 * a + c] += k * (length - rest) * d[c] / length
            f[2 * b + c] -= k * (length - rest) * d[c] / length
            for e in range(2):
                along = d[c] * d[e] / length**2
                slope = k * (along + (1 - rest / length) * ((c == e) - along))
                for row, column, sign in (a, a, -1), (a, b, 1), (b, a, 1), (b, b, -1):
                    change[2 * row + c][2 * column + e] += sign * slope
    return f, change


with open("expected") as text:
    first, second = text.read().split("set links\n")
masses = list(csv.DictReader(first.splitlines()[1:]))
links = list(csv.DictReader(second.splitlines()))
size = 2 * len(masses)
free = [i for i in range(size) if masses[i // 2][f"free.{i % 2}"] == "1"]
printed = [float(masses[i // 2][f"at.{i % 2}"]) for i in range(size)]
x = list(printed)
for _ in range(20):
    f, change = forces(x)
    move = solve([[-change[r][c] for c in free] for r in free], [f[i] for i in free])
    for i, step in zip(free, move):
        x[i] += step
f, _ = forces(x)
assert max(abs(f[i]) for i in free) < 1e-9
difference = max(abs(u - v) for u, v in zip(x, printed))
print(f"largest difference of a place: {difference:.9f} metres")
assert difference < LARGEST
