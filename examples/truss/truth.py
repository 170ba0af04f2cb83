#!/usr/bin/env python3
"""The truss in double precision, by elimination, and how far the displacements in `expected` are from it."""
import csv
from math import hypot

LARGEST = 0.003  # mils


def solve(a, b):
    """Gauss, with the largest pivot of a column."""
    n = len(b)
    a = [row + [value] for row, value in zip(a, b)]
    for c in range(n):
        pivot = max(range(c, n), key=lambda r: abs(a[r][c]))
        a[c], a[pivot] = a[pivot], a[c]
        for r in range(c + 1, n):
            factor = a[r][c] / a[c][c]
            a[r] = [u - factor * v for u, v in zip(a[r], a[c])]
    x = [0.0] * n
    for r in reversed(range(n)):
        x[r] = (a[r][n] - sum(a[r][c] * x[c] for c in range(r + 1, n))) / a[r][r]
    return x


with open("joints.csv", newline="") as text:
    joints = list(csv.DictReader(text))
with open("bars.csv", newline="") as text:
    bars = list(csv.DictReader(text))
size = 2 * len(joints)
stiffness = [[0.0] * size for _ in range(size)]
for bar in bars:
    ends = int(bar["p0"]), int(bar["p1"])
    d = [float(joints[ends[1]][f"at.{c}"]) - float(joints[ends[0]][f"at.{c}"]) for c in range(2)]
    length = hypot(*d)
    for row in ends:
        for column in ends:
            sign = 1 if row == column else -1
            for c in range(2):
                for e in range(2):
                    stiffness[2 * row + c][2 * column + e] += sign * 10 * float(bar["area"]) / length * d[c] * d[e] / length**2
free = [i for i in range(size) if joints[i // 2][f"free.{i % 2}"] == "1"]
moved = solve([[stiffness[r][c] for c in free] for r in free], [float(joints[i // 2][f"load.{i % 2}"]) for i in free])
with open("expected") as text:
    rows = list(csv.DictReader(text.read().split("set bars")[0].splitlines()[1:]))
difference = max(abs(value - float(rows[i // 2][f"moved.{i % 2}"])) for i, value in zip(free, moved))
print(f"largest difference of a displacement: {difference:.7f} mils")
assert difference < LARGEST
