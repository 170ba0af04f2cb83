#!/usr/bin/env python3
"""The network solved in fractions, and how far the voltages and currents in `expected` are from it."""
import csv
from fractions import Fraction

VOLTS, MILLIAMPERES = Fraction(3, 10**6), Fraction(20, 10**6)


def solve(a, b):
    """Gauss, without rounding."""
    n = len(b)
    a = [row + [value] for row, value in zip(a, b)]
    for c in range(n):
        pivot = next(r for r in range(c, n) if a[r][c] != 0)
        a[c], a[pivot] = a[pivot], a[c]
        for r in range(n):
            if r != c:
                factor = a[r][c] / a[c][c]
                a[r] = [u - factor * v for u, v in zip(a[r], a[c])]
    return [a[r][n] / a[r][r] for r in range(n)]


with open("expected") as text:
    first, second = text.read().split("set resistors\n")
nodes = list(csv.DictReader(first.splitlines()[1:]))
resistors = list(csv.DictReader(second.splitlines()))
size = len(nodes)
a = [[Fraction(0)] * size for _ in range(size)]
for resistor in resistors:
    p, q = int(resistor["p0"]), int(resistor["p1"])
    g = 1 / Fraction(resistor["resistance"])
    for row, column, sign in (p, p, 1), (p, q, -1), (q, p, -1), (q, q, 1):
        a[row][column] += sign * g
b = [Fraction(0)] * size
for number, node in enumerate(nodes):
    if node["free"] == "0":
        a[number] = [Fraction(number == column) for column in range(size)]
        b[number] = Fraction(node["voltage"])
v = solve(a, b)
volts = max(abs(u - Fraction(node["voltage"])) for u, node in zip(v, nodes))
currents = [(v[int(r["p0"])] - v[int(r["p1"])]) / Fraction(r["resistance"]) for r in resistors]
milliamperes = max(abs(i - Fraction(r["current"])) for i, r in zip(currents, resistors))
print(f"largest difference: {float(volts):.7f} volts, {float(milliamperes):.7f} milliamperes")
assert volts < VOLTS and milliamperes < MILLIAMPERES
