#!/usr/bin/env python3
"""The line solved in fractions, and how far the places in `expected` are from it."""
import csv
from fractions import Fraction

LARGEST = Fraction(2, 10**6)  # millimetres

with open("expected") as text:
    first, second = text.read().split("set springs\n")
weights = list(csv.DictReader(first.splitlines()[1:]))
springs = list(csv.DictReader(second.splitlines()))
# The force in the first spring fixes that in all others; so does the sum of all lengths, which the walls keep.
pulls = [Fraction(0)]
for weight in weights[1:-1]:
    pulls.append(pulls[-1] - Fraction(weight["load"]))
soft = [1 / Fraction(spring["k"]) for spring in springs]
first_pull = -sum(p * s for p, s in zip(pulls, soft)) / sum(soft)
moved, difference = Fraction(0), Fraction(0)
for p, s, weight in zip(pulls, soft, weights[1:]):
    moved += (first_pull + p) * s
    difference = max(difference, abs(moved - Fraction(weight["moved"])))
print(f"largest difference of a place: {float(difference):.7f} millimetres")
assert moved == 0 and difference < LARGEST
