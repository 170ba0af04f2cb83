#!/usr/bin/env python3
"""What the oscillators print, computed without their program."""
from tables import read, show

masses = read("masses.csv")
for mass in masses:
    for _ in range(2):
        mass["v"] -= mass["k"] * mass["x"]
        mass["x"] += mass["v"]
show("masses", masses)
