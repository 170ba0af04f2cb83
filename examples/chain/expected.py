#!/usr/bin/env python3
"""What the chain prints, computed in whole numbers without its program: 10^9 units are a metre, a metre a second or a newton, `//`
rounds down."""
from math import isqrt

from tables import read, show

MASSES = {"at": 9, "speed": 9, "load": 9}
LINKS = {"rest": 9, "pull": 6}
MILLION = 10**6
PLANE = range(2)

masses, links = read("masses.csv", **MASSES), read("links.csv", **LINKS)
at = [[mass[f"at.{c}"] for c in PLANE] for mass in masses]
speed = [[mass[f"speed.{c}"] for c in PLANE] for mass in masses]
for _ in range(6000):
    force = [[mass[f"load.{c}"] for c in PLANE] for mass in masses]
    for link in links:
        a, b = link["p0"], link["p1"]
        d = [at[b][c] - at[a][c] for c in PLANE]
        length = isqrt(d[0] ** 2 + d[1] ** 2)
        tension = link["stiffness"] * (length - link["rest"])
        link["pull"] = tension // 1000
        share = tension * MILLION // length
        for c in PLANE:
            force[a][c] += share * d[c] // MILLION
            force[b][c] -= share * d[c] // MILLION
    for mass, v, x, f in zip(masses, speed, at, force):
        for c in PLANE:
            v[c] = (98 * v[c] + mass[f"free.{c}"] * f[c]) // 100
            x[c] += v[c] // 100
for mass, v, x in zip(masses, speed, at):
    for c in PLANE:
        mass[f"at.{c}"], mass[f"speed.{c}"] = x[c], v[c]
show("masses", masses, **MASSES)
show("links", links, **LINKS)
