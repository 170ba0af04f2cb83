#!/usr/bin/env python3
"""What the truss prints, computed in whole numbers without its program: 10^6 units are a mil or a kip, `//` rounds down."""
from math import isqrt

from tables import read, show

JOINTS = {"load": 6, "moved": 6}
BARS = {"area": 2, "along": 9, "k": 9, "pull": 6}
MILLION, BILLION = 10**6, 10**9


def shape(bar, joints):
    """Direction and stiffness of a bar."""
    a, b = joints[bar["p0"]], joints[bar["p1"]]
    d = [b[f"at.{c}"] - a[f"at.{c}"] for c in range(2)]
    length = isqrt((d[0] ** 2 + d[1] ** 2) * 10**12)
    for c in range(2):
        bar[f"along.{c}"] = d[c] * 10**15 // length
    bar["k"] = 1000 * bar["area"] * 10**11 // length


def block(bar):
    """A bar's stiffness in the two directions."""
    along = [bar["along.0"], bar["along.1"]]
    return [[bar["k"] * (u * v // BILLION) // BILLION for v in along] for u in along]


def times(bars, free, x):
    """The forces that displacements take, in the directions that are free."""
    sums = [0] * len(x)
    for bar in bars:
        stiffness = block(bar)
        ends = bar["p0"], bar["p1"]
        for row in ends:
            for column in ends:
                sign = 1 if row == column else -1
                for c in range(2):
                    for e in range(2):
                        sums[2 * row + c] += sign * stiffness[c][e] * x[2 * column + e]
    return [f * (s // BILLION) for f, s in zip(free, sums)]


def dot(a, b):
    return sum(u * v for u, v in zip(a, b))


def scaled(factor, vector):
    return [factor * v // BILLION for v in vector]


def conjugate_gradients(bars, free, load, x):
    """Better displacements than x."""
    r = [f * (b - w) for f, b, w in zip(free, load, times(bars, [1] * len(x), x))]
    q, rr = r, dot(r, r)
    for _ in range(16):
        if rr <= 0:
            continue
        w = times(bars, free, q)
        d = dot(q, w)
        if d <= 0:
            continue
        a = rr * BILLION // d
        x = [u + v for u, v in zip(x, scaled(a, q))]
        r = [u - v for u, v in zip(r, scaled(a, w))]
        t = dot(r, r)
        q = [u + v for u, v in zip(r, scaled(t * BILLION // rr, q))]
        rr = t
    return x


def flat(joints, name):
    return [joint[f"{name}.{c}"] for joint in joints for c in range(2)]


joints, bars = read("joints.csv", **JOINTS), read("bars.csv", **BARS)
for bar in bars:
    shape(bar, joints)
free, load = flat(joints, "free"), flat(joints, "load")
moved = [f * v for f, v in zip(free, flat(joints, "moved"))]
for _ in range(2):
    moved = conjugate_gradients(bars, free, load, moved)
for number, joint in enumerate(joints):
    joint["moved.0"], joint["moved.1"] = moved[2 * number], moved[2 * number + 1]
for bar in bars:
    a, b = joints[bar["p0"]], joints[bar["p1"]]
    stretch = sum(bar[f"along.{c}"] * (b[f"moved.{c}"] - a[f"moved.{c}"]) for c in range(2)) // BILLION
    bar["pull"] = bar["k"] * stretch // BILLION
show("joints", joints, **JOINTS)
show("bars", bars, **BARS)
