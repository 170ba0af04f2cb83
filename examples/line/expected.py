#!/usr/bin/env python3
"""What the line prints, computed in whole numbers without its program: 10^6 units are a millimetre or a newton, `//` rounds
down."""
from tables import read, show

WEIGHTS, SPRINGS = {"load": 3, "moved": 6}, {"k": 3, "pull": 6}
BILLION = 10**9

weights, springs = read("weights.csv", **WEIGHTS), read("springs.csv", **SPRINGS)
free = [weight["free"] for weight in weights]


def forces(x):
    """What the springs pull at each weight, the other way round."""
    sums = [0] * len(x)
    for spring in springs:
        a, b = spring["p0"], spring["p1"]
        pull = spring["k"] * (x[b] - x[a])
        sums[a] -= pull
        sums[b] += pull
    return [f * (s // 1000) for f, s in zip(free, sums)]


def dot(a, b):
    return sum(u * v for u, v in zip(a, b))


x = [f * weight["moved"] for f, weight in zip(free, weights)]
for _ in range(2):
    r = [f * 1000 * weight["load"] - s for f, weight, s in zip(free, weights, forces(x))]
    q, rr = r, dot(r, r)
    for _ in range(20):
        w = forces(q)
        d = dot(q, w)
        if rr > 0 and d > 0:
            a = rr * BILLION // d
            x = [u + a * v // BILLION for u, v in zip(x, q)]
            r = [u - a * v // BILLION for u, v in zip(r, w)]
            t = dot(r, r)
            c = t * BILLION // rr
            q = [u + c * v // BILLION for u, v in zip(r, q)]
            rr = t
for weight, moved in zip(weights, x):
    weight["moved"] = moved
for spring in springs:
    spring["pull"] = spring["k"] * (x[spring["p1"]] - x[spring["p0"]]) // 1000
show("weights", weights, **WEIGHTS)
show("springs", springs, **SPRINGS)
