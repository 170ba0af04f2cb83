#!/usr/bin/env python3
"""What the links print, computed in whole numbers without their program: 10^4 units are 1, `//` rounds down."""
from tables import read, show

NODES, LINKS = {"b": 4, "x": 4}, {"k": 4}
UNIT = 10**4

nodes, links = read("nodes.csv", **NODES), read("links.csv", **LINKS)


def flat(name):
    return [node[f"{name}.{c}"] for node in nodes for c in range(3)]


def times(x):
    """The links' stiffness and the unit matrix, times a vector."""
    sums = [UNIT * v for v in x]
    for link in links:
        a, b = 3 * link["p0"], 3 * link["p1"]
        for c in range(3):
            pull = link["k"] * (x[b + c] - x[a + c])
            sums[a + c] -= pull
            sums[b + c] += pull
    return [s // UNIT for s in sums]


def dot(a, b):
    return sum(u * v for u, v in zip(a, b))


x = flat("x")
r = [b - w for b, w in zip(flat("b"), times(x))]
q, rr = r, dot(r, r)
for _ in range(50):
    w = times(q)
    d = dot(q, w)
    if rr > 0 and d != 0:
        a = rr * UNIT // d
        x = [u + a * v // UNIT for u, v in zip(x, q)]
        r = [u - a * v // UNIT for u, v in zip(r, w)]
        t = dot(r, r)
        c = t * UNIT // rr
        q = [u + c * v // UNIT for u, v in zip(r, q)]
        rr = t
for number, node in enumerate(nodes):
    for c in range(3):
        node[f"x.{c}"] = x[3 * number + c]
show("nodes", nodes, **NODES)
show("links", links, **LINKS)
