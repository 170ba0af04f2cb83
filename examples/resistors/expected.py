#!/usr/bin/env python3
"""What the network prints, computed in whole numbers without its program: 10^6 units are a volt or a milliampere, `//` rounds
down."""
from tables import read, show

NODES, RESISTORS = {"voltage": 6, "out": 6}, {"resistance": 3, "current": 6}
BILLION = 10**9

nodes, resistors = read("nodes.csv", **NODES), read("resistors.csv", **RESISTORS)
free = [node["free"] for node in nodes]


def flow(v):
    """What flows out of each node at these voltages."""
    out = [0] * len(v)
    for resistor in resistors:
        a, b = resistor["p0"], resistor["p1"]
        g = 10**12 // resistor["resistance"]
        out[a] += g * (v[a] - v[b])
        out[b] += g * (v[b] - v[a])
    return [f // BILLION for f in out]


def dot(a, b):
    return sum(u * w for u, w in zip(a, b))


def more(a, factor, b):
    return [u + factor * w // BILLION for u, w in zip(a, b)]


v = [node["voltage"] for node in nodes]
for _ in range(2):
    r = [-f * i for f, i in zip(free, flow(v))]
    q, rr = r, dot(r, r)
    for _ in range(20):
        w = [f * i for f, i in zip(free, flow(q))]
        d = dot(q, w)
        if rr > 0 and d > 0:
            a = rr * BILLION // d
            v = more(v, a, q)
            r = [u - a * i // BILLION for u, i in zip(r, w)]
            t = dot(r, r)
            q, rr = more(r, t * BILLION // rr, q), t
for node, voltage in zip(nodes, v):
    node["voltage"], node["out"] = voltage, 0
for resistor in resistors:
    a, b = nodes[resistor["p0"]], nodes[resistor["p1"]]
    resistor["current"] = (a["voltage"] - b["voltage"]) * 1000 // resistor["resistance"]
    a["out"] += resistor["current"]
    b["out"] -= resistor["current"]
show("nodes", nodes, **NODES)
show("resistors", resistors, **RESISTORS)
