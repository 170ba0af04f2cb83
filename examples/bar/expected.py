#!/usr/bin/env python3
"""What the bar prints, computed without its program."""
from tables import read, show

nodes, springs = read("nodes.csv"), read("springs.csv")
for _ in range(4):
    force = [0] * len(nodes)
    for spring in springs:
        a, b = spring["p0"], spring["p1"]
        d = spring["k"] * (nodes[b]["x"] - nodes[a]["x"] - spring["rest"])
        force[a] += d
        force[b] -= d
    for node, f in zip(nodes, force):
        node["f"] = f
        node["v"] += node["free"] * (f + node["load"])
        node["x"] += node["v"]
show("nodes", nodes)
show("springs", springs)
