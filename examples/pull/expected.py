#!/usr/bin/env python3
"""What the pulling springs print, computed without their program."""
from tables import read, show

points, springs = read("points.csv"), read("springs.csv")
for point in points:
    point["f"] = 0
for spring in springs:
    a, b = points[spring["p0"]], points[spring["p1"]]
    d = spring["k"] * (b["x"] - a["x"])
    a["f"] += d
    b["f"] -= d
show("points", points)
show("springs", springs)
