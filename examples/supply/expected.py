#!/usr/bin/env python3
"""What the supply prints, computed without its program."""
from tables import read, show

places, roads = read("places.csv"), read("roads.csv")
for place in places:
    place["roads"] = 0
for road in roads:
    places[road["p0"]]["roads"] += 1
for _ in range(60):
    come = [place["made"] for place in places]
    for road in roads:
        start = places[road["p0"]]
        load = min(start["stock"] // start["roads"], road["most"])
        come[road["p0"]] -= load
        come[road["p1"]] += load
        road["carried"] += load
    for place, crates in zip(places, come):
        place["stock"] += crates
        sold = min(place["stock"], place["wanted"])
        place["stock"] -= sold
        place["sold"] += sold
        place["missed"] += place["wanted"] - sold
show("places", places)
show("roads", roads)
