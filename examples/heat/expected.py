#!/usr/bin/env python3
"""What the house prints, computed in whole numbers without its program: 10^9 units are a degree, 10^6 a watt, `//` rounds down."""
from tables import read, show

ROOMS, WALLS = {"temperature": 9}, {"conductance": 1, "flow": 6}
MILLION = 10**6

rooms, walls = read("rooms.csv", **ROOMS), read("walls.csv", **WALLS)
for _ in range(1440):
    gained = [room["heater"] * MILLION for room in rooms]
    for wall in walls:
        a, b = wall["p0"], wall["p1"]
        wall["flow"] = wall["conductance"] * (rooms[a]["temperature"] - rooms[b]["temperature"]) // 10**4
        gained[a] -= wall["flow"]
        gained[b] += wall["flow"]
    for room, watts in zip(rooms, gained):
        share = 60 * 10**12 // room["capacity"]
        room["temperature"] += room["free"] * (share * watts // 10**9)
show("rooms", rooms, **ROOMS)
show("walls", walls, **WALLS)
