#!/usr/bin/env python3
"""The house in double precision: how far the temperatures in `expected` are from the same steps with no rounding, and from
steps of a second, which tell what steps of a minute cost."""
import csv

ROUNDING, STEPS = 0.000001, 0.003  # degrees


def day(seconds):
    """The temperatures after a day in steps of so many seconds."""
    t = [float(room["temperature"]) for room in rooms]
    for _ in range(86400 // seconds):
        gained = [float(room["heater"]) for room in rooms]
        for wall in walls:
            a, b = int(wall["p0"]), int(wall["p1"])
            watts = float(wall["conductance"]) * (t[a] - t[b])
            gained[a] -= watts
            gained[b] += watts
        t = [v + int(room["free"]) * seconds * w / float(room["capacity"]) for v, w, room in zip(t, gained, rooms)]
    return t


def difference(t):
    return max(abs(v - w) for v, w in zip(t, printed))


with open("rooms.csv", newline="") as text:
    rooms = list(csv.DictReader(text))
with open("walls.csv", newline="") as text:
    walls = list(csv.DictReader(text))
with open("expected") as text:
    table = text.read().split("set walls")[0].splitlines()[1:]
printed = [float(row["temperature"]) for row in csv.DictReader(table)]
rounding, steps = difference(day(60)), difference(day(1))
print(f"by rounding {rounding:.9f} degrees, by steps of a minute {steps:.6f}")
assert rounding < ROUNDING and steps < STEPS
