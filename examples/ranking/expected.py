#!/usr/bin/env python3
"""What the ranking prints, computed in whole numbers without its program: 10^12 units are a chance of 1, `//` rounds down."""
from tables import read, show

PAGES = {"rank": 12}
UNIT = 10**12

pages, links = read("pages.csv", **PAGES), read("links.csv")
number = len(pages)
for page in pages:
    page["links"] = 0
    page["rank"] = UNIT // number
for link in links:
    pages[link["p0"]]["links"] += 1
for _ in range(100):
    followed = [0] * number
    for link in links:
        page = pages[link["p0"]]
        followed[link["p1"]] += page["rank"] // page["links"]
    stayed = sum(page["rank"] for page in pages if page["links"] == 0)
    share = (15 * UNIT + 85 * stayed) // 100 // number
    for page, rank in zip(pages, followed):
        page["rank"] = share + 85 * rank // 100
show("pages", pages, **PAGES)
show("links", links)
