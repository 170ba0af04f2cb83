"""The benchmark's plain Python program over tables with decimals: reads a table of points with two fields of scale 4 and one
of the springs between them with a field of scale 2 with the csv module, and prints both tables.

Usage: python3 scales.py POINTS SPRINGS
"""
import csv
import re
import sys

SIGN = 2**63
MOST_ROWS = 1048576
CELL = re.compile(r" *(-?)([0-9]+)(?:\.([0-9]+))? *")


def read_cell(cell, scale):
    """The number of units of a scale that a cell states, with spaces round it or none."""
    match = CELL.fullmatch(cell)
    if match is None:
        raise ValueError(cell)
    sign, whole, decimals = match[1], match[2], match[3] or ""
    if decimals[scale:].strip("0"):
        raise ValueError(cell)
    value = int(sign + whole + decimals[:scale].ljust(scale, "0"))
    if not -SIGN <= value < SIGN:
        raise ValueError(cell)
    return value


def text(value, scale):
    """The text of a number of units with as many decimals as its scale, which isn't 0."""
    digits = str(abs(value)).rjust(scale + 1, "0")
    return f"{'-' if value < 0 else ''}{digits[:-scale]}.{digits[-scale:]}"


def read_table(name, headings, scales):
    """The rows as lists of numbers. Blank lines are passed over."""
    with open(name, encoding="utf-8-sig", newline="") as file:
        rows = (row for row in csv.reader(file) if row)
        if [heading.strip(" ") for heading in next(rows, [])] != headings:
            raise ValueError(name)
        table = [[read_cell(cell, scale) for cell, scale in zip(row, scales, strict=True)] for row in rows]
    if len(table) > MOST_ROWS:
        raise ValueError(name)
    return table


def main():
    if len(sys.argv) != 3:
        sys.exit("usage: scales.py POINTS SPRINGS")
    try:
        points = read_table(sys.argv[1], ["x", "f"], [4, 4])
        springs = read_table(sys.argv[2], ["p0", "p1", "k"], [0, 0, 2])
        if not all(0 <= p0 < len(points) and 0 <= p1 < len(points) for p0, p1, _ in springs):
            raise ValueError("endpoint")
    except (ValueError, csv.Error):
        print("refused: table", file=sys.stderr)
        sys.exit(2)
    lines = ["set points\nx,f\n"]
    lines.extend(f"{text(x, 4)},{text(f, 4)}\n" for x, f in points)
    lines.append("set springs\np0,p1,k\n")
    lines.extend(f"{p0},{p1},{text(k, 2)}\n" for p0, p1, k in springs)
    sys.stdout.write("".join(lines))


main()
