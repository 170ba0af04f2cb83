"""The benchmark's plain Python program: reads a table of the fields x and f with the csv module,
runs the four statements of four.sim over it modulo 2^64, and prints the table.

Usage: python3 table.py TABLE
"""
import csv
import re
import sys

MASK = 2**64 - 1
SIGN = 2**63
MOST_ROWS = 1048576
CELL = re.compile(r" *(-?[0-9]+)(?:\.0+)? *")


def read_cell(cell):
    """The word of a cell: a whole number of the signed range, with spaces round it or none."""
    number = CELL.fullmatch(cell)
    if number is None:
        raise ValueError(cell)
    value = int(number[1])
    if not -SIGN <= value < SIGN:
        raise ValueError(cell)
    return value & MASK


def read_table(name):
    """The two columns as lists of words. Blank lines are passed over."""
    with open(name, encoding="utf-8-sig", newline="") as file:
        rows = (row for row in csv.reader(file) if row)
        header = next(rows, [])
        if [heading.strip(" ") for heading in header] != ["x", "f"]:
            raise ValueError(header)
        x, f = [], []
        for left, right in rows:
            x.append(read_cell(left))
            f.append(read_cell(right))
    if len(x) > MOST_ROWS:
        raise ValueError(len(x))
    return x, f


def run(x, f):
    """The four statements, each over the whole columns before the next."""
    f = [(2 * a - b * b) & MASK for a, b in zip(x, f)]
    x = [(-a + b) & MASK for a, b in zip(x, f)]
    f = [(3 * b - 5 * a * b + a) & MASK for a, b in zip(x, f)]
    x = [(a * a - 7 * b) & MASK for a, b in zip(x, f)]
    return x, f


def text(x, f):
    """The table with its words in their signed reading."""
    lines = ["set points\nx,f\n"]
    lines.extend(f"{(a ^ SIGN) - SIGN},{(b ^ SIGN) - SIGN}\n" for a, b in zip(x, f))
    return "".join(lines)


def main():
    if len(sys.argv) != 2:
        sys.exit("usage: table.py TABLE")
    try:
        columns = read_table(sys.argv[1])
    except (ValueError, csv.Error):
        print("refused: table", file=sys.stderr)
        sys.exit(2)
    sys.stdout.write(text(*run(*columns)))


main()
