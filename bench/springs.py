"""The benchmark's Python program over springs: reads both tables with pandas, adds up what each spring pulls at
its two points with NumPy modulo 2^64, and prints the tables. Where these packages are not installed it does
the same with the csv module and plain Python integers.

Usage: python3 springs.py POINTS SPRINGS
"""
import sys

MOST_ROWS = 1048576


def refuse():
    print("refused: table", file=sys.stderr)
    sys.exit(2)


def with_pandas(pandas, numpy, points_file, springs_file):
    points = pandas.read_csv(points_file, dtype="int64", skipinitialspace=True)
    springs = pandas.read_csv(springs_file, dtype="int64", skipinitialspace=True)
    if list(points.columns) != ["x", "f"] or list(springs.columns) != ["p0", "p1", "k"]:
        raise ValueError("header")
    count = len(points)
    ends = springs[["p0", "p1"]].to_numpy()
    if len(springs) and not (0 <= ends.min() and ends.max() < count):
        raise ValueError("endpoint")
    if max(count, len(springs)) > MOST_ROWS:
        raise ValueError("rows")
    x = points["x"].to_numpy().view("uint64")
    force = springs["k"].to_numpy().view("uint64") * (x[ends[:, 1]] - x[ends[:, 0]])
    total = numpy.zeros(count, "uint64")
    numpy.add.at(total, ends[:, 0], force)
    numpy.subtract.at(total, ends[:, 1], force)
    points["f"] = total.view("int64")
    sys.stdout.write("set points\n")
    points.to_csv(sys.stdout, index=False)
    sys.stdout.write("set springs\n")
    springs.to_csv(sys.stdout, index=False)


def read_rows(csv, name, header):
    with open(name, encoding="utf-8-sig", newline="") as file:
        rows = (row for row in csv.reader(file) if row)
        if [heading.strip(" ") for heading in next(rows, [])] != header:
            raise ValueError("header")
        numbers = [[int(cell) for cell in row] for row in rows]
    if any(len(row) != len(header) for row in numbers) or len(numbers) > MOST_ROWS:
        raise ValueError("rows")
    return numbers


def with_csv(csv, points_file, springs_file):
    points = read_rows(csv, points_file, ["x", "f"])
    springs = read_rows(csv, springs_file, ["p0", "p1", "k"])
    x = [row[0] for row in points]
    f = [0] * len(x)
    for start, end, k in springs:
        if not (0 <= start < len(x) and 0 <= end < len(x)):
            raise ValueError("endpoint")
        force = k * (x[end] - x[start])
        f[start] += force
        f[end] -= force
    signed = [((word + 2**63) & (2**64 - 1)) - 2**63 for word in f]
    lines = ["set points\nx,f\n"]
    lines.extend(f"{a},{b}\n" for a, b in zip(x, signed))
    lines.append("set springs\np0,p1,k\n")
    lines.extend(f"{a},{b},{c}\n" for a, b, c in springs)
    sys.stdout.write("".join(lines))


def main():
    if len(sys.argv) != 3:
        sys.exit("usage: springs.py POINTS SPRINGS")
    try:
        import numpy
        import pandas
    except ImportError:
        pandas = None
    try:
        if pandas is None:
            import csv

            with_csv(csv, *sys.argv[1:])
        else:
            with_pandas(pandas, numpy, *sys.argv[1:])
    except ValueError:
        refuse()


main()
