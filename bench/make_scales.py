"""Makes the input of the job over tables with decimals in a folder: the program decimals.sim, which changes nothing, the tables of points, with two fields of scale 4,
and of the springs between them, with a field of scale 2, whole-decimal-points.csv and whole-decimal-springs.csv, and a
quarter of that size, quarter-decimal-points.csv and quarter-decimal-springs.csv. The same bytes come of every run.

Usage: python3 make_scales.py FOLDER
"""
import pathlib
import sys

POINTS = 524288
PROGRAM = """\
element Point
  x : int(4);
  f : int(4);
end
element Spring
  k : int(2);
end
extern points : set{Point};
extern springs : set{Spring}(points, points);
proc main
end
"""
EDGES = ["922337203685477.5807", "-922337203685477.5808", "-0.0001", "0.10000"]


def numbers():
    """Whole numbers of 1 to 10 digits, half of them negative, by a linear congruence modulo 2^64."""
    state = 3
    while True:
        state = (state * 6364136223846793005 + 1442695040888963407) % 2**64
        size = (state >> 16) % 10 ** (1 + (state >> 56) % 10)
        yield -size if state >> 55 & 1 else size


def cell(number, decimals):
    """The text of a number of units with so many decimals; without a point where there are none."""
    sign = "-" if number < 0 else ""
    digits = str(abs(number)).rjust(decimals + 1, "0")
    return f"{sign}{digits[:-decimals]}.{digits[-decimals:]}" if decimals else f"{sign}{digits}"


def write_points(file, count):
    """The ends of the range at scale 4 first. Of the others each fifth cell has no decimals, and the rest one to four."""
    source = numbers()
    file.write("x,f\n")
    for i in range(count):
        if i < len(EDGES):
            file.write(f"{EDGES[i]},{EDGES[i]}\n")
        else:
            file.write(f"{cell(next(source), i % 5)},{cell(next(source), (i + 2) % 5)}\n")


def write_springs(file, points):
    """Twice as many springs as points. Spring j joins the points j and 7j + 7, modulo their number; each third has a
    whole stiffness, and the others one or two decimals."""
    file.write("p0,p1,k\n")
    file.writelines(f"{j % points},{(7 * j + 7) % points},{cell(j % 9973 + 1, j % 3)}\n" for j in range(2 * points))


def main():
    folder = pathlib.Path(sys.argv[1])
    (folder / "decimals.sim").write_text(PROGRAM)
    for size, points in [("whole", POINTS), ("quarter", POINTS // 4)]:
        with open(folder / f"{size}-decimal-points.csv", "w") as file:
            write_points(file, points)
        with open(folder / f"{size}-decimal-springs.csv", "w") as file:
            write_springs(file, points)


main()
