"""Makes the input of the job over one table in a folder: the program four.sim, the table whole-points.csv and
its first quarter, quarter-points.csv. The same bytes come of every run.

Usage: python3 make_input.py FOLDER
"""
import pathlib
import sys

ROWS = 1048576

PROGRAM = """\
element Point
  x : int(0);
  f : int(0);
end
extern points : set{Point};
proc main
  points.f = 2*points.x - points.f .* points.f;
  points.x = -points.x + points.f;
  points.f = 3*points.f - 5*points.x .* points.f + points.x;
  points.x = points.x .* points.x - 7*points.f;
end
"""

EDGES = [(0, 0), (-1, 1), (2**63 - 1, -(2**63)), (-(2**63), 2**63 - 1)]


def numbers():
    """Whole numbers of 1 to 10 digits, half of them negative, by a linear congruence modulo 2^64."""
    state = 1
    while True:
        state = (state * 6364136223846793005 + 1442695040888963407) % 2**64
        size = (state >> 16) % 10 ** (1 + (state >> 56) % 10)
        yield -size if state >> 55 & 1 else size


def full_range():
    """Whole numbers of the whole signed range, by another such congruence."""
    state = 2
    while True:
        state = (state * 3935559000370003845 + 2691343689449507681) % 2**64
        yield state - 2**63


def lines(rows):
    """The table's lines after its header: the edges of the range first, then every 256th row of its
    whole width, and smaller numbers else."""
    small, wide = numbers(), full_range()
    for row in range(rows):
        if row < len(EDGES):
            x, f = EDGES[row]
        else:
            source = wide if row % 256 == 0 else small
            x, f = next(source), next(source)
        yield f"{x},{f}\n"


def main():
    folder = pathlib.Path(sys.argv[1])
    (folder / "four.sim").write_text(PROGRAM)
    with open(folder / "whole-points.csv", "w") as points, open(folder / "quarter-points.csv", "w") as quarter:
        points.write("x,f\n")
        quarter.write("x,f\n")
        for row, line in enumerate(lines(ROWS)):
            points.write(line)
            if row < ROWS // 4:
                quarter.write(line)


main()
