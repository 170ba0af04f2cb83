"""Makes the input of the job over springs in a folder: the program pull.sim, and the tables of points and of
the springs between them, whole-points.csv and whole-springs.csv, and a quarter of that size, quarter-points.csv
and quarter-springs.csv. The same bytes come of every run.

Usage: python3 make_springs.py FOLDER
"""
import pathlib
import sys

POINTS = 524288
SEED = 7

PROGRAM = """\
element Point
  x : int(0);
  f : int(0);
end
element Spring
  k : int(0);
end
extern points : set{Point};
extern springs : set{Spring}(points, points);
func pull(s : Spring, p : (Point*2)) -> (f : vector[points](int(0)))
  var d = s.k * (p(1).x - p(0).x);
  f(p(0)) = d;
  f(p(1)) = -d;
end
proc main
  points.f = map pull to springs reduce +;
end
"""


def write_points(file, count):
    file.write("x,f\n")
    file.writelines(f"{(i * i + SEED) % 1000},0\n" for i in range(count))


def write_springs(file, points):
    """Twice as many springs as points. Spring j joins the points j and 7j + SEED, modulo their number."""
    file.write("p0,p1,k\n")
    file.writelines(f"{j % points},{(7 * j + SEED) % points},{j % 97 + 1}\n" for j in range(2 * points))


def main():
    folder = pathlib.Path(sys.argv[1])
    (folder / "pull.sim").write_text(PROGRAM)
    for size, points in [("whole", POINTS), ("quarter", POINTS // 4)]:
        with open(folder / f"{size}-points.csv", "w") as file:
            write_points(file, points)
        with open(folder / f"{size}-springs.csv", "w") as file:
            write_springs(file, points)


main()
