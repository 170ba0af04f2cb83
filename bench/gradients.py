#!/usr/bin/env python3
"""Conjugate gradients on a graph of springs, in whole numbers, as a user writes it by hand.

    python3 gradients.py N M                     prints the two tables after the run
    python3 gradients.py N M DIR                 writes cg.sim, nodes.csv and links.csv to DIR and stops
    python3 gradients.py NODES.csv LINKS.csv     the same as the first, with the tables read from files

Four decimals: a number v stands for v / 10000.  `//` is the floor.  Words are 64 bits; every
vector and scalar is brought back to the signed reading of its word.
"""
import sys
from operator import mul

PROGRAM = """element Node
  b : vector[3](int(4));
  x : vector[3](int(4));
end
element Link
  k : int(4);
end
extern nodes : set{Node};
extern links : set{Link}(nodes, nodes);
func stiff(s : Link, p : (Node*2))
    -> (A : matrix[nodes,nodes](matrix[3,3](int(4))))
  var B = s.k * [1, 0, 0; 0, 1, 0; 0, 0, 1];
  A(p(0),p(0)) = B;
  A(p(0),p(1)) = -B;
  A(p(1),p(0)) = -B;
  A(p(1),p(1)) = B;
end
func mass(n : Node) -> (M : matrix[nodes,nodes](matrix[3,3](int(4))))
  M(n,n) = 1.0000 * [1, 0, 0; 0, 1, 0; 0, 0, 1];
end
proc main
  var A = map stiff to links reduce +;
  var M = map mass to nodes reduce +;
  var H = A + M;
  var x = nodes.x;
  var r = nodes.b - rescale(H*x, 4);
  var q = r;
  var rr = dot(r, r);
  for i in 0:50
    if rr > 0.00000000
      var w = rescale(H*q, 4);
      var d = dot(q, w);
      if d != 0.00000000
        var a = quot(rr, d, 4);
        x = x + rescale(a*q, 4);
        r = r - rescale(a*w, 4);
        var t = dot(r, r);
        var c = quot(t, rr, 4);
        q = r + rescale(c*q, 4);
        rr = t;
      end
    end
  end
  nodes.x = x;
end
"""

ONE = 10000
HALF = 1 << 63
FULL = 1 << 64


def word(v):
    v &= FULL - 1
    return v - FULL if v >= HALF else v


def fit(v):
    """The list with every entry in its signed reading."""
    if v and (max(v) >= HALF or min(v) < -HALF):
        return [word(e) for e in v]
    return v


def dot(a, b):
    return word(sum(map(mul, a, b)))


def solve(n, ends, ks, b, x):
    """b and x are flat lists of 3n entries; the answer is x after at most 50 steps."""
    # The links as sparse rows: for each node its neighbours and the weights.  Two links
    # between the same nodes are one entry, and a link from a node to itself is nothing.
    weight = {}
    diagonal = [ONE] * n
    for (i, j), k in zip(ends, ks):
        if i != j:
            diagonal[i] += k
            diagonal[j] += k
            weight[i, j] = weight.get((i, j), 0) - k
            weight[j, i] = weight.get((j, i), 0) - k
    rows = [[] for _ in range(n)]
    for (i, j), k in weight.items():
        rows[i].append((3 * j, k))
    rows = [(3 * i, diagonal[i], rows[i]) for i in range(n)]

    def apply(x):
        out = []
        for i, d, row in rows:
            s0 = d * x[i]
            s1 = d * x[i + 1]
            s2 = d * x[i + 2]
            for j, k in row:
                s0 += k * x[j]
                s1 += k * x[j + 1]
                s2 += k * x[j + 2]
            out.append(s0)
            out.append(s1)
            out.append(s2)
        return [v // ONE for v in fit(out)]

    r = fit([p - q for p, q in zip(b, apply(x))])
    q = r
    rr = dot(r, r)
    for _ in range(50):
        if rr <= 0:
            break               # the rest of the turns change nothing
        w = apply(q)
        d = dot(q, w)
        if d == 0:
            break
        a = word(rr * ONE // d)
        x = fit([e + v // ONE for e, v in zip(x, fit([a * e for e in q]))])
        r = fit([e - v // ONE for e, v in zip(r, fit([a * e for e in w]))])
        t = dot(r, r)
        c = word(t * ONE // rr)
        q = fit([e + v // ONE for e, v in zip(r, fit([c * e for e in q]))])
        rr = t
    return x


def cell(v):
    if v < 0:
        return "-%d.%04d" % divmod(-v, ONE)
    return "%d.%04d" % divmod(v, ONE)


def read_cell(text):
    """A cell of at most four decimals, in units of 1 / 10000."""
    whole, _, decimals = text.strip().partition(".")
    return int(whole + decimals.rstrip("0").ljust(4, "0"))


def read(nodes, links):
    with open(nodes) as f:
        next(f)
        cells = [list(map(read_cell, line.split(","))) for line in f]
    b = [v for row in cells for v in row[:3]]
    x = [v for row in cells for v in row[3:]]
    ends, ks = [], []
    with open(links) as f:
        next(f)
        for line in f:
            i, j, k = line.split(",")
            ends.append((int(i), int(j)))
            ks.append(read_cell(k))
    return b, x, ends, ks


HEADS = "b.0,b.1,b.2,x.0,x.1,x.2\n"


def write(to, n, m):
    with open(to + "/cg.sim", "w") as f:
        f.write(PROGRAM)
    with open(to + "/nodes.csv", "w") as f:
        f.write(HEADS)
        for i in range(n):
            f.write("%d,%d,%d,0,0,0\n" % (7 * i % 10, (7 * i + 3) % 10, (7 * i + 6) % 10))
    with open(to + "/links.csv", "w") as f:
        f.write("p0,p1,k\n")
        for e in range(m):
            f.write("%d,%d,%d\n" % (e % n, (3 * e + 1) % n, e % 9 + 1))


def main():
    first, second = sys.argv[1:3]
    if len(sys.argv) > 3:
        write(sys.argv[3], int(first), int(second))
        return
    if first.isdigit():
        n, m = int(first), int(second)
        b = [ONE * ((7 * i + 3 * c) % 10) for i in range(n) for c in range(3)]
        x = [0] * (3 * n)
        ends = [(e % n, (3 * e + 1) % n) for e in range(m)]
        ks = [ONE * (e % 9 + 1) for e in range(m)]
    else:
        b, x, ends, ks = read(first, second)
    x = solve(len(b) // 3, ends, ks, b, x)
    out = ["set nodes\n", HEADS]
    for i in range(0, len(b), 3):
        out.append(",".join(map(cell, b[i:i + 3] + x[i:i + 3])) + "\n")
    out.append("set links\np0,p1,k\n")
    for (i, j), k in zip(ends, ks):
        out.append("%d,%d,%s\n" % (i, j, cell(k)))
    sys.stdout.write("".join(out))


if __name__ == "__main__":
    main()
