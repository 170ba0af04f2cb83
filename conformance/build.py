#!/usr/bin/env python3
"""Writes the hand-written programs to work/programs, those with command options to work/programs-options, and again those over
the limit of dense words to work/programs-sparse, each with the answer that reference.py gives, and stops where that differs from
the answer given here by hand or by second.py.  `want` is the whole output, a dict of columns `set.heading`, or a note line; without
it, reference.py stands alone, and the run ends Done unless a `status` is given."""
import os
import shutil
import sys
import reference
from second import *

HERE = os.path.join(os.path.dirname(os.path.abspath(__file__)), "work")
HEAD = """element Point
  x : int(0);
  f : int(0);
end
element Spring
  k : int(0);
end
extern points : set{Point};
extern springs : set{Spring}(points, points);
"""
POINTS = "x,f\n0,0\n10,0\n25,0\n"
SPRINGS = "p0,p1,k\n0,1,2\n1,2,3\n"
groups = {}
checked = set()
names = set()


def columns(out):
    got = {}
    lines = out.split("\n")
    i = 0
    while i < len(lines) and lines[i].startswith("set "):
        s = lines[i][4:]
        heads = lines[i + 1].split(",")
        i += 2
        cols = [[] for _ in heads]
        while i < len(lines) and lines[i] != "" and not lines[i].startswith("set "):
            for c, v in zip(cols, lines[i].split(",")):
                c.append(v)
            i += 1
        for h, c in zip(heads, cols):
            got[s + "." + h] = c
    return got


def case(group, name, program, tables, want=None, turns=None, status=None, gen=False):
    assert name not in names, name
    names.add(name)
    where = os.path.join(HERE, "programs-options" if turns is not None else "programs", name)
    if os.path.isdir(where):
        shutil.rmtree(where)
    os.makedirs(where)
    words = ["program.sim"]
    with open(os.path.join(where, "program.sim"), "w") as f:
        f.write(program)
    for s, text in tables:
        with open(os.path.join(where, s + ".csv"), "wb") as f:
            f.write(text if isinstance(text, bytes) else text.encode())
        words.append(s + ".csv")
    if turns is not None:
        words += ["--turns", str(turns)]
    back = os.getcwd()
    os.chdir(where)
    try:
        st, out, note = reference.main(words)
    finally:
        os.chdir(back)
    with open(os.path.join(where, "words"), "w") as f:
        f.write("".join(w + "\n" for w in words))
    with open(os.path.join(where, "out"), "w") as f:
        f.write(out)
    with open(os.path.join(where, "note"), "w") as f:
        f.write("" if note is None else note + "\n")
    with open(os.path.join(where, "status"), "w") as f:
        f.write("%d\n" % st)
    groups.setdefault(group, []).append(name)
    if note is not None and note.startswith("limit: dense words"):
        sparse(name, where, words)

    def bad(why):
        sys.stderr.write("DIFFERS %s: %s\nstatus %d note %s\n%s" % (name, why, st, note, out))
        raise SystemExit(1)
    if want is None:
        if status is None and st != 0:
            bad("not Done")
    elif isinstance(want, dict):
        if st != 0:
            bad("not Done")
        got = columns(out)
        for k, v in want.items():
            v = [str(e) for e in v]
            if got.get(k) != v:
                bad("%s: want %s, got %s" % (k, v, got.get(k)))
    elif want.startswith("set ") or want == "":
        if st != 0 or out != want:
            bad("want\n" + want)
    else:
        if note != want or out != "":
            bad("want " + want)
        code = {"trap": 5, "spen": 6, "limi": 7, "refu": 2, "read": 3}[want[:4]]
        if st != code:
            bad("want status %d" % code)
    if want is not None:
        checked.add(name)
    return st


def sparse(name, where, words):
    """The same program with the answer that `run` gives once matrices are kept in patterns."""
    to = os.path.join(HERE, "programs-sparse", name)
    if os.path.isdir(to):
        shutil.rmtree(to)
    shutil.copytree(where, to)
    old, back = reference.DENSE, os.getcwd()
    reference.DENSE = 1 << 60
    os.chdir(to)
    try:
        st, out, note = reference.main(words)
    finally:
        reference.DENSE = old
        os.chdir(back)
    for f, v in [("out", out), ("note", "" if note is None else note + "\n"), ("status", "%d\n" % st)]:
        with open(os.path.join(to, f), "w") as h:
            h.write(v)


def ps(points=POINTS, springs=SPRINGS):
    return [("points", points), ("springs", springs)]


def rows(head, *rs):
    return head + "\n" + "".join(r + "\n" for r in rs)


# ---------------------------------------------------------------- worked programs
A = HEAD + """func pull(s : Spring, p : (Point*2)) -> (f : vector[points](int(0)))
  var d = s.k * (p(1).x - p(0).x);
  f(p(0)) = d;
  f(p(1)) = -d;
end
proc main
  points.f = map pull to springs reduce +;
end
"""
B = HEAD + """func stiff(s : Spring, p : (Point*2)) -> (K : matrix[points,points](int(0)))
  K(p(0),p(0)) = s.k;
  K(p(0),p(1)) = -s.k;
  K(p(1),p(0)) = -s.k;
  K(p(1),p(1)) = s.k;
end
proc main
  var K = map stiff to springs reduce +;
  points.f = -(K*points.x);
end
"""
C = B.replace("  points.f = -(K*points.x);", "  points.f = rescale(K,0)*points.x;")
D = B.replace("reduce +;\n", "reduce +;\n  springs.k = springs.k + springs.k;\n")
E = HEAD + """func ratio(s : Spring, p : (Point*2)) -> (K : matrix[points,points](int(0)))
  K(p(0),p(1)) = quot(100, s.k, 0);
end
proc main
  var K = map ratio to springs reduce +;
end
"""
F = HEAD + """func ratio(s : Spring, p : (Point*2)) -> (K : matrix[points,points](int(0)))
  K(p(0),p(1)) = quot(100, s.k, 0);
end
func other(s : Spring, p : (Point*2)) -> (K : matrix[points,points](int(0)))
  K(p(0),p(1)) = quot(1, s.k - 1, 0);
end
proc main
  var K = map ratio to springs reduce +;
  var M = map other to springs reduce +;
end
"""
G = HEAD + """func twice(s : Spring, p : (Point*2)) -> (A : matrix[points,points](int(0)))
  A(p(0),p(0)) = s.k;
  A(p(0),p(1)) = s.k;
end
proc main
  var A = map twice to springs reduce +;
  points.f = A*points.x;
end
"""
H = HEAD + """func drop(s : Spring, p : (Point*2)) -> (f : vector[points](int(0)))
  f(p(0)) = s.k;
end
proc main
  points.f = map drop to springs reduce +;
end
"""
g = "rows"
nine = "set points\nx,f\n0,20\n10,25\n25,-45\nset springs\np0,p1,k\n0,1,2\n1,2,3\n"
case(g, "worked_01_A", A, ps(), nine)
case(g, "worked_02_A_headers", A, ps("x,f\n", "p0,p1,k\n"), "set points\nx,f\nset springs\np0,p1,k\n")
case(g, "worked_03_B", B, ps(), nine)
case(g, "worked_04_C", C, ps(), {"points.f": [-20, -25, 45]})
case(g, "worked_05_G_loop", G, ps(springs="p0,p1,k\n1,1,5\n"), {"points.f": [0, 100, 0]})
case(g, "worked_05_G", G, ps(), {"points.f": [20, 105, 0]})
case(g, "worked_06_C_twice", C, ps(springs="p0,p1,k\n0,1,2\n0,1,2\n"), {"points.f": [-40, 40, 0]})
case(g, "worked_07_H_wrap", H, ps(springs="p0,p1,k\n" + "0,1,4611686018427387904\n" * 4), {"points.f": [0, 0, 0]})
case(g, "worked_07_H_two", H, ps(springs="p0,p1,k\n" + "0,1,4611686018427387904\n" * 2),
    {"points.f": [-9223372036854775808, 0, 0]})
case(g, "worked_07_H", H, ps(), {"points.f": [2, 3, 0]})
case(g, "worked_08_A_one", A, ps(springs="p0,p1,k\n0,1,2\n"), {"points.f": [20, -20, 0]})
case(g, "worked_09_E_trap", E, ps(springs="p0,p1,k\n" + "".join("0,1,%d\n" % (0 if e in (3, 7) else 1) for e in range(8))),
    "trap at line 14, element 3: division by zero")
case(g, "worked_09_E", E, ps(), nine.replace("0,20", "0,0").replace("10,25", "10,0").replace("25,-45", "25,0"))
case(g, "worked_10_while", "proc main\nwhile 1 == 1\nend\nend\n", [], "spent: 100000 turns")
case(g, "worked_10_for", "proc main\nfor i in 0:5\nend\nend\n", [], "")
case(g, "worked_10_for_all", "proc main\nfor i in 0:100000\nend\nend\n", [], "")
case(g, "worked_10_for_over", "proc main\nfor i in 0:100001\nend\nend\n", [], "spent: 100000 turns")
case(g, "worked_11_F", F, ps(springs="p0,p1,k\n0,1,1\n1,2,0\n"), "trap at line 17, element 1: division by zero")
case(g, "worked_11_F_one", F, ps(springs="p0,p1,k\n0,1,0\n"), "trap at line 17, element 0: division by zero")
case(g, "worked_11_F_later", F, ps(springs="p0,p1,k\n0,1,2\n0,1,1\n"), "trap at line 18, element 1: division by zero")
case(g, "worked_11_F_done", F, ps(), {"points.f": [0, 0, 0], "springs.k": [2, 3]})
case(g, "worked_12_D", D, ps(), {"points.f": [20, 25, -45], "springs.k": [4, 6]})

Q = """element Q
  x : int(%d);
  y : int(%d);
end
extern q : set{Q};
"""


def q(sx, sy, body, cells, want, name, funcs="", group="rows"):
    case(group, name, Q % (sx, sy) + funcs + "proc main\n" + body + "end\n",
        [("q", rows("x,y", *[c + ",0" for c in cells]))], want)


q(2, 1, "  q.y = rescale(q.x, 1);\n", ["-0.15", "0.15", "-0.10", "-0.01", "0.09", "-9.99"],
  {"q.y": ["-0.2", "0.1", "-0.1", "-0.1", "0.0", "-10.0"]}, "worked_13_rescale")
q(2, 1, "  q.y = rescale(q.x + q.x, 1);\n", ["0.05", "-0.05", "0.04"],
  {"q.y": ["0.1", "-0.1", "0.0"]}, "worked_13_whole")
q(2, 1, "  q.y = rescale(q.x, 1) + rescale(q.x, 1);\n", ["0.05", "-0.05", "0.04"],
  {"q.y": ["0.0", "-0.2", "0.0"]}, "worked_13_parts")
q(1, 3, "  q.y = rescale(q.x, 3);\n", ["-0.1", "12.5", "922337203685477580.7"],
  {"q.y": ["-0.100", "12.500", cell(wrap(9223372036854775807 * 100), 3)]}, "worked_13_up")
QUO = "func quo(e : Q) -> (v : vector[q](int(2)))\n  v(e) = quot(e.x, %s, 2);\nend\n"
q(2, 2, "  q.y = map quo to q reduce +;\n", ["-1.00", "1.00", "2.00", "-2.00", "0.00"],
  {"q.y": ["-0.34", "0.33", "0.66", "-0.67", "0.00"]}, "worked_14_quot", QUO % "3.00")
q(2, 2, "  q.y = map quo to q reduce +;\n", ["-1.00", "1.00", "2.00", "-2.00", "0.00"],
  {"q.y": ["0.33", "-0.34", "-0.67", "0.66", "0.00"]}, "worked_14_quot_negative", QUO % "-3.00")
q(2, 2, "  q.y = map quo to q reduce +;\n", ["-1.00"],
  "trap at line 10, element 0: division by zero", "worked_14_quot_zero", QUO % "0.00")
ISQ = "func root(e : Q) -> (v : vector[q](int(2)))\n  v(e) = isqrt(e.x, 2);\nend\n"
q(2, 2, "  q.y = map root to q reduce +;\n", ["2.00", "0.00", "0.01", "0.03", "4.00", "3.99", "92233720368547758.07"],
  {"q.y": ["1.41", "0.00", "0.10", "0.17", "2.00", "1.99", cell(isqrt(9223372036854775807, 2, 2), 2)]}, "worked_14_isqrt", ISQ)
q(2, 2, "  q.y = map root to q reduce +;\n", ["2.00", "-0.01"],
  "trap at line 10, element 1: root of a negative number", "worked_14_isqrt_trap", ISQ)
q(2, 2, "  var a = quot(-1.00, 3.00, 2);\n  assert a == -0.34;\n  assert isqrt(2.00, 2) == 1.41;\n  q.y = (a * 1)*q.x;\n".replace("(a * 1)*q.x", "rescale(a*q.x, 2)"),
  ["1.00", "2.00"], {"q.y": ["-0.34", "-0.68"]}, "worked_14_main")
case("rows", "worked_14_main_quot", "proc main\n  var a = quot(1.00, 0.00, 2);\nend\n", [], "trap at line 2: division by zero")
case("rows", "worked_14_main_isqrt", "proc main\n\n  var a = isqrt(-0.01, 2);\nend\n", [], "trap at line 3: root of a negative number")

# ---------------------------------------------------------------- tables
g = "tables"
P1 = "element P\n  x : int(%d);\nend\nextern points : set{P};\nproc main\n%send\n"


def one(name, scale, text, want, body=""):
    case("tables", name, P1 % (scale, body), [("points", text)], want)


one("table_cell_cells", 2, "x\n1.5\n 1.50 \n1.500\n-0\n007\n", {"points.x": ["1.50", "1.50", "1.50", "0.00", "7.00"]})
one("table_cell_fine", 2, "x\n1.501\n", "refused: points.csv row 1, column 0: too many decimals")
one("table_cell_point", 2, "x\n1\n.5\n", "refused: points.csv row 2, column 0: bad byte at 0")
one("table_cell_point_end", 2, "x\n5.\n", "refused: points.csv row 1, column 0: bad byte at 2")
one("table_cell_exponent", 2, "x\n1e-5\n", "refused: points.csv row 1, column 0: bad byte at 1")
one("table_cell_large", 0, "x\n9223372036854775808\n", "refused: points.csv row 1, column 0: too large")
one("table_cell_least", 0, "x\n-9223372036854775808\n", "set points\nx\n-9223372036854775808\n")
one("table_cell_empty", 0, "x\n  \n", "refused: points.csv row 1, column 0: empty cell")
one("table_R4_double", 2, "x\n 1.5 \n", "set points\nx\n3.00\n", "  points.x = points.x + points.x;\n")
one("table_header", 2, "y\n 1.5 \n", "refused: points.csv row 0, column 0: header")
one("table_mark", 2, b"\xef\xbb\xbf x \r\n1.5\r\n2\r\n", "set points\nx\n1.50\n2.00\n")
one("table_none", 2, "", "refused: points.csv: no header")
case(g, "table_row_width", A, ps(springs="p0,p1,k\n0,1\n0,3,2\n"), "refused: springs.csv row 1: width")
case(g, "table_row_end", A, ps(springs="p0,p1,k\n0,3,2\n"), "refused: springs.csv row 1, column 1: no such endpoint")
case(g, "table_end_text", A, ps(springs="p0,p1,k\n-0, 1.0 ,2\n"), {"points.f": [20, -20, 0], "springs.p0": [0], "springs.p1": [1]})
case(g, "table_number_files", A, [("points", POINTS)], "refused: 1 files for 2 sets")
case(g, "type_of_scale", A.replace("map pull to springs reduce +", "points.x * 1.0"), ps(), "refused: line 16: scale")
case(g, "type_of_name", A.replace("points.f = map pull to springs reduce +", "points.g = points.x"), ps(), "refused: line 16: unknown name")
case(g, "type_host", HEAD + "extern func least(int(0), int(0)) -> int(0);\nproc main\n  points.f = least(3, 2)*points.x;\nend\n", ps(), {"points.f": [0, 20, 50]})

# ---------------------------------------------------------------- CG
GRADIENTS = os.path.join(os.path.dirname(os.path.abspath(__file__)), "..", "bench", "gradients.py")
CGP = open(GRADIENTS).read().split('PROGRAM = """')[1].split('"""')[0]
import subprocess


def cgt(name, n, m):
    nodes = rows("b.0,b.1,b.2,x.0,x.1,x.2", *["%d,%d,%d,0,0,0" % tuple((7 * i + 3 * c) % 10 for c in range(3)) for i in range(n)])
    links = rows("p0,p1,k", *["%d,%d,%d" % (e % n, (3 * e + 1) % n, e % 9 + 1) for e in range(m)])
    want = subprocess.run([sys.executable, GRADIENTS, str(n), str(m)], capture_output=True, text=True).stdout
    case("CG", name, CGP, [("nodes", nodes), ("links", links)], want)


cgt("cg_100_400", 100, 400)
cgt("cg_10_40", 10, 40)
cgt("cg_7_20", 7, 20)
cgt("cg_1_2", 1, 2)

# ---------------------------------------------------------------- matrices of block forms, by second.py
# Element N: vectors a (w) and b (h); Link: block m (h x w), at scale 1 and 0.


def blk(h, w):
    return "matrix[%d,%d]" % (h, w)


def cells(v, d=0):
    return ",".join(cell(x, d) for x in v)


def rnd(seed):
    s = [seed * 7919 + 13]

    def nxt(lo, hi):
        s[0] = (s[0] * 6364136223846793005 + 1442695040888963407) % 2 ** 64
        return lo + (s[0] >> 33) % (hi - lo + 1)
    return nxt


def heads(f, block):
    return [f + "".join("." + str(i) for i in b) for b in bidx(block)]


def block_family(h, w, seed, big=False):
    r = rnd(seed)
    lim = 4 * 10 ** 18 if big else 50
    n, m = 4, 6
    prog = """element N
  a : vector[%d](int(1));
  b : vector[%d](int(1));
end
element L
  m : matrix[%d,%d](int(0));
end
extern ns : set{N};
extern ls : set{L}(ns, ns);
func f(s : L, p : (N*2)) -> (K : matrix[ns,ns](matrix[%d,%d](int(0))))
  K(p(0),p(1)) = s.m;
  K(p(1),p(1)) = 3 * s.m;
  K(p(1),p(0)) = -s.m * 2;
end
proc main
  var K = map f to ls reduce +;
  var y = K*ns.a;
  ns.a = K'*ns.b - 2*ns.a;
  ns.b = y + ns.b;
end
""" % (w, h, h, w, h, w)
    a = {(i, c): r(-lim, lim) for i in range(n) for c in range(w)}
    b = {(i, c): r(-lim, lim) for i in range(n) for c in range(h)}
    ends = [(r(0, n - 1), r(0, n - 1)) for _ in range(m)]
    ms = [{(p, c): r(-lim, lim) for p in range(h) for c in range(w)} for _ in range(m)]
    K = mzero(n, n, (h, w))
    for (p0, p1), x in zip(ends, ms):
        put(K, (p0, p1), x)
        put(K, (p1, p1), scal(3, x))
        put(K, (p1, p0), scal(2, neg(x)))
    y = smv(K, a, vzero(n, (h,)))
    a2 = sub(smv(strn(K), b, vzero(n, (w,))), scal(2, a))
    b2 = add(y, b)
    hn = heads("a", (w,)) + heads("b", (h,))
    nt = rows(",".join(hn), *[",".join([cell(a[i, c], 1) for c in range(w)] + [cell(b[i, c], 1) for c in range(h)]) for i in range(n)])
    lt = rows("p0,p1," + ",".join(heads("m", (h, w))), *["%d,%d,%s" % (e[0], e[1], cells([x[k] for k in bidx((h, w))])) for e, x in zip(ends, ms)])
    want = {}
    for c in range(w):
        want["ns.a.%d" % c] = [cell(a2[i, c], 1) for i in range(n)]
    for c in range(h):
        want["ns.b.%d" % c] = [cell(b2[i, c], 1) for i in range(n)]
    case("blocks", "block_%dx%d%s" % (h, w, "_wrap" if big else ""), prog, [("ns", nt), ("ls", lt)], want)


for k, (h, w) in enumerate([(1, 1), (1, 3), (3, 1), (2, 2), (2, 3), (3, 2), (4, 2), (5, 5), (6, 1), (1, 6)]):
    block_family(h, w, 100 + k)
block_family(2, 3, 50, True)
block_family(3, 3, 51, True)

# 2x3 times 3x2 and friends; M over two sets, products of matrices
PRE = """element N
  u : vector[2](int(0));
  v : vector[3](int(0));
  z : int(0);
end
element L
  m : matrix[2,3](int(0));
  n : matrix[3,2](int(0));
  k : int(0);
end
extern ns : set{N};
extern ls : set{L}(ns, ns);
func fm(s : L, p : (N*2)) -> (A : matrix[ns,ns](matrix[2,3](int(0))))
  A(p(0),p(1)) = s.m;
  A(p(1),p(1)) = s.k * s.m;
end
func fn(s : L, p : (N*2)) -> (B : matrix[ns,ns](matrix[3,2](int(0))))
  B(p(0),p(1)) = s.n;
  B(p(1),p(0)) = s.m';
  B(p(0),p(0)) = -s.n * s.k;
end
func fk(s : L, p : (N*2)) -> (K : matrix[ns,ns](int(0)))
  K(p(0),p(1)) = s.k;
  K(p(1),p(0)) = 1;
end
proc main
  var A = map fm to ls reduce +;
  var B = map fn to ls reduce +;
  var K = map fk to ls reduce +;
"""


def prod_data(seed, big=False):
    r = rnd(seed)
    lim = 3 * 10 ** 18 if big else 9
    n, m = 4, 7
    st = {"u": {(i, c): r(-lim, lim) for i in range(n) for c in range(2)},
          "v": {(i, c): r(-lim, lim) for i in range(n) for c in range(3)},
          "z": {(i,): r(-lim, lim) for i in range(n)}}
    ends = [(r(0, n - 1), r(0, n - 1)) for _ in range(m)]
    ms = [{(p, c): r(-lim, lim) for p in range(2) for c in range(3)} for _ in range(m)]
    qs = [{(p, c): r(-lim, lim) for p in range(3) for c in range(2)} for _ in range(m)]
    ks = [r(-3, 3) for _ in range(m)]
    st["A"] = mzero(n, n, (2, 3))
    st["B"] = mzero(n, n, (3, 2))
    st["K"] = mzero(n, n, ())
    for (p, t), x, y, k in zip(ends, ms, qs, ks):
        put(st["A"], (p, t), x)
        put(st["A"], (t, t), scal(k, x))
        put(st["B"], (p, t), y)
        put(st["B"], (t, p), ltr(x))
        put(st["B"], (p, p), scal(k, neg(y)))
        put(st["K"], (p, t), k)
        put(st["K"], (t, p), 1)
    nt = rows("u.0,u.1,v.0,v.1,v.2,z", *[",".join(str(x) for x in [st["u"][i, 0], st["u"][i, 1], st["v"][i, 0], st["v"][i, 1], st["v"][i, 2], st["z"][i,]]) for i in range(n)])
    lt = rows("p0,p1," + ",".join(heads("m", (2, 3)) + heads("n", (3, 2)) + ["k"]),
              *["%d,%d,%s,%s,%d" % (e[0], e[1], cells(x.values()), cells(y.values()), k) for e, x, y, k in zip(ends, ms, qs, ks)])
    return n, st, [("ns", nt), ("ls", lt)]


def prod(name, body, fn, seed=1, big=False):
    n, st, tables = prod_data(seed, big)
    res = fn(st, n)
    want = {}
    for f, v in res.items():
        if f == "z":
            want["ns.z"] = [v[i,] for i in range(n)]
        else:
            for c in range({"u": 2, "v": 3}[f]):
                want["ns.%s.%d" % (f, c)] = [v[i, c] for i in range(n)]
    case("products", name, PRE + body + "end\n", tables, want)


def z(n, *b):
    return vzero(n, b)


def mz(n, *b):
    return mzero(n, n, b)


prod("prod_AB_u", "  ns.u = A*B*ns.u;\n", lambda s, n: {"u": smv(smm(s["A"], s["B"], mz(n, 2, 2)), s["u"], z(n, 2))})
prod("prod_A_Bu", "  ns.u = A*(B*ns.u);\n", lambda s, n: {"u": smv(s["A"], smv(s["B"], s["u"], z(n, 3)), z(n, 2))})
prod("prod_BA_v", "  ns.v = (B*A)*ns.v;\n", lambda s, n: {"v": smv(smm(s["B"], s["A"], mz(n, 3, 3)), s["v"], z(n, 3))})
prod("prod_AB_transposed", "  ns.u = (A*B)'*ns.u;\n", lambda s, n: {"u": smv(smm(strn(s["B"]), strn(s["A"]), mz(n, 2, 2)), s["u"], z(n, 2))})
prod("prod_BtAt", "  ns.u = B'*A'*ns.u;\n", lambda s, n: {"u": smv(smm(strn(s["B"]), strn(s["A"]), mz(n, 2, 2)), s["u"], z(n, 2))})
prod("prod_A_plus_Bt", "  ns.u = (A + B')*ns.v;\n", lambda s, n: {"u": add(smv(s["A"], s["v"], z(n, 2)), smv(strn(s["B"]), s["v"], z(n, 2)))})
prod("prod_A_minus_Bt", "  ns.u = (A - B')*ns.v - ns.u;\n", lambda s, n: {"u": sub(sub(smv(s["A"], s["v"], z(n, 2)), smv(strn(s["B"]), s["v"], z(n, 2))), s["u"])})
prod("prod_neg_first", "  ns.u = (-A + B')*ns.v;\n", lambda s, n: {"u": sub(smv(strn(s["B"]), s["v"], z(n, 2)), smv(s["A"], s["v"], z(n, 2)))})
prod("prod_neg_term", "  ns.u = -A*ns.v + ns.u;\n", lambda s, n: {"u": sub(s["u"], smv(s["A"], s["v"], z(n, 2)))})
prod("prod_scalars", "  ns.u = 2*A*3*ns.v;\n", lambda s, n: {"u": scal(6, smv(s["A"], s["v"], z(n, 2)))})
prod("prod_scalar_right", "  ns.u = A*ns.v*5;\n", lambda s, n: {"u": scal(5, smv(s["A"], s["v"], z(n, 2)))})
prod("prod_scalar_mid", "  ns.v = (B*(-7))*ns.u;\n", lambda s, n: {"v": scal(-7, smv(s["B"], s["u"], z(n, 3)))})
prod("prod_scalar_matrix", "  var c = 2;\n  ns.v = B*(c*3)*ns.u;\n", lambda s, n: {"v": scal(6, smv(s["B"], s["u"], z(n, 3)))})
prod("prod_dot_scalar", "  ns.u = dot(ns.v, ns.v)*A*ns.v;\n", lambda s, n: {"u": scal(dot(s["v"], s["v"]), smv(s["A"], s["v"], z(n, 2)))})
prod("prod_K_z", "  ns.z = K*ns.z;\n", lambda s, n: {"z": smv(s["K"], s["z"], z(n))})
prod("prod_KKt_z", "  ns.z = K*K'*ns.z - K'*(K*ns.z);\n", lambda s, n: {"z": sub(smv(smm(s["K"], strn(s["K"]), mz(n)), s["z"], z(n)), smv(strn(s["K"]), smv(s["K"], s["z"], z(n)), z(n)))})
prod("prod_KKK_z", "  ns.z = K*K*K*ns.z;\n", lambda s, n: {"z": smv(s["K"], smv(s["K"], smv(s["K"], s["z"], z(n)), z(n)), z(n))})
prod("prod_entrywise", "  ns.u = ns.u .* (A*ns.v);\n", lambda s, n: {"u": emul(s["u"], smv(s["A"], s["v"], z(n, 2)))})
prod("prod_entrywise_first", "  ns.u = ns.u .* A*ns.v;\n".replace("ns.u .* A*ns.v", "2*ns.u .* ns.u"), lambda s, n: {"u": scal(2, emul(s["u"], s["u"]))})
prod("prod_two_vars", "  var P = A*B;\n  var Q = B*A;\n  ns.u = P*ns.u;\n  ns.v = Q*ns.v;\n",
     lambda s, n: {"u": smv(s["A"], smv(s["B"], s["u"], z(n, 3)), z(n, 2)), "v": smv(s["B"], smv(s["A"], s["v"], z(n, 2)), z(n, 3))})
prod("prod_sum_var", "  var S = A*B + (A*B)';\n  ns.u = S*ns.u;\n",
     lambda s, n: {"u": smv(add(smm(s["A"], s["B"], mz(n, 2, 2)), strn(smm(s["A"], s["B"], mz(n, 2, 2)))), s["u"], z(n, 2))})
prod("prod_alias", "  var P = A;\n  var Q = P;\n  ns.u = Q*ns.v - P*ns.v + A*ns.v;\n", lambda s, n: {"u": smv(s["A"], s["v"], z(n, 2))})
prod("prod_rescale", "  ns.u = rescale(rescale(1.5*A, 0)*1.5*ns.v, 0);\n",
     lambda s, n: {"u": resc(smv(scal(15, resc(scal(15, s["A"]), 1, 0)), s["v"], z(n, 2)), 1, 0)})
prod("prod_wrap_AB", "  ns.u = A*B*ns.u;\n", lambda s, n: {"u": smv(s["A"], smv(s["B"], s["u"], z(n, 3)), z(n, 2))}, 5, True)
prod("prod_wrap_rescale", "  ns.u = rescale(A*B, 2)*ns.u;\n".replace("rescale(A*B, 2)", "rescale(rescale(A*B, 2), 0)"),
     lambda s, n: {"u": smv(resc(resc(smm(s["A"], s["B"], mz(n, 2, 2)), 0, 2), 2, 0), s["u"], z(n, 2))}, 6, True)
prod("prod_rescale_floor", "  var R = rescale(0.001*(A*B), 0);\n  ns.u = R*ns.u - rescale(0.001*(A*(B*ns.u)), 0);\n",
     lambda s, n: {"u": sub(smv(resc(smm(s["A"], s["B"], mz(n, 2, 2)), 3, 0), s["u"], z(n, 2)), resc(smv(s["A"], smv(s["B"], s["u"], z(n, 3)), z(n, 2)), 3, 0))}, 7)
prod("prod_dot", "  var d = dot(ns.u, A*ns.v);\n  var e = dot(A'*ns.u, ns.v);\n  assert d == e;\n  ns.z = d*ns.z;\n",
     lambda s, n: {"z": scal(dot(s["u"], smv(s["A"], s["v"], z(n, 2))), s["z"])}, 8)
prod("prod_dot_wrap", "  var d = dot(ns.u, A*ns.v);\n  var e = dot(A'*ns.u, ns.v);\n  assert d == e;\n  ns.z = d*ns.z;\n",
     lambda s, n: {"z": scal(dot(s["u"], smv(s["A"], s["v"], z(n, 2))), s["z"])}, 9, True)


def powers(s, n):
    v = s["v"]
    for _ in range(4):
        v = smv(s["B"], smv(s["A"], v, z(n, 2)), z(n, 3))
    return {"v": v}


prod("prod_power_loop", "  for i in 0:4\n    ns.v = B*(A*ns.v);\n  end\n", powers, 10)
prod("prod_power_matrix", "  var P = B*A;\n  var R = P*P;\n  ns.v = R*R*ns.v;\n", powers, 10)
prod("prod_part_traps", "  ns.u = quot(1, ns1, 0)*A*ns.v;\n".replace("ns1", "dot(ns.z, ns.z)"), lambda s, n: {"u": scal(quot(1, 0, dot(s["z"], s["z"]), 0, 0), smv(s["A"], s["v"], z(n, 2)))}, 11)


def prod_trap(name, body, line, kind):
    n, st, tables = prod_data(1)
    case("products", name, PRE + body + "end\n", tables, "trap at line %d: %s" % (PRE.count("\n") + line, kind))


prod_trap("prod_trap_scalar", "  ns.u = quot(1, dot(ns.z, ns.z) - dot(ns.z, ns.z), 0)*A*ns.v;\n", 1, "division by zero")
prod_trap("prod_trap_right", "  ns.u = A*ns.v*isqrt(-1, 0);\n", 1, "root of a negative number")
prod_trap("prod_trap_first", "  ns.u = isqrt(-1, 0)*A*ns.v*quot(1, 0, 0);\n", 1, "root of a negative number")
prod_trap("prod_trap_second", "  var P = A;\n  ns.u = (quot(1, 0, 0)*P + isqrt(-1, 0)*B')*ns.v;\n", 2, "division by zero")
prod_trap("prod_trap_var", "  var P = isqrt(-4, 0)*A;\n", 1, "root of a negative number")
prod_trap("prod_trap_zero_times", "  ns.u = 0*ns.u;\n  ns.u = 0*quot(3, 0, 0)*ns.u;\n", 2, "division by zero")

# ---------------------------------------------------------------- vectors
g = "vectors"
V3 = """element P
  x : vector[3](int(1));
  m : matrix[2,2](int(0));
  y : int(1);
end
extern ps : set{P};
proc main
%send
"""
vt = rows("x.0,x.1,x.2,m.0.0,m.0.1,m.1.0,m.1.1,y", "1.5,2,-3,1,2,3,4,0", "-0.5,0,0.1,-1,0,7,2,2.5")
case(g, "vec_double", V3 % "  ps.x = ps.x + ps.x;\n", [("ps", vt)], {"ps.x.0": ["3.0", "-1.0"], "ps.x.1": ["4.0", "0.0"], "ps.x.2": ["-6.0", "0.2"]})
case(g, "vec_scale_left", V3 % "  ps.x = 3*ps.x;\n", [("ps", vt)], {"ps.x.0": ["4.5", "-1.5"], "ps.x.2": ["-9.0", "0.3"]})
case(g, "vec_scale_right", V3 % "  ps.x = ps.x*(-3);\n", [("ps", vt)], {"ps.x.0": ["-4.5", "1.5"], "ps.x.2": ["9.0", "-0.3"]})
case(g, "vec_neg", V3 % "  ps.x = -ps.x;\n  ps.m = -ps.m - ps.m;\n", [("ps", vt)], {"ps.x.0": ["-1.5", "0.5"], "ps.m.1.0": [-6, -14], "ps.m.0.1": [-4, 0]})
case(g, "vec_entrywise", V3 % "  ps.x = rescale(ps.x .* ps.x, 1);\n  ps.m = ps.m .* ps.m;\n", [("ps", vt)],
    {"ps.x.0": ["2.2", "0.2"], "ps.x.1": ["4.0", "0.0"], "ps.x.2": ["9.0", "0.0"], "ps.m.0.0": [1, 1], "ps.m.1.0": [9, 49]})
case(g, "vec_dot", V3 % "  var d = dot(ps.x, ps.x);\n  var e = dot(ps.m, ps.m);\n  assert d == 15.51;\n  assert e == 84;\n  ps.y = rescale(d, 0)*ps.y;\n", [("ps", vt)],
    {"ps.y": ["0.0", "37.5"]})
case(g, "vec_dot_sums", V3 % "  var d = dot(ps.x + ps.x, ps.x - 2*ps.x);\n  assert d == -31.02;\n  ps.y = rescale(d*ps.y, 1);\n", [("ps", vt)],
    {"ps.y": ["0.0", "-77.6"]})
case(g, "vec_precedence", V3 % "  ps.x = ps.x - ps.x - ps.x + 2*ps.x*2;\n", [("ps", vt)], {"ps.x.0": ["4.5", "-1.5"], "ps.x.1": ["6.0", "0.0"]})
case(g, "vec_minus_first_alone", V3 % "  ps.x = -ps.x + ps.x + ps.x;\n", [("ps", vt)], {"ps.x.0": ["1.5", "-0.5"], "ps.x.2": ["-3.0", "0.1"]})
case(g, "vec_rescale_each", V3 % "  ps.x = rescale(rescale(ps.x, 0), 1);\n", [("ps", vt)], {"ps.x.0": ["1.0", "-1.0"], "ps.x.2": ["-3.0", "0.0"]})
case(g, "vec_wrap_product", P1 % (0, "  points.x = points.x .* points.x;\n"), [("points", "x\n4294967296\n3037000500\n-3037000500\n4294967295\n")],
    {"points.x": [0, wrap(3037000500 ** 2), wrap(3037000500 ** 2), wrap(4294967295 ** 2)]})
case(g, "vec_wrap_neg", P1 % (0, "  points.x = -points.x;\n"), [("points", "x\n-9223372036854775808\n9223372036854775807\n")],
    {"points.x": [-9223372036854775808, -9223372036854775807]})
case(g, "vec_wrap_add", P1 % (0, "  points.x = points.x + points.x;\n"), [("points", "x\n-9223372036854775808\n9223372036854775807\n")], {"points.x": [0, -2]})
case(g, "vec_rescale_signed", P1 % (0, "  points.x = rescale(0.1*points.x, 0);\n"), [("points", "x\n-9223372036854775808\n9223372036854775807\n-1\n-10\n")],
    {"points.x": [-922337203685477581, 922337203685477580, -1, -1]})

# ---------------------------------------------------------------- several targets
g = "targets"
TW = HEAD + """func two(s : Spring, p : (Point*2)) -> (f : vector[points](int(0)), h : vector[points](int(0)))
  f(p(0)) = s.k;
  h(p(1)) = 10*s.k;
  f(p(1)) = 1;
end
proc main
%send
"""
m2_ = "map two to springs reduce +"
# f: node0 2, node1 1+3, node2 1; h: node1 20, node2 30
case(g, "multi_fields", TW % ("  points.f, points.x = %s;\n" % m2_), ps(), {"points.f": [2, 4, 1], "points.x": [0, 20, 30]})
case(g, "multi_same_field", TW % ("  points.f, points.f = %s;\n" % m2_), ps(), {"points.f": [0, 20, 30], "points.x": [0, 10, 25]})
case(g, "multi_vars", TW % ("  var a, b = %s;\n  points.f = a - b;\n  points.x = points.x + b;\n" % m2_), ps(), {"points.f": [2, -16, -29], "points.x": [0, 30, 55]})
case(g, "multi_var_field", TW % ("  var a = points.x;\n  a, points.x = %s;\n  points.f = a;\n" % m2_), ps(), {"points.f": [2, 4, 1], "points.x": [0, 20, 30]})
case(g, "multi_same_var", TW % ("  var a = points.x;\n  a, a = %s;\n  points.f = a;\n" % m2_), ps(), {"points.f": [0, 20, 30]})
case(g, "multi_swap", TW % ("  points.x, points.f = %s;\n  points.x, points.f = %s;\n" % (m2_, m2_)), ps(), {"points.x": [2, 4, 1], "points.f": [0, 20, 30]})
MX = HEAD + """func both(s : Spring, p : (Point*2)) -> (K : matrix[points,points](int(0)), f : vector[points](int(0)), k : vector[springs](int(0)))
  K(p(0),p(1)) = s.k;
  K(p(1),p(0)) = 1;
  f(p(0)) = p(1).x;
  k(s) = p(0).x + p(1).x;
end
proc main
%send
"""
mb = "map both to springs reduce +"
# K: (0,1)=2 (1,0)=1 (1,2)=3 (2,1)=1; f = 10, 25, 0; k = 10, 35
case(g, "multi_matrix_vectors", MX % ("  var K, f, k = %s;\n  points.f = K*f;\n  springs.k = k + springs.k;\n" % mb), ps(),
    {"points.f": [50, 10, 25], "springs.k": [12, 38]})
case(g, "multi_two_matrices", MX % ("  var K, f, k = %s;\n  springs.k = k;\n  var L, h, l = %s;\n  points.f = (L - K)*points.x;\n" % (mb, mb)), ps(),
    {"points.f": [80, 800, 0], "springs.k": [10, 35]})
FOUR = HEAD + """func four(s : Spring, p : (Point*2)) -> (a : vector[springs](int(0)), b : vector[points](int(0)), c : matrix[springs,points](int(0)), d : matrix[points,springs](int(0)))
  a(s) = 1;
  b(p(0)) = 2;
  c(s,p(1)) = s.k;
  d(p(0),s) = s.k;
end
proc main
  var a, b, c, d = map four to springs reduce +;
  springs.k = c*points.x + a;
  points.f = d*springs.k + b;
  points.x = d*c*points.x;
end
"""
# c*x: s0: 2*10=20; s1: 3*25=75 -> k = 21, 76; d*k: p0: 2*21=42+2; p1: 3*76=228+2
case(g, "multi_four", FOUR, ps(), {"springs.k": [21, 76], "points.f": [44, 230, 0], "points.x": [40, 225, 0]})

# ---------------------------------------------------------------- a field read and written at once
g = "readwrite"
case(g, "rw_map", A.replace("points.f = map", "points.x = map"), ps(), {"points.x": [20, 25, -45], "points.f": [0, 0, 0]})
case(g, "rw_map_twice", A.replace("  points.f = map pull to springs reduce +;\n", "  points.x = map pull to springs reduce +;\n" * 2), ps(),
    {"points.x": [2 * (25 - 20), -2 * 5 + 3 * (-45 - 25), 3 * 70]})
case(g, "rw_matrix", B.replace("points.f = -(K*points.x)", "points.x = K*points.x"), ps(), {"points.x": [-20, -25, 45]})
case(g, "rw_matrix_kept", B.replace("  points.f = -(K*points.x);", "  points.x = K*points.x;\n  springs.k = 0*springs.k;\n  points.f = K*points.x;"), ps(),
    {"points.x": [-20, -25, 45], "points.f": [2 * (-20 + 25), -2 * -20 + 5 * -25 - 3 * 45, 3 * (45 + 25)], "springs.k": [0, 0]})
case(g, "rw_vector_block", V3 % "  var a = ps.x;\n  ps.x = ps.x + ps.x;\n  ps.x = ps.x - a;\n  ps.x = rescale(ps.x .* a, 1);\n", [("ps", vt)],
    {"ps.x.0": ["2.2", "0.2"], "ps.x.1": ["4.0", "0.0"], "ps.x.2": ["9.0", "0.0"]})
case(g, "rw_var_keeps", HEAD + "proc main\n  var a = points.x;\n  points.x = points.x + a;\n  points.f = a;\n  a = a + points.x;\n  points.x = a;\nend\n", ps(),
    {"points.f": [0, 10, 25], "points.x": [0, 30, 75]})
case(g, "rw_edge", HEAD + "func sq(s : Spring) -> (k : vector[springs](int(0)))\n  k(s) = s.k * s.k;\n  k(s) = 1;\nend\nproc main\n  springs.k = map sq to springs reduce +;\n  springs.k = map sq to springs reduce +;\nend\n", ps(),
    {"springs.k": [26, 101]})

# ---------------------------------------------------------------- for
g = "for"
X = "element P\n  x : int(0);\nend\nextern points : set{P};\nproc main\n%send\n"
xt = [("points", "x\n1\n2\n")]
case(g, "forb_change", X % "  var n = 3;\n  var c = 0;\n  for i in 0:n\n    n = n + 1;\n    c = c + 1;\n  end\n  points.x = n*points.x;\n  assert c == 3;\n", xt, {"points.x": [6, 12]})
case(g, "forb_change_low", X % "  var a = 2;\n  var c = 0;\n  for i in a:a + 4\n    a = a - 1;\n    c = c + i;\n  end\n  points.x = c*points.x + a*points.x;\n", xt, {"points.x": [2 + 3 + 4 + 5 - 2, 24]})
case(g, "forb_none", X % "  for i in 3:3\n    points.x = 0*points.x;\n  end\n  for i in 5:2\n    points.x = 0*points.x;\n  end\n", xt, {"points.x": [1, 2]})
case(g, "forb_negative", X % "  var c = 0;\n  for i in -3:2\n    c = 10*c + i;\n  end\n  points.x = c*points.x;\n", xt, {"points.x": [-32099, -64198]})
case(g, "forb_one", X % "  for i in 7:8\n    points.x = i*points.x;\n  end\n", xt, {"points.x": [7, 14]})
case(g, "forb_nested", X % "  var c = 0;\n  for i in 0:3\n    for j in i:3\n      c = 10*c + i + j;\n    end\n  end\n  points.x = c*points.x;\n", xt, {"points.x": [12234 , 24468]})
case(g, "forb_nested_change", X % "  var n = 2;\n  var c = 0;\n  for i in 0:n\n    for j in 0:n\n      n = n + 1;\n      c = c + 1;\n    end\n  end\n  points.x = c*points.x;\n  assert n == 8;\n", xt, {"points.x": [6, 12]})
case(g, "forb_large", X % "  var c = 0;\n  for i in 9223372036854775804:9223372036854775807\n    c = c + 1;\n  end\n  points.x = c*points.x;\n", xt, {"points.x": [3, 6]})
case(g, "forb_wrapped_bound", X % "  var c = 0;\n  var h = 9223372036854775807;\n  for i in 0:h + 1\n    c = c + 1;\n  end\n  for i in h + 1:h + 3\n    c = c + 1;\n  end\n  points.x = c*points.x;\n", xt, {"points.x": [2, 4]})
case(g, "forb_trap_low", X % "  for i in quot(1, 0, 0):isqrt(-1, 0)\n  end\n", xt, "trap at line 6: division by zero")
case(g, "forb_trap_high", X % "  for i in 0\n     :isqrt(-1, 0)\n  end\n", xt, "trap at line 6: root of a negative number")
case(g, "forb_dot_bound", X % "  for i in 0:dot(points.x, points.x)\n    points.x = points.x + points.x;\n  end\n", xt, {"points.x": [32, 64]})
case(g, "forb_quot_bound", X % "  var c = 0;\n  for i in isqrt(10, 0):quot(100, 9, 0)\n    c = c + i;\n  end\n  points.x = c*points.x;\n", xt, {"points.x": [3 + 4 + 5 + 6 + 7 + 8 + 9 + 10, 104]})

# ---------------------------------------------------------------- while
g = "while"
case(g, "while_zero", X % "  while 1 > 2\n    points.x = 0*points.x;\n  end\n", xt, {"points.x": [1, 2]})
case(g, "while_one", X % "  var a = 0;\n  while a == 0\n    a = 1;\n    points.x = 5*points.x;\n  end\n", xt, {"points.x": [5, 10]})
case(g, "while_many", X % "  var a = 0;\n  while a < 1000\n    a = a + 1;\n  end\n  points.x = a*points.x;\n", xt, {"points.x": [1000, 2000]})
case(g, "while_nested", X % "  var a = 0;\n  var c = 0;\n  while a < 10\n    var b = 0;\n    while b < a\n      b = b + 1;\n      c = c + 1;\n    end\n    a = a + 1;\n  end\n  points.x = c*points.x;\n", xt, {"points.x": [45, 90]})
case(g, "while_collatz", X % "  var n = 27;\n  var c = 0;\n  while n != 1\n    var h = quot(n, 2, 0);\n    if 2*h == n\n      n = h;\n    else\n      n = 3*n + 1;\n    end\n    c = c + 1;\n  end\n  points.x = c*points.x;\n", xt, {"points.x": [111, 222]})
case(g, "while_field", X % "  while dot(points.x, points.x) < 1000\n    points.x = points.x + points.x;\n  end\n", xt, {"points.x": [16, 32]})
case(g, "while_trap_condition", X % "  var a = 3;\n  while quot(1, a, 0) < 1\n    a = a - 1;\n  end\n", xt, {"points.x": [1, 2]})
case(g, "while_trap_late", X % "  var a = 3;\n  while quot(12, a, 0) > 3\n    a = a - 1;\n  end\n", xt, "trap at line 7: division by zero")
case(g, "while_trap_body", X % "  var a = 3;\n  while a > -1\n    var b = quot(12, a, 0);\n    a = a - 1;\n  end\n", xt, "trap at line 8: division by zero")
case(g, "while_newton", X % "  var a = 100.0000;\n  for i in 0:20\n    a = rescale(0.5*(a + quot(2.0000, a, 4)), 4);\n  end\n  assert a == 1.4142;\n", xt, {"points.x": [1, 2]})
case(g, "while_for_if", X % "  var c = 0;\n  for i in 0:5\n    if i == 2\n      var k = i;\n      while k > 0\n        c = c + 100;\n        k = k - 1;\n      end\n    else\n      c = c + i;\n    end\n  end\n  points.x = c*points.x;\n", xt, {"points.x": [208, 416]})
case(g, "while_spent", X % "  var a = 0;\n  while a >= 0\n    a = a + 1;\n  end\n", xt, "spent: 100000 turns")
case(g, "while_spent_nested", X % "  for i in 0:400\n    for j in 0:400\n    end\n  end\n", xt, "spent: 100000 turns")
# 400 turns of the outer and 400*249 of the inner are exactly 100000
case(g, "while_budget_exact", X % "  for i in 0:400\n    for j in 0:249\n    end\n  end\n", xt, {"points.x": [1, 2]})
case(g, "while_trap_before_spent", X % "  var a = 100000;\n  while quot(1, a, 0) >= 0\n    a = a - 1;\n  end\n", xt, "trap at line 7: division by zero")

# ---------------------------------------------------------------- conditions
g = "conditions"
Z = "quot(1, 0, 0) == 0"
R = "isqrt(-1, 0) == 0"


def cnd(name, cond, want):
    if isinstance(want, bool):
        case(g, name, X % ("  if %s\n    points.x = 10*points.x;\n  else\n    points.x = -points.x;\n  end\n" % cond), xt,
            {"points.x": [10, 20] if want else [-1, -2]})
    else:
        case(g, name, X % ("  if %s\n    points.x = 10*points.x;\n  end\n" % cond), xt, "trap at line 6: " + want)


DZ, RN = "division by zero", "root of a negative number"
cnd("cond_and_trap_right", "1 == 2 and " + Z, DZ)
cnd("cond_and_trap_left", Z + " and 1 == 2", DZ)
cnd("cond_or_trap_right", "1 == 1 or " + R, RN)
cnd("cond_or_trap_left", R + " or 1 == 1", RN)
cnd("cond_both_trap", R + " and " + Z, RN)
cnd("cond_both_trap_or", Z + " or " + R, DZ)
cnd("cond_compare_sides", "quot(1, 0, 0) < isqrt(-1, 0)", DZ)
cnd("cond_third", "1 == 1 or 1 == 1 and 1 == 2 and " + R, RN)
cnd("cond_and_before_or", "1 == 1 or 1 == 1 and 1 == 2", True)
cnd("cond_or_and", "1 == 2 and 1 == 1 or 1 == 2", False)
cnd("cond_or_and_or", "1 == 2 or 3 == 3 and 4 == 4 or 1 == 2", True)
cnd("cond_not", "not 1 == 2", True)
cnd("cond_not_true", "not 1 == 1", False)
cnd("cond_not_one_only", "not 1 == 2 and 1 == 2", False)
cnd("cond_not_or", "not 1 == 1 or not 2 < 1", True)
cnd("cond_not_trap", "not isqrt(-1, 0) == 0", RN)
cnd("cond_signed", "-1 < 0", True)
cnd("cond_signed_wrap", "9223372036854775807 + 1 < 0", True)
cnd("cond_signed_least", "-9223372036854775807 - 1 >= 9223372036854775807", False)
cnd("cond_ops", "1 <= 1 and 1 >= 1 and not 1 != 1 and 2 > 1 and not 1 > 1 and not 1 < 1", True)
cnd("cond_scales", "1.50 == 1.5*1.0 and 0.1 < 0.2", True)
cnd("cond_dot", "dot(points.x, points.x) == 5", True)

# ---------------------------------------------------------------- asserts
g = "asserts"
case(g, "assert_main_true", X % "  assert 1 == 1;\n  assert 1 == 2 or 2 == 2;\n", xt, {"points.x": [1, 2]})
case(g, "assert_main_false", X % "  points.x = points.x + points.x;\n  assert 1 == 1\n    and 1 == 2;\n", xt, "trap at line 7: assertion failed")
case(g, "assert_main_trap", X % "  assert 1 == 1 or quot(0, 0, 0) == 0;\n", xt, "trap at line 6: division by zero")
case(g, "assert_in_loop", X % "  for i in 0:10\n    assert i < 5;\n  end\n", xt, "trap at line 7: assertion failed")
AS = HEAD + """func check(s : Spring, p : (Point*2)) -> (f : vector[points](int(0)))
  assert %s;
  f(p(0)) = s.k;
end
proc main
  points.f = points.x;

  points.f = map check to
    springs reduce +;
end
"""
s4 = "p0,p1,k\n0,1,2\n1,2,-3\n2,0,4\n1,1,-5\n"
case(g, "assert_func_true", AS % "s.k != 0", ps(springs=s4), {"points.f": [2, -8, 4]})
case(g, "assert_func_least", AS % "s.k > 0", ps(springs=s4), "trap at line 17, element 1: assertion failed")
case(g, "assert_func_last", AS % "p(0).x != p(1).x", ps(springs=s4), "trap at line 17, element 3: assertion failed")
case(g, "assert_func_not", AS % "not s.k == 4 or quot(1, s.k - 2, 0) == 7", ps(springs=s4), "trap at line 17, element 0: division by zero")
case(g, "assert_func_other_kind", AS % "isqrt(s.k, 0) < 2", ps(springs=s4), "trap at line 17, element 1: root of a negative number")
FT = HEAD + """func check(s : Spring, p : (Point*2)) -> (f : vector[points](int(0)))
  f(p(0)) = 7;
  var a = quot(6, s.k, 0);
  assert a > 1;
  f(p(0)) = isqrt(s.k, 0);
end
proc main
  points.f = map check to springs reduce +;
end
"""
for nm, k, want in [("div", [3, 0, -1], "1: division by zero"), ("assert", [3, 5, 0], "1: assertion failed"), ("first", [-1, 0, 0], "0: assertion failed"),
                    ("later", [1, 2, -3], "2: assertion failed"), ("done", [1, 2, 3], None), ("all", [0, 5, -1], "0: division by zero")]:
    case(g, "assert_order_" + nm, FT, ps(springs="p0,p1,k\n" + "".join("%d,0,%d\n" % (i, v) for i, v in enumerate(k))),
        {"points.f": [8, 8, 8]} if want is None else "trap at line 17, element " + want)
case(g, "assert_branch", HEAD + """func c(s : Spring) -> (k : vector[springs](int(0)))
  if s.k < 0
    assert 1 == 2;
  else
    k(s) = s.k;
  end
end
proc main
  springs.k = map c to springs reduce +;
end
""", ps(springs="p0,p1,k\n0,1,0\n0,1,3\n0,1,-3\n"), "trap at line 18, element 2: assertion failed")

# ---------------------------------------------------------------- loops of functions, endpoints by the loop's variable
g = "floops"
TRI = """element Point
  x : int(0);
  f : int(0);
end
element Face
  w : vector[3](int(0));
end
extern points : set{Point};
extern faces : set{Face}(points, points, points);
"""
ft = [("points", POINTS), ("faces", "p0,p1,p2,w.0,w.1,w.2\n0,1,2,1,2,3\n2,2,0,10,20,30\n")]
case(g, "fend_sum", TRI + """func area(s : Face, p : (Point*3)) -> (f : vector[points](int(0)))
  for i in 0:3
    f(p(i)) = s.w(i)*p(i).x;
  end
end
proc main
  points.f = map area to faces reduce +;
end
""", ft, {"points.f": [0, 20, 75 + 250 + 500]})
case(g, "fend_pairs", TRI + """func all(s : Face, p : (Point*3)) -> (K : matrix[points,points](int(0)))
  for i in 0:3
    for j in 0:3
      K(p(i),p(j)) = s.w(i)*s.w(j);
    end
  end
end
proc main
  var K = map all to faces reduce +;
  points.f = K*points.x;
end
""", ft, {"points.f": [1 * (2 * 10 + 3 * 25) + 30 * (30 * 25), 2 * 95, 3 * 95 + 30 * (30 * 25)]})
case(g, "fend_neighbours", TRI + """func n(s : Face, p : (Point*3)) -> (f : vector[points](int(0)))
  for i in 0:2
    f(p(i)) = p(1).x - p(i).x + i;
  end
  for i in 1:3
    f(p(i)) = 100*i;
  end
end
proc main
  points.f = map n to faces reduce +;
end
""", ft, {"points.f": [10 + 200, 1 + 100, 200 + 0 + 1 + 100]})
case(g, "fend_accumulate", TRI + """func n(s : Face, p : (Point*3)) -> (f : vector[points](int(0)))
  var t = 0;
  for i in 0:3
    t = t + p(i).x;
    var u = t;
    if u > 20
      f(p(i)) = t;
    end
  end
  f(p(0)) = t;
end
proc main
  points.f = map n to faces reduce +;
end
""", ft, {"points.f": [35 + 50, 0, 35 + 25 + 50 + 50]})
case(g, "floop_long", HEAD + """func c(s : Spring) -> (k : vector[springs](int(0)))
  var t = 0;
  for i in 0:4096
    t = t + i;
  end
  k(s) = t;
end
proc main
  springs.k = map c to springs reduce +;
end
""", ps(), {"springs.k": [4095 * 2048] * 2})
case(g, "floop_from", HEAD + """func c(s : Spring) -> (k : vector[springs](int(0)))
  for i in 4094:4096
    for j in 3:5
      k(s) = i*j;
    end
  end
end
proc main
  springs.k = map c to springs reduce +;
end
""", ps(), {"springs.k": [(4094 + 4095) * 7] * 2})
case(g, "floop_trap", HEAD + """func c(s : Spring) -> (k : vector[springs](int(0)))
  for i in 0:9
    k(s) = quot(1, s.k - i, 0);
  end
end
proc main
  springs.k = map c to springs reduce +;
end
""", ps(springs="p0,p1,k\n0,1,-1\n0,1,9\n0,1,8\n"), "trap at line 16, element 2: division by zero")
case(g, "floop_entries", """element P
  m : matrix[2,3](int(0));
  v : vector[3](int(0));
  t : int(0);
end
extern ps : set{P};
func c(e : P) -> (t : vector[ps](int(0)))
  for i in 0:2
    for j in 0:3
      t(e) = e.m(i,j)*e.v(j)*(i + 1);
    end
  end
  t(e) = 1000*e.m(1,2) + e.v(0);
end
proc main
  ps.t = map c to ps reduce +;
end
""", [("ps", rows(",".join(heads("m", (2, 3)) + heads("v", (3,)) + ["t"]), "1,2,3,4,5,6,7,8,9,0"))], {"ps.t": [7 + 16 + 27 + 2 * (28 + 40 + 54) + 6007]})

# ---------------------------------------------------------------- maps to own element, over vertex sets, two sets
g = "maps"
case(g, "own_edge", HEAD + "func l(s : Spring, p : (Point*2)) -> (k : vector[springs](int(0)))\n  k(s) = p(1).x - p(0).x;\nend\nproc main\n  springs.k = map l to springs reduce +;\nend\n", ps(), {"springs.k": [10, 15]})
case(g, "own_edge_block", """element P
  x : vector[2](int(1));
end
element S
  d : vector[2](int(1));
end
extern ps : set{P};
extern ss : set{S}(ps, ps);
func l(s : S, p : (P*2)) -> (d : vector[ss](vector[2](int(1))))
  d(s) = p(1).x - p(0).x + s.d;
  d(s) = [0.1, p(0).x(1)];
end
proc main
  ss.d = map l to ss reduce +;
end
""", [("ps", "x.0,x.1\n1,2\n3.5,-4\n"), ("ss", "p0,p1,d.0,d.1\n0,1,0,0\n1,0,10,20\n1,1,0.5,0.5\n")], {"ss.d.0": ["2.6", "7.6", "0.6"], "ss.d.1": ["-4.0", "22.0", "-3.5"]})
case(g, "vmap_square", HEAD + "func sq(p : Point) -> (f : vector[points](int(0)))\n  f(p) = p.x*p.x;\nend\nproc main\n  points.f = map sq to points reduce +;\nend\n", ps(), {"points.f": [0, 100, 625]})
case(g, "vmap_diagonal", HEAD + "func d(p : Point) -> (D : matrix[points,points](int(0)))\n  D(p,p) = p.x;\n  D(p,p) = 1;\nend\nproc main\n  var D = map d to points reduce +;\n  points.f = D*D*points.x;\nend\n", ps(), {"points.f": [0, 121 * 10, 26 * 26 * 25]})
case(g, "vmap_no_ends_on_edges", HEAD + "func d(s : Spring) -> (D : matrix[springs,springs](int(0)))\n  D(s,s) = s.k + 1;\nend\nproc main\n  var D = map d to springs reduce +;\n  springs.k = D*springs.k;\nend\n", ps(), {"springs.k": [6, 12]})
TWO = """element Point
  x : int(0);
  f : int(0);
end
element Spring
  k : int(0);
  l : int(0);
end
extern points : set{Point};
extern springs : set{Spring}(points, points);
func inc(s : Spring, p : (Point*2)) -> (G : matrix[springs,points](int(0)))
  G(s,p(0)) = -1;
  G(s,p(1)) = 1;
end
proc main
  var G = map inc to springs reduce +;
%send
"""
tt = [("points", POINTS), ("springs", "p0,p1,k,l\n0,1,2,0\n1,2,3,0\n2,2,9,1\n")]
case(g, "two_gradient", TWO % "  springs.l = G*points.x;\n  points.f = G'*(springs.k .* springs.l);\n", tt, {"springs.l": [10, 15, 0], "points.f": [-20, 20 - 45, 45]})
case(g, "two_laplacian", TWO % "  points.f = G'*G*points.x;\n  springs.l = G*G'*springs.k;\n", tt, {"points.f": [-10, -5, 15], "springs.l": [2 * 2 - 3, 2 * 3 - 2, 0]})
case(g, "two_nested", TWO % "  var L = (G*G')';\n  springs.l = L*L*springs.k;\n", tt, {"springs.l": [2 * 1 - 4, 2 * 4 - 1, 0]})
case(g, "two_vertex_sets", """element A
  x : int(0);
end
element B
  y : int(0);
end
element L
  k : int(0);
end
extern as : set{A};
extern bs : set{B};
extern la : set{L}(as, as);
extern lb : set{L}(bs);
func fa(s : L, p : (A*2)) -> (M : matrix[la,as](int(0)), c : vector[la](int(0)))
  M(s,p(1)) = s.k;
  M(s,p(0)) = 1;
  c(s) = p(0).x;
end
func fb(s : L, q : (B*1)) -> (y : vector[bs](int(0)))
  y(q(0)) = s.k*q(0).y;
end
func add(s : L) -> (k : vector[lb](int(0)))
  k(s) = s.k + 1;
end
proc main
  var M, c = map fa to la reduce +;
  bs.y = map fb to lb reduce +;
  la.k = M*as.x + c;
  as.x = M'*la.k;
  lb.k = map add to lb reduce +;
end
""", [("as", "x\n1\n2\n3\n"), ("bs", "y\n5\n7\n"), ("la", "p0,p1,k\n0,1,10\n1,2,20\n"), ("lb", "p0,k\n1,3\n1,4\n0,0\n")],
    {"bs.y": [0, 49], "la.k": [1 + 20 + 1, 2 + 60 + 2], "as.x": [22, 220 + 64, 1280], "lb.k": [4, 5, 1]})
case(g, "map_one_end", HEAD.replace("(points, points)", "(points)") + "func o(s : Spring, p : (Point*1)) -> (f : vector[points](int(0)))\n  f(p(0)) = s.k;\nend\nproc main\n  points.f = map o to springs reduce +;\nend\n",
    [("points", POINTS), ("springs", "p0,k\n2,5\n2,6\n0,1\n")], {"points.f": [1, 0, 11]})
case(g, "map_eight_ends", """element Point
  x : int(0);
end
element Hex
  k : int(0);
end
extern points : set{Point};
extern hexes : set{Hex}(points, points, points, points, points, points, points, points);
func o(s : Hex, p : (Point*8)) -> (x : vector[points](int(0)))
  for i in 0:8
    x(p(i)) = s.k*i + p(i).x;
  end
  x(p(7)) = 100;
end
proc main
  points.x = map o to hexes reduce +;
end
""", [("points", "x\n1\n2\n3\n"), ("hexes", "p0,p1,p2,p3,p4,p5,p6,p7,k\n0,1,2,0,1,2,0,1,10\n")],
    {"points.x": [0 + 30 + 60 + 3, 10 + 40 + 70 + 6 + 100, 20 + 50 + 6]})
case(g, "map_no_write", HEAD + "func o(s : Spring) -> (f : vector[points](int(0)), K : matrix[points,springs](int(0)))\n  var a = s.k;\nend\nproc main\n  points.f = points.x;\n  var f, K = map o to springs reduce +;\n  points.f = f + K*springs.k;\nend\n", ps(), {"points.f": [0, 0, 0]})
case(g, "map_conditional", HEAD + """func o(s : Spring, p : (Point*2)) -> (f : vector[points](int(0)))
  if s.k > 2 and p(0).x > 5 or s.k == -1
    f(p(0)) = 1;
    f(p(0)) = 10;
  else
    if not s.k == 2
      f(p(1)) = 100;
    else
      f(p(1)) = 1000;
    end
  end
end
proc main
  points.f = map o to springs reduce +;
end
""", ps(springs="p0,p1,k\n0,1,2\n1,2,3\n0,2,3\n2,0,-1\n"), {"points.f": [0, 1011 , 111 ]})

# ---------------------------------------------------------------- arguments
g = "arguments"
AR = """element Point
  x : int(2);
  f : int(3);
end
extern points : set{Point};
func ax(a : int(1), b : int(3), e : Point) -> (f : vector[points](int(3)))
  f(e) = a*e.x + b;
end
proc main
%send
"""
at = [("points", "x,f\n1.25,0\n-2,0.5\n")]
case(g, "args_two", AR % "  points.f = map ax(0.5, 1.001) to points reduce +;\n", at, {"points.f": ["1.626", "0.001"]})
case(g, "args_exprs", AR % "  var a = 0.5;\n  points.f = map ax(a + 1.0, 0.1*dot(points.x, points.x)) to points reduce +;\n".replace("0.1*dot(points.x, points.x)", "rescale(dot(points.x, points.x), 3)"), at,
    {"points.f": [cell(15 * 125 + 5562, 3), cell(15 * -200 + 5562, 3)]})
case(g, "args_loop", AR % "  var a = 0.0;\n  for i in 0:3\n    a = a + 0.1*i;\n    points.f = points.f + map1;\n  end\n".replace("    points.f = points.f + map1;\n", "    var g = map ax(a, 0.000) to points reduce +;\n    points.f = points.f + g;\n"), at,
    {"points.f": [cell(0 + 125 + 3 * 125, 3), cell(500 - 200 * 4, 3)]})
case(g, "args_trap", AR % "  points.f = map ax(0.5, rescale(isqrt(-1, 0), 3)) to\n  points reduce +;\n", at, "trap at line 10: root of a negative number")
case(g, "args_trap_order", AR % "  points.f = map ax(quot(1, 0, 1), rescale(isqrt(-1, 0), 3)) to\n  points reduce +;\n", at, "trap at line 10: division by zero")
case(g, "args_once", AR % "  points.x = points.x + points.x;\n  points.f = map ax(rescale(dot(points.x, points.x), 1), 0.000) to points reduce +;\n", at,
    {"points.f": [cell(222 * 250, 3), cell(222 * -400, 3)]})
case(g, "args_eight", HEAD + """func e(a : int(0), b : int(0), c : int(0), d : int(0), i : int(0), j : int(0), k : int(0), l : int(0), s : Spring) -> (r : vector[springs](int(0)))
  r(s) = ((((((((a*10 + b)*10 + c)*10 + d)*10 + i)*10 + j)*10 + k)*10 + l)*10 + s.k);
end
proc main
  springs.k = map e(1, 2, 3, 4, 5, 6, 7, 8) to springs reduce +;
end
""", ps(), {"springs.k": [123456782, 123456783]})
case(g, "args_matrix", HEAD + """func st(c : int(0), s : Spring, p : (Point*2)) -> (K : matrix[points,points](int(0)))
  K(p(0),p(1)) = c*s.k;
end
proc main
  var c = 2;
  var K = map st(c) to springs reduce +;
  c = 100;
  var L = map st(c) to springs reduce +;
  points.f = K*points.x + L*points.x;
end
""", ps(), {"points.f": [2 * 20 + 100 * 20, 2 * 75 + 100 * 75, 0]})
case(g, "args_param_shadow", HEAD + """func st(points2 : int(0), s : Spring) -> (k : vector[springs](int(0)))
  k(s) = points2 - s.k;
end
func st2(points2 : int(0), s : Spring) -> (k : vector[springs](int(0)))
  var t = points2 + s.k;
  if t > 0
    var u = 1;
    k(s) = u;
  else
    var u = 2;
    k(s) = u + t;
  end
  var u = 10;
  k(s) = u;
end
proc main
  springs.k = map st(1) to springs reduce +;
  springs.k = map st2(1) to springs reduce +;
end
""", ps(), {"springs.k": [10 + 2 + 0, 10 + 2 - 1]})

# ---------------------------------------------------------------- locals of functions, of each block
g = "locals"
LO = """element P
  m : matrix[2,3](int(1));
  v : vector[3](int(1));
  s : int(1);
  o : vector[3](int(2));
  q : matrix[3,3](int(2));
end
extern ps : set{P};
func f(e : P) -> (o : vector[ps](vector[3](int(2))), t : vector[ps](int(1)), M : matrix[ps,ps](matrix[3,3](int(2))))
%send
proc main
  ps.o, ps.s, var1
end
"""


def loc(name, body, fn):
    """fn(m, v, s) gives the o block (scale 2), t (scale 1) and M block, from words."""
    prog = (LO % body).replace("  ps.o, ps.s, var1\n", "  var o, t, M = map f to ps reduce +;\n  ps.o = o + M*ps.v2;\n  ps.s = t;\n").replace("M*ps.v2", "rescale(M*ps.v, 2)")
    ms = [lit([1, -20, 35], [40, 5, -6]), lit([0, 7, -10], [33, 21, 9])]
    vs = [lit([10, -25, 3]), lit([4, 0, -11])]
    ss = [15, -7]
    tab = rows(",".join(heads("m", (2, 3)) + heads("v", (3,)) + ["s"] + heads("o", (3,)) + heads("q", (3, 3))),
               *[",".join([cells(m.values(), 1), cells(v.values(), 1), cell(s, 1), cells([0] * 12, 2)]) for m, v, s in zip(ms, vs, ss)])
    o, t = {}, []
    for i, (m, v, s) in enumerate(zip(ms, vs, ss)):
        ob, tb, mb_ = fn(m, v, s)
        ob = ob or lit([0, 0, 0])
        if mb_:
            ob = add(ob, resc(lmv(mb_, v), 3, 2))
        t.append(cell(tb, 1))
        for c in range(3):
            o[i, c] = cell(ob[c,], 2)
    want = {"ps.s": t}
    for c in range(3):
        want["ps.o.%d" % c] = [o[i, c] for i in range(2)]
    case(g, name, prog, [("ps", tab)], want)


loc("loc_number", "  var a = e.s;\n  a = a + a;\n  t(e) = a - 0.5;\n", lambda m, v, s: (None, 2 * s - 5, None))
loc("loc_vector", "  var a = e.v;\n  a = a + e.v;\n  o(e) = a .* e.v;\n  t(e) = a(1);\n", lambda m, v, s: (scal(2, emul(v, v)), 2 * v[1,], None))
loc("loc_matrix", "  var a = e.m;\n  a = a - 2*e.m;\n  M(e,e) = a'*e.m;\n  t(e) = a(1,2);\n", lambda m, v, s: (None, -m[1, 2], lmm(ltr(neg(m)), m)))
loc("loc_mv", "  var y = e.m*e.v;\n  o(e) = 1*[y(0), y(1), y(0) + y(1)];\n", lambda m, v, s: (lit([lmv(m, v)[0,], lmv(m, v)[1,], sum(lmv(m, v).values())]), 0, None))
loc("loc_transpose", "  var T = e.m';\n  o(e) = T*(0.1*[e.s, 1.0]);\n".replace("T*(0.1*[e.s, 1.0])", "T*[e.s, 1.0]"), lambda m, v, s: (lmv(ltr(m), lit([s, 10])), 0, None))
loc("loc_mm", "  var G = e.m*e.m';\n  var d = G(0,1);\n  t(e) = rescale(d, 1);\n  M(e,e) = rescale(e.m'*(G*e.m), 2);\n", lambda m, v, s: (None, resc(lmm(m, ltr(m))[0, 1], 2, 1), resc(lmm(ltr(m), lmm(lmm(m, ltr(m)), m)), 4, 2)))
loc("loc_literal", "  var B = [1, 0, 2; 0, 1, 0; -1, 3, 4];\n  M(e,e) = 0.01*B;\n  o(e) = 0.1*(B*e.v);\n  t(e) = [e.s, 2.5](0);\n".replace("  t(e) = [e.s, 2.5](0);\n", "  var w = [e.s, 2.5];\n  t(e) = w(0) + w(1);\n"),
    lambda m, v, s: (lmv(lit([1, 0, 2], [0, 1, 0], [-1, 3, 4]), v), s + 25, lit([1, 0, 2], [0, 1, 0], [-1, 3, 4])))
loc("loc_dot", "  o(e) = e.v*e.s;\n  t(e) = rescale(dot(e.v, e.v), 1);\n", lambda m, v, s: (scal(s, v), resc(dot(v, v), 2, 1), None))
loc("loc_column", "  var c = [1; 2; 3];\n  var r = c';\n  var k = c*r;\n  var n = r*c;\n  M(e,e) = 0.01*k;\n  t(e) = 0.1*n(0,0);\n", lambda m, v, s: (None, 14, lit([1, 2, 3], [2, 4, 6], [3, 6, 9])))
loc("loc_reassign_loop", "  var a = 0.1*[1, 1, 1];\n  for i in 0:3\n    a = a + e.v;\n    var b = a;\n    if i == 1\n      b = -b;\n    end\n    o(e) = 0.1*b;\n  end\n", lambda m, v, s: (add(add(add(lit([1, 1, 1]), v), neg(add(lit([1, 1, 1]), scal(2, v)))), add(lit([1, 1, 1]), scal(3, v))), 0, None))
loc("loc_neg_block", "  var a = -e.m + e.m - e.m;\n  M(e,e) = -(a'*a);\n  o(e) = -e.v .* e.v;\n", lambda m, v, s: (neg(emul(v, v)), 0, neg(lmm(ltr(m), m))))
loc("loc_quot_isqrt", "  var a = isqrt(dot(e.v, e.v), 1);\n  t(e) = quot(e.s, a + 0.1, 1);\n  o(e) = rescale([a, e.s, a], 2);\n", lambda m, v, s: (resc(lit([isqrt(dot(v, v), 2, 1), s, isqrt(dot(v, v), 2, 1)]), 1, 2), quot(s, 1, isqrt(dot(v, v), 2, 1) + 1, 1, 1), None))
loc("loc_rescale_block", "  var a = rescale(e.m, 0);\n  var b = rescale(a, 1);\n  M(e,e) = (e.m - b)'*b;\n  o(e) = 1.0*rescale(rescale(e.v, 0), 1);\n", lambda m, v, s: (scal(10, resc(resc(v, 1, 0), 0, 1)), 0, lmm(ltr(sub(m, resc(resc(m, 1, 0), 0, 1))), resc(resc(m, 1, 0), 0, 1))))

# ---------------------------------------------------------------- scales
g = "scales"
q(18, 18, "  q.y = q.x + q.x;\n", ["1.000000000000000001", "-9.223372036854775808", "4.611686018427387904"],
  {"q.y": ["2.000000000000000002", "0.000000000000000000", "-9.223372036854775808"]}, "scale_18", "", g)
q(18, 18, "  q.y = rescale(q.x .* q.x, 18);\n", ["0.000000003", "1", "-0.000000001000000001"],
  {"q.y": [cell(resc(wrap(v * v), 36, 18), 18) for v in (3 * 10 ** 9, 10 ** 18, -(10 ** 9) - 1)]}, "scale_36", "", g)
q(0, 18, "  q.y = rescale(q.x, 18);\n", ["1", "-9", "10"], {"q.y": [cell(wrap(v * 10 ** 18), 18) for v in (1, -9, 10)]}, "scale_0_18", "", g)
q(18, 0, "  q.y = rescale(q.x, 0);\n", ["0.999999999999999999", "-0.000000000000000001", "9.2"], {"q.y": [0, -1, 9]}, "scale_18_0", "", g)
q(9, 9, "  q.y = rescale(rescale(rescale(q.x, 27), 36), 18) + rescale(rescale(q.x, 36 ), 18);\n".replace("rescale(rescale(q.x, 36 ), 18)", "rescale(q.x, 18)").replace("q.y = ", "q.y = rescale(").replace(";\n", ", 9);\n"),
  ["0.000000001", "5", "-1.5"], {"q.y": [cell(resc(wrap(resc(resc(resc(v, 9, 27), 27, 36), 36, 18) + resc(v, 9, 18)), 18, 9), 9) for v in (1, 5 * 10 ** 9, -15 * 10 ** 8)]}, "scale_chain", "", g)
q(3, 5, "  q.y = q.x*1.25;\n", ["0.001", "-7.2"], {"q.y": ["0.00125", "-9.00000"]}, "scale_product", "", g)
q(6, 6, "  var a = quot(1, 3, 18);\n  assert a == 0.333333333333333333;\n  var b = isqrt(2, 9);\n  assert b == 1.414213562;\n  var c = isqrt(2.000000000000000000, 18);\n  assert c == 1.414213562373095048;\n  q.y = rescale(a*q.x, 6);\n",
  ["3", "-3", "0.000001"], {"q.y": [cell(resc(wrap(333333333333333333 * v), 24, 6), 6) for v in (3000000, -3000000, 1)]}, "scale_quot_18", "", g)
q(18, 18, "  var d = dot(q.x, q.x);\n  var e = quot(d, 0.00000000000000000" + "1" + ", 18);\n  q.y = rescale(e*q.x, 18);\n", ["0.000000001", "0.000000002"],
  {"q.y": [cell(resc(wrap(quot(5 * 10 ** 18, 36, 1, 18, 18) * v), 36, 18), 18) for v in (10 ** 9, 2 * 10 ** 9)]}, "scale_dot_36", "", g)
q(4, 4, "  var a = 123456789.123456789;\n  var b = a*a;\n  var c = rescale(b, 0);\n  assert c == rescale(-2204193661.661253, 0) or 1 == 1;\n  q.y = c*q.x;\n".replace("  assert c == rescale(-2204193661.661253, 0) or 1 == 1;\n", ""), ["1", "0.0001"],
  {"q.y": [cell(wrap(resc(wrap(123456789123456789 ** 2), 18, 0) * v), 4) for v in (10000, 1)]}, "scale_wrap_square", "", g)
q(0, 0, "  q.y = rescale(0.000000000000000001*q.x*0.000000000000000001, 18)*quot(1, 1, 0);\n".replace("rescale(0.000000000000000001*q.x*0.000000000000000001, 18)*quot(1, 1, 0)", "rescale(rescale(1.000000000000000000*q.x*0.000000000000000001, 18), 0)"),
  ["7", "-1000000000000000000"], {"q.y": [resc(resc(wrap(wrap(10 ** 18 * v) * 1), 36, 18), 18, 0) for v in (7, -10 ** 18)]}, "scale_literals", "", g)
SC = "func f(a : int(36), e : Q) -> (v : vector[q](int(36)))\n  v(e) = rescale(e.x, 36) + a;\nend\n"
q(18, 18, "  var v = map f(1.000000000000000000*0.000000000000000005) to q reduce +;\n  q.y = rescale(v, 18);\n", ["0", "0.000000000000000001", "1"],
  {"q.y": [cell(resc(wrap(resc(v, 18, 36) + wrap(10 ** 18 * 5)), 36, 18), 18) for v in (0, 1, 10 ** 18)]}, "scale_36_args", SC, g)
q(1, 0, "  q.y = map f to q reduce +;\n", ["-9.9", "-0.1", "0", "0.1", "9.9"],
  {"q.y": [quot(v, 1, 3, 1, 0) * 100 + quot(-v, 1, -3, 1, 0) * 10 + quot(-v, 1, 3, 1, 0) for v in (-99, -1, 0, 1, 99)]}, "scale_quot_signs",
  "func f(e : Q) -> (v : vector[q](int(0)))\n  v(e) = 100*quot(e.x, 0.3, 0);\n  v(e) = 10*quot(-e.x, -0.3, 0);\n  v(e) = quot(-e.x, 0.3, 0);\nend\n", g)
q(0, 0, "  var m = -9223372036854775807 - 1;\n  assert quot(m, -1, 0) == m;\n  assert quot(m, 1, 0) == m;\n  assert quot(1, m, 0) == -1;\n  assert quot(-1, m, 0) == 0;\n  assert quot(m, m, 0) == 1;\n  assert quot(1, m, 18) == -1;\n  q.y = q.x;\n".replace("assert quot(1, m, 18) == -1;", "assert quot(1, m, 18) == -0.000000000000000001;"),
  ["3"], {"q.y": [3]}, "scale_quot_least", "", g)
q(0, 0, "  assert isqrt(9223372036854775807, 0) == 3037000499;\n  assert isqrt(9223372036854775807, 9) == 3037000499.976049692;\n  assert isqrt(0, 0) == 0;\n  assert isqrt(0.000000000000000000, 18) == 0.000000000000000000;\n  assert isqrt(15, 0) == 3;\n  assert isqrt(16, 0) == 4;\n  q.y = q.x;\n",
  ["3"], {"q.y": [3]}, "scale_isqrt_edges", "", g)

# ---------------------------------------------------------------- eight sets
g = "sets"
E8 = "element P\n  x : int(0);\nend\nelement L\n  k : int(0);\nend\n" + "".join("extern a%d : set{P};\n" % i for i in range(4)) + \
    "".join("extern l%d : set{L}(a%d, a%d);\n" % (i, i, i) for i in range(4)) + \
    "".join("""func f%d(s : L, p : (P*2)) -> (M : matrix[a%d,l%d](int(0)))
  M(p(0),s) = s.k;
  M(p(1),s) = -p(1).x;
end
""" % (i, i, i) for i in range(4)) + "proc main\n" + \
    "".join("  var M%d = map f%d to l%d reduce +;\n  a%d.x = M%d*l%d.k;\n  l%d.k = M%d'*a%d.x;\n" % ((i,) * 9) for i in range(4)) + "end\n"
t8, w8 = [], {}
lt8 = []
for i in range(4):
    xs = [i + 1, 2 * i - 3]
    ks = [5 + i, -i]
    t8.append(("a%d" % i, "x\n%d\n%d\n" % tuple(xs)))
    lt8.append(("l%d" % i, "p0,p1,k\n0,1,%d\n1,%d,%d\n" % (ks[0], i % 2, ks[1])))
    M = [[0, 0], [0, 0]]
    M[0][0] += ks[0]
    M[1][0] -= xs[1]
    M[1][1] += ks[1]
    M[i % 2][1] -= xs[i % 2]
    y = [M[0][0] * ks[0] + M[0][1] * ks[1], M[1][0] * ks[0] + M[1][1] * ks[1]]
    w8["a%d.x" % i] = y
    w8["l%d.k" % i] = [M[0][0] * y[0] + M[1][0] * y[1], M[0][1] * y[0] + M[1][1] * y[1]]
case(g, "sets8", E8, t8 + lt8, w8)
case(g, "sets8_vertex", "element P\n  x : int(1);\nend\n" + "".join("extern s%d : set{P};\n" % i for i in range(8)) + "proc main\n" +
    "".join("  s%d.x = %d*s%d.x;\n" % (i, i, i) for i in range(8)) + "end\n", [("s%d" % i, "x\n1\n" * 1 + "2.5\n" * i) for i in range(8)],
    {"s%d.x" % i: ["%d.0" % i] + [cell(25 * i, 1)] * i for i in range(8)})
case(g, "sets9", "element P\n  x : int(1);\nend\n" + "".join("extern s%d : set{P};\n" % i for i in range(9)) + "proc main\nend\n", [("s%d" % i, "x\n") for i in range(9)],
    "refused: line 12: too large")
case(g, "sets_no_fields", "element P\n  x : int(0);\nend\nelement N\nend\nextern ps : set{P};\nextern ns : set{N}(ps, ps);\nfunc d(n : N, p : (P*2)) -> (x : vector[ps](int(0)))\n  x(p(0)) = 1;\n  x(p(1)) = 10;\nend\nproc main\n  ps.x = map d to ns reduce +;\nend\n",
    [("ps", "x\n0\n0\n0\n"), ("ns", "p0,p1\n0,1\n1,0\n2,2\n")], "set ps\nx\n11\n11\n11\nset ns\np0,p1\n0,1\n1,0\n2,2\n")
case(g, "sets_no_sets", "proc main\n  var a = 1;\n  while a < 10\n    a = a + 1;\n  end\n  assert a == 10;\nend\n", [], "")

# ---------------------------------------------------------------- dense words
g = "dense"


def big(n):
    return "x,f\n" + "".join("%d,0\n" % i for i in range(n))


LIM = "limit: dense words over 4194304"
NO_SPRINGS = "p0,p1,k\n"
BD = B.replace("-(K*points.x)", "%s")
SB = "p0,p1,k\n0,2047,5\n2047,1,7\n"


def bigwant(n, f):
    return {"points.f": [f.get(i, 0) for i in range(n)]}


case(g, "dense_2048", B, ps(big(2048), NO_SPRINGS), bigwant(2048, {}))
case(g, "dense_2049", B, ps(big(2049), NO_SPRINGS), LIM)
case(g, "dense_2048_springs", B, ps(big(2048), SB), bigwant(2048, {0: 5 * 2047, 2047: -5 * 2047 - 7 * 2046, 1: 7 * 2046}))
# (1024^2) * 4 = 4194304: one variable and three counted nodes
case(g, "dense_three", BD % "(K + K' - 2*K)*points.x".replace("- 2*K", ""), ps(big(1024), NO_SPRINGS), bigwant(1024, {}))
# K, K', K + K', 2*K: the whole sum is the fifth of 1024^2, one over four
case(g, "dense_nodes_over", BD % "(K + K' + 2*K)*points.x", ps(big(1024), NO_SPRINGS), LIM)
case(g, "dense_four", BD % "(K' + 2*K)*points.x", ps(big(1024), NO_SPRINGS), bigwant(1024, {}))
case(g, "dense_four_1025", BD % "(K' + 2*K)*points.x", ps(big(1025), NO_SPRINGS), LIM)
case(g, "dense_var_right_side", B.replace("  points.f = -(K*points.x);", "  var L = K';\n  var M = L + K;\n  var P = M;\n  points.f = P*points.x;"), ps(big(1024), NO_SPRINGS), bigwant(1024, {}))
case(g, "dense_var_inner", B.replace("  points.f = -(K*points.x);", "  var L = K';\n  var M = L + K + L;\n  var P = M;\n  points.f = P*points.x;"), ps(big(1024), NO_SPRINGS), LIM)
case(g, "dense_leading_minus", BD % "(-K + K)*(2*points.x)", ps(big(1182), NO_SPRINGS), bigwant(1182, {}))   # 3 * 1182^2 = 4191372
case(g, "dense_leading_minus_over", BD % "(-K + K)*(2*points.x)", ps(big(1183), NO_SPRINGS), LIM)   # 3 * 1183^2 = 4198467
case(g, "dense_not_run", B.replace("  points.f = -(K*points.x);", "  if 1 == 2\n    var L = K*K;\n    while 1 == 1\n      var M = L*K';\n    end\n  end\n"), ps(big(1024), NO_SPRINGS), bigwant(1024, {}))
case(g, "dense_not_run_over", B.replace("  points.f = -(K*points.x);", "  if 1 == 2\n    var L = K*K;\n    while 1 == 1\n      var M = L*K';\n    end\n  end\n"), ps(big(1025), NO_SPRINGS), LIM)
case(g, "dense_before_trap", B.replace("  points.f = -(K*points.x);", "  assert 1 == 2;"), ps(big(2049), NO_SPRINGS), LIM)
case(g, "dense_only_vectors", A, ps(big(3000), NO_SPRINGS), bigwant(3000, {}))
case(g, "dense_blocks", CGP, [("nodes", rows("b.0,b.1,b.2,x.0,x.1,x.2", *["0,0,0,0,0,0"] * 395)), ("links", "p0,p1,k\n")], LIM)     # 27*395^2 = 4212675
case(g, "dense_function_products", HEAD + """func f(s : Spring) -> (k : vector[springs](int(0)))
  var M = [1, 2; 3, 4];
  var Q = M*M' + M;
  k(s) = Q(1,1) - s.k;
end
proc main
  springs.k = map f to springs reduce +;
end
""", ps(), {"springs.k": [27, 26]})
case(g, "dense_rectangular", TWO % "  points.f = G'*springs.k;\n", [("points", "x,f\n" + "1,0\n" * 1024), ("springs", "p0,p1,k,l\n" + "0,1,1,0\n" * 2048)],
    {"points.f": [-2048, 2048] + [0] * 1022})
case(g, "dense_rectangular_over", TWO % "  points.f = G'*springs.k;\n", [("points", "x,f\n" + "1,0\n" * 1024), ("springs", "p0,p1,k,l\n" + "0,1,1,0\n" * 2049)], LIM)

# ---------------------------------------------------------------- empty sets
g = "empty"
em = ps("x,f\n", "p0,p1,k\n")
e4 = "set points\nx,f\nset springs\np0,p1,k\n"
for nm, prog in [("B", B), ("C", C), ("D", D), ("E", E), ("F", F), ("G", G), ("H", H)]:
    case(g, "empty_" + nm, prog, em, e4)
case(g, "empty_springs_B", B, ps(springs=NO_SPRINGS), {"points.f": [0, 0, 0]})
case(g, "empty_springs_matrices", B.replace("-(K*points.x)", "K*K'*points.x - rescale(-K, 0)*points.x + points.x"), ps(springs=NO_SPRINGS), {"points.f": [0, 10, 25]})
case(g, "empty_points_matrices", B.replace("-(K*points.x)", "K*K'*points.x - rescale(-K, 0)*points.x + points.x"), em, e4)
case(g, "empty_dot", HEAD + "proc main\n  var d = dot(points.x, points.x);\n  assert d == 0;\n  springs.k = d*springs.k;\n  var q = quot(1, d, 0);\nend\n", em, "trap at line 14: division by zero")
case(g, "empty_trap_args", HEAD + "func f(a : int(0), s : Spring) -> (k : vector[springs](int(0)))\n  k(s) = a;\n  assert 1 == 2;\nend\nproc main\n  springs.k = map f(1) to springs reduce +;\n  springs.k = map f(isqrt(-1, 0)) to springs reduce +;\nend\n", em,
    "trap at line 16: root of a negative number")
case(g, "empty_two", TWO % "  springs.l = G*points.x;\n  points.f = G'*G*points.x;\n  springs.l = G*G'*springs.k + springs.l;\n", [("points", "x,f\n1,2\n"), ("springs", "p0,p1,k,l\n")], {"points.f": [0], "springs.l": []})

# ---------------------------------------------------------------- options: --turns
g = "options"
case(g, "opt_turns_while", "proc main\nwhile 1 == 1\nend\nend\n", [], "spent: 5 turns", turns=5)
case(g, "opt_turns_for", "proc main\nfor i in 0:5\nend\nend\n", [], "", turns=5)
case(g, "opt_turns_for_4", "proc main\nfor i in 0:5\nend\nend\n", [], "spent: 4 turns", turns=4)
case(g, "opt_zero", "proc main\nfor i in 0:0\nend\nwhile 1 == 2\nend\nend\n", [], "", turns=0)
case(g, "opt_zero_spent", "proc main\nfor i in 0:1\nend\nend\n", [], "spent: 0 turns", turns=0)
case(g, "opt_nested", "proc main\nfor i in 0:2\nfor j in 0:3\nend\nend\nend\n", [], "", turns=8)
case(g, "opt_nested_7", "proc main\nfor i in 0:2\nfor j in 0:3\nend\nend\nend\n", [], "spent: 7 turns", turns=7)
case(g, "opt_condition_traps_first", "proc main\nvar a = 1;\nwhile quot(1, a, 0) == 1\na = a - 1;\nend\nend\n", [], "trap at line 3: division by zero", turns=1)
case(g, "opt_function_loop", HEAD + "func c(s : Spring) -> (k : vector[springs](int(0)))\n  for i in 0:100\n    k(s) = i;\n  end\nend\nproc main\n  springs.k = map c to springs reduce +;\nend\n", ps(), {"springs.k": [4950, 4950]}, turns=0)
case(g, "opt_most", "proc main\nfor i in 0:1048576\nend\nend\n", [], "", turns=1048576)


# ---------------------------------------------------------------- every scale of a field
g = "scales"
nums = [(-1) ** d * (123456789 * (d + 1) + d) for d in range(19)]
case(g, "scale_every_field", "element Q\n" + "".join("  x%d : int(%d);\n" % (d, d) for d in range(19)) + "end\nextern q : set{Q};\nproc main\n" +
     "".join("  q.x%d = q.x%d + q.x%d - 3*q.x%d;\n" % (d, d, d, d) for d in range(19)) + "end\n",
     [("q", ",".join("x%d" % d for d in range(19)) + "\n" + ",".join(cell(v, d) for d, v in enumerate(nums)) + "\n")],
     {"q.x%d" % d: [cell(-v, d)] for d, v in enumerate(nums)})
case(g, "scale_every_shift", "element Q\n" + "".join("  x%d : int(%d);\n" % (d, d) for d in range(19)) + "end\nextern q : set{Q};\nproc main\n" +
     "".join("  q.x%d = rescale(q.x%d, %d);\n" % (18 - d, d, 18 - d) for d in range(10)) + "end\n",
     [("q", ",".join("x%d" % d for d in range(19)) + "\n" + ",".join(cell(v, d) for d, v in enumerate(nums)) + "\n")],
     {"q.x%d" % (18 - d): [cell(resc(v, d, 18 - d), 18 - d)] for d, v in enumerate(nums[:10])})
for d in range(19, 37):
    # x at scale 18 times 1 at scale d-18, and down again by way of scale d
    one_ = "1." + "0" * (d - 18)
    q(18, 18, "  var a = %s*q.x;\n  var b = a + a;\n  q.y = rescale(b, 18) - rescale(-b, %d);\n".replace("rescale(-b, %d)", "rescale(rescale(-b, %d), 18)") % (one_, d - 18),
      ["0.000000000000000003", "-0.123456789012345678", "1"],
      {"q.y": [cell(wrap(resc(wrap(2 * v * 10 ** (d - 18)), d, 18) - resc(resc(wrap(-2 * v * 10 ** (d - 18)), d, d - 18), d - 18, 18)), 18) for v in (3, -123456789012345678, 10 ** 18)]},
      "scale_inside_%d" % d, "", g)

# ---------------------------------------------------------------- refusals, by hand from the table of kinds
g = "refusals"
FN = "func f(s : Spring, p : (Point*2)) -> (f0 : vector[points](int(0)))\n%send\nproc main\n%send\n"
FA = "func f(k : int(0), s : Spring, p : (Point*2)) -> (f0 : vector[points](int(0)))\n%send\nproc main\n%send\n"


def ref(name, rest, line, kind, head=HEAD, files=()):
    case(g, "ref_" + name, head + rest, list(files), "refused: line %d: %s" % (line, kind))


def mref(name, body, line, kind):
    """Main's body begins in line 11."""
    ref(name, "proc main\n" + body + "end\n", line, kind)


U, TW_, NC, NP, SH, SE, SL, TL = "unknown name", "declared twice", "not a constant", "not a place", "shape", "set", "scale", "too large"
mref("name", "  points.f = y;\n", 11, U)
mref("target", "\n  y = 1;\n", 12, U)
mref("map_function", "  points.f = map nope to springs reduce +;\n", 11, U)
ref("map_set", FN % ("", "  points.f = map f to spring reduce +;\n"), 13, U)
mref("scope_end", "  if 1 == 1\n    var a = 1;\n  end\n  points.f = a*points.x;\n", 14, U)
mref("loop_name_after", "  for i in 0:2\n  end\n  points.f = i*points.x;\n", 13, U)
ref("element", "extern other : set{Pont};\nproc main\nend\n", 10, U)
ref("end_set", "extern other : set{Spring}(point);\nproc main\nend\n", 10, U)
ref("field", FN % ("  f0(p(0)) = s.x;\n", ""), 11, U)
ref("field_before_twice", "extern points : set{Nope};\nproc main\nend\n", 10, U)
ref("set_twice", "extern points : set{Point};\nproc main\nend\n", 10, TW_)
mref("var_twice", "  var a = 1;\n  var a = 2;\n", 12, TW_)
mref("var_set", "  var points = 1;\n", 11, TW_)
mref("var_inner", "  var a = 1;\n  if 1 == 1\n    var a = 2;\n  end\n", 13, TW_)
mref("var_value_first", "  var a = 1;\n  var a = b;\n", 12, U)
ref("field_twice", "element A\n  x : int(0);\n  x : int(1);\nend\nproc main\nend\n", 12, TW_)
ref("field_key", "element A\n  key : int(0);\nend\nproc main\nend\n", 11, TW_)
ref("field_p7", "element A\n  p8 : int(0);\n  p7 : int(0);\nend\nproc main\nend\n", 12, TW_)
ref("field_scale", "element A\n  x : int(19);\nend\nproc main\nend\n", 11, SL)
ref("field_side_7", "element A\n  x : vector[6](int(0));\n  y : matrix[2,7](int(0));\nend\nproc main\nend\n", 12, TL)
ref("field_side_0", "element A\n  x : vector[0](int(0));\nend\nproc main\nend\n", 11, TL)
ref("field_point", "element A\n  x : vector[2.0](int(0));\nend\nproc main\nend\n", 11, NC)
ref("set_no_column", "element A\nend\nextern as : set{A};\nproc main\nend\n", 12, SH)
ref("set_two_ends", "extern other : set{Point};\nextern both : set{Spring}(points, other);\nproc main\nend\n", 11, SE)
ref("set_on_edges", "extern both : set{Spring}(springs, springs);\nproc main\nend\n", 10, SE)
ref("set_nine_ends", "extern both : set{Spring}(points, points, points, points, points, points, points, points, points);\nproc main\nend\n", 10, TL)
mref("literal_scale", "  var a = 0.000000000000000000;\n  var b = 0.0000000000000000000;\n", 12, SL)
mref("literal_large", "  var a = 9223372036854775807;\n  var b = 9223372036854775808;\n", 12, TL)
mref("literal_large_decimals", "  var a = 92233720368547758.07;\n  var b = 92233720368547758.08;\n", 12, TL)
mref("sum_scale", "  var a = 1 + 1.0;\n", 11, SL)
mref("sum_sets", "  var a = points.x + springs.k;\n", 11, SE)
mref("sum_forms", "  var a = 1 + points.x;\n", 11, SH)
mref("product_vectors", "  var a = points.x*points.x;\n", 11, SH)
mref("entrywise_sets", "  var a = points.x .* springs.k;\n", 11, SE)
mref("entrywise_scalars", "  var a = 2 .* points.x;\n", 11, SH)
mref("dot_sets", "  var a = dot(points.x, springs.k);\n", 11, SE)
mref("transpose_vector", "  var a = points.x';\n", 11, SH)
mref("block_in_main", "  var a = [1, 2];\n", 11, SH)
mref("entry_in_main", "  var a = points.x(0);\n", 11, SH)
mref("entry_of_scalar", "  var b = 1;\n  var a = b(0);\n", 12, SH)
mref("product_scale", "  var a = 1.000000000000000000*1.000000000000000000;\n  var b = a*1;\n  var c = a*1.0;\n", 13, SL)
mref("rescale_over", "  var a = rescale(1, 18);\n  var b = rescale(a, 36);\n  var c = rescale(a, 37);\n", 13, SL)
mref("rescale_step", "  var a = rescale(1, 18);\n  var b = rescale(1, 19);\n", 12, SL)
mref("rescale_step_down", "  var a = 1.0*1.000000000000000000;\n  var b = rescale(a, 1);\n  var c = rescale(a, 0);\n", 13, SL)
mref("rescale_point", "  var a = rescale(1, 1.0);\n", 11, NC)
mref("quot_below", "  var a = quot(1.00, 1, 2);\n  var b = quot(1.00, 1, 1);\n", 12, SL)
mref("quot_above", "  var a = quot(1, 1, 18);\n  var b = quot(1, 1.0, 18);\n", 12, SL)
mref("quot_vector", "  var a = quot(points.x, 1, 0);\n", 11, SH)
mref("isqrt_below", "  var a = isqrt(1.00, 1);\n  var b = isqrt(1.000, 1);\n", 12, SL)
mref("isqrt_above", "  var a = isqrt(1, 9);\n  var b = isqrt(1, 10);\n", 12, SL)
mref("compare_scales", "  assert 1 == 1\n    and 1 == 1.0;\n", 12, SL)
mref("compare_vectors", "  assert points.x == points.x;\n", 11, SH)
mref("bounds_scale", "  for i in 0:2.0\n  end\n", 11, SL)
mref("bounds_vector", "  for i in points.x:2\n  end\n", 11, SH)
mref("bounds_after_body", "  for i in 0:2.0\n    var a = b;\n  end\n", 12, U)
mref("assign_loop", "  for i in 0:2\n    i = 1;\n  end\n", 12, NP)
ref("assign_matrix", B.split(HEAD)[1].replace("  points.f = -(K*points.x);", "  K = K;"), 18, NP)
ref("assign_param", FA % ("  k = 1;\n", ""), 11, NP)
mref("assign_scale", "  points.f = points.x*1.0;\n", 11, SL)
mref("assign_set", "  points.f = springs.k;\n", 11, SE)
mref("assign_form", "  points.f = 1;\n", 11, SH)
ref("write_var", FN % ("  var d = 1;\n  d(p(0)) = 1;\n", ""), 12, NP)
ref("write_places", FN % ("  f0(p(0),p(1)) = 1;\n", ""), 11, SH)
ref("write_scale", FN % ("  f0(p(0)) = 1.0;\n", ""), 11, SL)
ref("write_block", FN % ("  f0(p(0)) = [1, 2];\n", ""), 11, SH)
ref("write_range", FN % ("  f0(p(2)) = 1;\n", ""), 11, TL)
ref("write_range_loop", FN % ("  for i in 0:3\n    f0(p(i)) = 1;\n  end\n", ""), 12, TL)
ref("end_range", FN % ("  f0(p(1)) = p(2).x;\n", ""), 11, TL)
ref("end_range_loop", FN % ("  for i in 1:3\n    f0(p(1)) = p(i).x;\n  end\n", ""), 12, TL)
ref("entry_range", FN % ("  var v = [1, 2, 3];\n  f0(p(1)) = v(2);\n  f0(p(1)) = v(3);\n", ""), 13, TL)
ref("index_param", FA % ("  f0(p(0)) = p(k).x;\n", ""), 11, NC)
ref("index_point", FA % ("  var v = [1, 2];\n  f0(p(0)) = v(1.0);\n", ""), 12, NC)
ref("index_sum", FA % ("  var v = [1, 2];\n  f0(p(0)) = v(0 + 1);\n", ""), 12, NC)
ref("value_element", FN % ("  f0(p(0)) = s;\n", ""), 11, SH)
ref("value_result", FN % ("  f0(p(0)) = f0;\n", ""), 11, SH)
ref("value_ends", FN % ("  f0(p(0)) = p.x;\n", ""), 11, SH)
ref("rows_differ", FN % ("  var m = [1, 2; 3];\n", ""), 11, SH)
ref("rows_scale", FN % ("  var m = [1, 2; 3, 4.0];\n", ""), 11, SL)
ref("number_not_vector", FN % ("  var v = [1] + 1;\n", ""), 11, SH)
ref("matrix_sides", FN % ("  var m = [1, 2; 3, 4]*[1, 2, 3];\n", ""), 11, SH)
ref("cfor_equal", FN % ("  for i in 2:3\n  end\n  for i in 2:2\n  end\n", ""), 13, TL)
ref("cfor_over", FN % ("  for i in 4095:4096\n  end\n  for i in 4096:4097\n  end\n", ""), 13, TL)
ref("cfor_point", FN % ("  for i in 0.0:2\n  end\n", ""), 11, NC)
ref("map_results", FN % ("", "  var a, b = map f to springs reduce +;\n"), 13, SH)
ref("map_args", FN % ("", "  var a = map f(1) to springs reduce +;\n"), 13, SH)
ref("map_args_scale", FA % ("", "  var a = map f(1.0) to springs reduce +;\n"), 13, SL)
ref("map_element", FN % ("", "  var a = map f to points reduce +;\n"), 13, SE)
ref("map_ends_count", "extern faces : set{Spring}(points, points, points);\n" + FN % ("", "  var a = map f to faces reduce +;\n"), 14, SE)
ref("map_written_set", (FN % ("  f0(s) = 1;\n", "\n  var a = map f to springs reduce +;\n")), 15, SE)
case(g, "ok_written_set_unmapped", HEAD + FN % ("  f0(s) = 1;\n", ""), ps(), nine.replace("0,20", "0,0").replace("10,25", "10,0").replace("25,-45", "25,0"))
ref("func_params", "func f(p : (Point*2), s : Spring) -> (f0 : vector[points](int(0)))\nend\nproc main\nend\n", 10, SH)
ref("func_params_body", "func f(p : (Point*2), s : Spring) -> (f0 : vector[points](int(0)))\n  f0(p(0)) = y;\nend\nproc main\nend\n", 11, U)
ref("func_vector_block", "func f(s : Spring) -> (f0 : vector[points](matrix[2,2](int(0))))\nend\nproc main\nend\n", 10, SH)
ref("func_matrix_block", "func f(s : Spring) -> (f0 : matrix[points,points](vector[2](int(0))))\nend\nproc main\nend\n", 10, SH)
ref("func_results_5", "func f(s : Spring) -> (" + ", ".join("f%d : vector[points](int(0))" % i for i in range(5)) + ")\nend\nproc main\nend\n", 10, TL)
ref("func_args_9", "func f(" + "".join("k%d : int(0), " % i for i in range(9)) + "s : Spring) -> (f0 : vector[points](int(0)))\nend\nproc main\nend\n", 10, TL)
COST = "func f(s : Spring) -> (k : vector[springs](int(0)))\n  for i in 0:4095\n" + "".join("    var a%d = 1;\n" % i for i in range(8)) + \
    "  end\n  k(s) = s.k;\n  k(s) = %s1 + 1 + 1 + 1 + 1 + 1;\nend\nproc main\n  springs.k = map f to springs reduce +;\nend\n"
case(g, "ok_cost_65536", HEAD + COST % "-", ps(), {"springs.k": [2 + 4, 3 + 4]})
ref("cost_65537", COST % "(-1 + 1) + ", 10, TL)
ref("statement_4097", "proc main\n" + "  assert 1 == 1;\n" * 4097 + "end\n", 11 + 4096, TL)
case(g, "ok_statements_4096", HEAD + "proc main\n" + "  assert 1 == 1;\n" * 4096 + "end\n", ps(), {"springs.k": [2, 3]})
case(g, "ref_broken_off", "element P\n  x : int(0);\nend\nextern q : set{P};\nfunc g(e : P)", [], "refused: line 5, token 25: syntax")
case(g, "ref_byte", "proc main\n  $ \nend\n", [], "refused: line 2, byte 12: bad byte")
case(g, "ref_long", "proc main\n  var %s = 1;\n  var %s = 1;\nend\n" % ("a" * 64, "b" * 65), [], "refused: line 3, byte %d: long name" % (10 + 2 + 4 + 64 + 6 + 6))
case(g, "ref_deep", "proc main\n  var a = %s1%s;\n  var b = %s1%s;\nend\n" % ("(" * 64, ")" * 64, "(" * 65, ")" * 65), [],
     "refused: line 3, byte %d: too deep" % (10 + 10 + 64 + 1 + 64 + 2 + 10 + 64))
case(g, "ok_deep_64", "proc main\n  var a = %s1%s;\nend\n" % ("(" * 64, ")" * 64), [], "")
case(g, "worked_25_ix", B.replace("-(K*points.x)", "ix (i) -K(i,j)*points.x(j)"), ps(), nine)
case(g, "ref_reduce", A.replace("reduce +", "reduce -"), ps(), "refused: line 16, token %d: syntax" % len(__import__("re").findall(r"[A-Za-z_]\w*|\d+(?:\.\d+)?|\.\*|->|[=!<>]=|\S", A.split("+;\nend")[0])))
case(g, "ref_sign_in_product", "proc main\n  var a = 2*-3;\nend\n", [], "refused: line 2, token 7: syntax")


# ---------------------------------------------------------------- a matrix keeps the value of its var
g = "storage"
XS, KS = [0, 10, 25], [2, 3]


def kx(k, x, c=1):
    """c times K times x for the springs 0-1 and 1-2."""
    a, b = k[0] * (x[0] - x[1]), k[1] * (x[1] - x[2])
    return [c * a, c * (b - a), -c * b]


def st(name, body, want, more_=""):
    prog = B.split("  var K = map")[0].replace("proc main\n", more_ + "proc main\n") + body + "end\n"
    case(g, "keep_" + name, prog, ps(), want)


MK = "  var K = map stiff to springs reduce +;\n"
PF = "points.f = points.f + "
st("scalar", MK + "  var c = 2;\n  var L = c*K;\n  c = 5;\n  points.f = L*points.x;\n", {"points.f": kx(KS, XS, 2)})
st("sum", MK + "  var L = K + K';\n  springs.k = 0*springs.k;\n  points.f = L*points.x;\n", {"points.f": kx(KS, XS, 2), "springs.k": [0, 0]})
st("loop_scalar", MK + "  for i in 0:3\n    var L = i*K;\n    %sL*points.x;\n  end\n" % PF, {"points.f": kx(KS, XS, 3)})
st("loop_later_scalar", MK + "  var c = 1;\n  for i in 0:3\n    var L = c*K;\n    c = c + 1;\n    %sL*points.x;\n  end\n" % PF, {"points.f": kx(KS, XS, 6)})
st("loop_map_after", "  for i in 0:3\n" + MK + "    %sK*points.x;\n    springs.k = springs.k + springs.k;\n  end\n" % PF, {"points.f": kx(KS, XS, 7), "springs.k": [16, 24]})
st("loop_map_before", "  for i in 0:3\n" + MK + "    springs.k = springs.k + springs.k;\n    %sK*points.x;\n  end\n" % PF, {"points.f": kx(KS, XS, 7)})
st("outside_loop", MK + "  for i in 0:3\n    %sK*points.x;\n    springs.k = springs.k + springs.k;\n  end\n" % PF, {"points.f": kx(KS, XS, 3), "springs.k": [16, 24]})
st("outside_while", MK + "  var c = 0;\n  while c < 4\n    %sK*points.x;\n    if c == 1\n      springs.k = 0*springs.k;\n    end\n    c = c + 1;\n  end\n" % PF, {"points.f": kx(KS, XS, 4), "springs.k": [0, 0]})
st("if_write", MK + "  if 1 == 1\n    springs.k = 0*springs.k;\n  end\n  points.f = K*points.x;\n", {"points.f": kx(KS, XS)})
st("if_write_other", MK + "  if 1 == 2\n    points.f = K*points.x;\n  else\n    springs.k = 0*springs.k;\n    points.f = K*points.x + K*points.x;\n  end\n", {"points.f": kx(KS, XS, 2)})
st("alias", MK + "  var L = K;\n  springs.k = 0*springs.k;\n  var M = L + K;\n  points.f = M*points.x;\n", {"points.f": kx(KS, XS, 2)})
st("last_target", "  var D = map dg to springs reduce +;\n  springs.k = D*springs.k;\n", {"springs.k": [4, 9]},
   "func dg(s : Spring) -> (D : matrix[springs,springs](int(0)))\n  D(s,s) = s.k;\nend\n")
st("last_target_twice", "  var D = map dg to springs reduce +;\n  springs.k = D*springs.k;\n  springs.k = D*springs.k;\n", {"springs.k": [8, 27]},
   "func dg(s : Spring) -> (D : matrix[springs,springs](int(0)))\n  D(s,s) = s.k;\nend\n")
XM = "func xm(c : int(0), s : Spring, p : (Point*2)) -> (X : matrix[points,points](int(0)))\n  X(p(0),p(1)) = c*p(0).x*s.k + 1;\nend\n"
# X: (0,1) = 1, (1,2) = c*30 + 1
st("endpoint_field", "  var X = map xm(1) to springs reduce +;\n  points.x = X*points.x;\n  points.f = X*points.x;\n", {"points.x": [10, 31 * 25, 0], "points.f": [31 * 25, 0, 0]}, XM)
st("args", "  var c = 2;\n  var X = map xm(c) to springs reduce +;\n  c = 0;\n  points.f = X*points.x;\n", {"points.f": [10, 61 * 25, 0]}, XM)
st("args_loop", "  for c in 0:3\n    var X = map xm(c*c) to springs reduce +;\n    %sX*points.x;\n  end\n" % PF, {"points.f": [30, (1 + 31 + 121) * 25, 0]}, XM)
st("args_field", "  var X = map xm(dot(springs.k, springs.k)) to springs reduce +;\n  springs.k = 0*springs.k;\n  points.f = X*points.x;\n", {"points.f": [10, (13 * 30 + 1) * 25, 0]}, XM)
QM = "func qm(s : Spring, p : (Point*2)) -> (X : matrix[points,points](int(0)))\n  X(p(0),p(1)) = quot(100, s.k, 0);\n  assert s.k > 0;\nend\n"
st("quot_map", "  var X = map qm to springs reduce +;\n  springs.k = 0*springs.k;\n  points.f = X*points.x;\n", {"points.f": [500, 33 * 25, 0]}, QM)
st("transposed_product", MK + "  var X = map qm to springs reduce +;\n  var P = (K*X)';\n  springs.k = 0*springs.k;\n  points.f = P*points.x;\n",
   {"points.f": (lambda v: [0, 50 * v[0], 33 * v[1]])(kx(KS, XS))}, QM)
st("sixty_four", MK + "".join("  var K%d = K%s + K%s;\n" % (2 ** i, "" if i == 1 else 2 ** (i - 1), "" if i == 1 else 2 ** (i - 1)) for i in range(1, 7)) + "  points.f = K64*points.x;\n", {"points.f": kx(KS, XS, 64)})
st("hundred_twenty_eight", MK + "".join("  var K%d = K%s + K%s;\n" % (2 ** i, "" if i == 1 else 2 ** (i - 1), "" if i == 1 else 2 ** (i - 1)) for i in range(1, 8)) + "  points.f = K128*points.x;\n", {"points.f": kx(KS, XS, 128)})
v8 = v9 = XS
for i in range(9):
    v8, v9 = v9, kx(KS, v9)
st("eight_factors", MK + "  points.f = " + "K*" * 8 + "points.x;\n", {"points.f": v8})
st("nine_factors", MK + "  points.f = " + "K*" * 9 + "points.x;\n", {"points.f": v9})
st("nine_factors_right", MK + "  points.f = " + "K*(" * 8 + "K*points.x" + ")" * 8 + ";\n", {"points.f": v9})
st("difference_terms", MK + "  points.f = (K - 2*K + 3*K' - (K - K))*points.x - K*points.x;\n", {"points.f": kx(KS, XS, 1)})
st("rescale_part", MK + "  var R = rescale(0.1*K, 0);\n  springs.k = 0*springs.k;\n  points.f = rescale(0.5*K, 0)*points.x + R*points.x;\n",
   {"points.f": [(2 * 5 // 10) * 0 + (-2 * 5 // 10) * 10 + (-2 // 10) * 10, (-2 * 5 // 10) * 0 + (5 * 5 // 10) * 10 + (-15 // 10) * 25 + (5 // 10) * 10 + (-3 // 10) * 25,
                 (-15 // 10) * 10 + (15 // 10) * 25 + (-3 // 10) * 10 + (3 // 10) * 25]})
st("trap_scalar_first", MK + "  points.f = (quot(1, 0, 0)*K)*(isqrt(-1, 0)*points.x);\n", "trap at line 18: division by zero")
st("trap_right_operand", MK + "  points.f = K*(isqrt(-1, 0)*points.x)*quot(1, 0, 0);\n", "trap at line 18: root of a negative number")
st("trap_rescaled_part", MK + "  points.f = (K + rescale(isqrt(-1, 0)*K, 0))*(quot(1, 0, 0)*points.x);\n", "trap at line 18: root of a negative number")
st("trap_var_scalar", MK + "  var c = 0;\n  var L = quot(1, c, 0)*K;\n  points.f = 1*points.x;\n", "trap at line 19: division by zero")
st("trap_unused", "  points.f = 7*points.x;\n  springs.k = springs.k - springs.k;\n  var X = map qm to springs reduce +;\n", "trap at line 23, element 0: division by zero", QM)
st("two_results", "  var X, f = map xf to springs reduce +;\n  springs.k = 0*springs.k;\n  points.f = X*f;\n  points.x = X'*f;\n", {"points.f": [2 * 30, 0, 0], "points.x": [0, 40, 90]},
   "func xf(s : Spring, p : (Point*2)) -> (X : matrix[points,points](int(0)), f : vector[points](int(0)))\n  X(p(0),p(1)) = s.k;\n  f(p(0)) = 10*s.k*s.k - 10*s.k;\n  f(p(0)) = 0;\nend\n".replace("10*s.k*s.k - 10*s.k", "10*s.k"))
st("self_loop_block", "  points.f = points.x;\n" + MK + "  points.x = K*points.f + K'*points.f - points.x;\n", {"points.x": [a * 2 - b for a, b in zip(kx(KS, XS), XS)]})

g = "maps"
TWOE = """element Point
  x : int(0);
end
element L
  k : int(0);
end
extern as : set{Point};
extern bs : set{Point};
extern la : set{L}(as, as);
extern lc : set{L}(as, as);
extern lb : set{L}(bs, bs);
func push(c : int(0), s : L, p : (Point*2)) -> (x : vector[as](int(0)), K : matrix[as,as](int(0)))
  x(p(1)) = c*s.k*p(0).x;
  K(p(1),p(0)) = s.k;
end
func look(s : L, p : (Point*2)) -> (x : vector[as](int(0)))
  assert p(1).x - p(0).x == s.k;
end
proc main
%send
"""
te = [("as", "x\n1\n2\n3\n"), ("bs", "x\n10\n20\n"), ("la", "p0,p1,k\n0,1,1\n1,2,1\n"), ("lc", "p0,p1,k\n0,2,2\n2,1,-1\n2,2,0\n"), ("lb", "p0,p1,k\n0,1,10\n1,0,-10\n")]
case(g, "map_two_edge_sets", TWOE % "  var x, K = map push(1) to la reduce +;\n  var y, M = map push(10) to lc reduce +;\n  as.x = x + y + (K + M)*(K'*as.x);\n", te,
     # x = (0,1,2); y: lc: p1=2 += 10*2*1, p1=1 += 10*-1*3, p1=2 += 0 -> (0,-30,20)
     # K: (1,0)=1, (2,1)=1; K'x = (2, 3, 0); M: (2,0)=2, (1,2)=-1, (2,2)=0
     {"as.x": [0, 1 - 30 + 2 + 0, 2 + 20 + 3 + 4]})
case(g, "map_other_vertex_set", TWOE % "  var x = map look to la reduce +;\n  var y = map look to lb reduce +;\n  as.x = as.x + x + y;\n  var z = map look to lc reduce +;\n", te,
     {"as.x": [1, 2, 3]})
case(g, "map_other_vertex_set_trap", TWOE % "  bs.x = -bs.x;\n  var x = map look to la reduce +;\n  var y = map look to lb reduce +;\n", te, "trap at line 22, element 0: assertion failed")


# ---------------------------------------------------------------- first forms, and limits
g = "requests"
FIRST_FORM = "element Point\n  x : int(0);\n  f : int(0);\nend\nextern points : set{Point};\nproc main\n  points.f = 2*points.x - points.f .* points.f;\n  points.x = -points.x + points.f;\nend\n"
case(g, "first_1", FIRST_FORM, [("points", "x,f\n3,4\n-1,2\n")], "set points\nx,f\n-13,-10\n-5,-6\n")
case(g, "first_2", FIRST_FORM, [("points", "x,f\n9223372036854775807,0\n")], "set points\nx,f\n9223372036854775807,-2\n")
case(g, "first_3", FIRST_FORM, [("points", "x,f\n3\n")], "refused: points.csv row 1: width")
for nm, t, w in [("header", "x", "refused: points.csv row 0, column 1: header"), ("cell", "x,f\n0,0\n10,0\n25,", "refused: points.csv row 3, column 1: empty cell"),
                 ("width", "x,f\n0,0\n10,0\n25", "refused: points.csv row 3: width"), ("whole", "x,f\n0,0\n10,0\n25,0", nine), ("none", "", "refused: points.csv: no header")]:
    case(g, "broken_2_" + nm, A, ps(t), w)
sys.setrecursionlimit(200000)
LONG = "element P x : int(0); end extern q : set{P}; proc main q.x = %s1*q.x" + " + q.x" * 16376 + "; end"
case(g, "broken_3", LONG % "", [("q", "x\n1\n")], {"q.x": [16377]})
case(g, "broken_3_over", (LONG % "-"), [("q", "x\n1\n")], "refused: line 1, byte %d: too many tokens" % len(LONG % "-"))
case(g, "ok_columns_64", "element P\n  a : matrix[6,6](int(0));\n  b : matrix[6,4](int(0));\n  c : vector[3](int(0));\n  d : int(0);\nend\nextern ps : set{P};\nproc main\n  ps.d = 2*ps.d;\nend\n",
     [("ps", ",".join(heads("a", (6, 6)) + heads("b", (6, 4)) + heads("c", (3,)) + ["d"]) + "\n" + ",".join(str(i) for i in range(64)) + "\n")], {"ps.d": [126], "ps.b.0.0": [36], "ps.b.5.3": [59], "ps.c.2": [62]})
ref("columns_65", "element P\n  a : matrix[6,6](int(0));\n  b : matrix[6,4](int(0));\n  c : vector[4](int(0));\n  d : int(0);\nend\n\nextern ps : set{P};\nproc main\nend\n", 17, TL)
ref("columns_65_ends", "element P\n  a : matrix[6,6](int(0));\n  b : matrix[6,4](int(0));\n  c : vector[3](int(0));\nend\nextern p1 : set{P}(points);\nextern ps : set{P}(points, points);\nproc main\nend\n", 16, TL)
case(g, "ok_fields_32", "element P\n" + "".join("  x%d : int(0);\n" % i for i in range(32)) + "end\nextern ps : set{P};\nproc main\n  ps.x31 = ps.x0 - ps.x31;\nend\n",
     [("ps", ",".join("x%d" % i for i in range(32)) + "\n" + ",".join(str(i) for i in range(32)) + "\n")], {"ps.x31": [-31], "ps.x30": [30]})
ref("fields_33", "\nelement P\n" + "".join("  x%d : int(0);\n" % i for i in range(33)) + "end\nproc main\nend\n", 11, TL)
case(g, "ok_byte_in_comment", "proc main % $ \xe9 \x01 end\n  var a = 1; % 'x\nend", [], "")
case(g, "ok_tokens", "proc main var a=2.*3;var b=1.5;assert a*1.0==6.0;assert b-1.5==0.0;assert 1<=2 and 2>=1 and-1!=1;end".replace("var a=2.*3;", "var a=2*3;"), [], "")


# ---------------------------------------------------------------- found wanting by changed interpreters
g = "scales"
QW = [9223372036854775807, -9223372036854775808, 9000000000, -1234567890123, 1, 0]
for nm, t, b in [("3", 0, 3), ("minus_7", 0, -7), ("large", 0, 1000000007), ("fine", 18, 1000000000000000003), ("most", 0, 9223372036854775807), ("minus_most", 0, -9223372036854775807)]:
    d = 18 - t
    q(0, d, "  q.y = map w to q reduce +;\n", [str(v) for v in QW], {"q.y": [cell(quot(v, 0, b, t, d), d) for v in QW]}, "scale_quot_wide_" + nm,
      "func w(e : Q) -> (v : vector[q](int(%d)))\n  v(e) = quot(e.x, %s, %d);\nend\n" % (d, cell(b, t), d), g)
q(9, 9, "  q.y = map w to q reduce +;\n", ["9223372036.854775807", "-9223372036.854775808", "0.000000001", "-5.5", "0"],
  {"q.y": [cell(quot(v, 9, 3, 9, 18 - 9), 9) for v in (2 ** 63 - 1, -2 ** 63, 1, -5500000000, 0)]}, "scale_quot_same",
  "func w(e : Q) -> (v : vector[q](int(9)))\n  v(e) = quot(e.x, 0.000000003, 9);\nend\n", g)
q(0, 9, "  q.y = map w to q reduce +;\n", ["9223372036854775807", "3", "1000000000000000000", "0"],
  {"q.y": [cell(isqrt(v, 0, 9), 9) for v in (2 ** 63 - 1, 3, 10 ** 18, 0)]}, "scale_isqrt_wide",
  "func w(e : Q) -> (v : vector[q](int(9)))\n  v(e) = isqrt(e.x, 9);\nend\n", g)
g = "while"
case(g, "while_budget_body", X % "  var a = 100000;\n  while 1 == 1\n    assert a > 0;\n    a = a - 1;\n  end\n", xt, "spent: 100000 turns")
case(g, "while_budget_body_trap", X % "  var a = 99999;\n  while 1 == 1\n    assert a > 0;\n    a = a - 1;\n  end\n", xt, "trap at line 8: assertion failed")
case(g, "while_budget_for_body", X % "  for i in 0:100001\n    assert i < 100000;\n  end\n", xt, "spent: 100000 turns")
case(g, "while_budget_for_trap", X % "  for i in 0:100001\n    assert i < 99999;\n  end\n", xt, "trap at line 7: assertion failed")
case(g, "while_budget_shared", X % "  var c = 0;\n  for i in 0:50000\n    c = c + 1;\n  end\n  while c > 0\n    c = c - 1;\n  end\n  while c < 1\n    c = c + 1;\n  end\n", xt, "spent: 100000 turns")
case(g, "while_budget_last", X % "  var c = 0;\n  for i in 0:50000\n    c = c + 1;\n  end\n  while c > 1\n    c = c - 1;\n  end\n  while c < 2\n    c = c + 1;\n  end\n  points.x = c*points.x;\n", xt, {"points.x": [2, 4]})
g = "products"
prod("prod_entrywise_after", "  ns.u = A*ns.v .* ns.u;\n", lambda s, n: {"u": emul(smv(s["A"], s["v"], z(n, 2)), s["u"])})
prod("prod_entrywise_three", "  ns.u = A*ns.v .* ns.u .* ns.u*2;\n", lambda s, n: {"u": scal(2, emul(emul(smv(s["A"], s["v"], z(n, 2)), s["u"]), s["u"]))})
prod("prod_rescale_left", "  ns.u = rescale(0.1*A, 0)*(0.1*ns.v)*10.0 - 0.00*ns.u;\n".replace("ns.u = ", "ns.u = rescale(").replace(";\n", ", 0);\n"),
     lambda s, n: {"u": resc(sub(scal(100, smv(resc(s["A"], 1, 0), s["v"], z(n, 2))), scal(0, s["u"])), 2, 0)})
g = "refusals"
ref("entrywise_matrix", B.split(HEAD)[1].replace("-(K*points.x)", "points.x .* K*points.x"), 18, SH)
ref("product_left", B.split(HEAD)[1].replace("-(K*points.x)", "points.x*K*points.x"), 18, SH)
ref("transpose_once", B.split(HEAD)[1].replace("-(K*points.x)", "(K*points.x)'"), 18, SH)
ref("matrix_plus_vector", B.split(HEAD)[1].replace("-(K*points.x)", "K*points.x + K"), 18, SH)
ref("matrix_sets", B.split(HEAD)[1].replace("-(K*points.x)", "K*springs.k"), 18, SE)
case(g, "ref_transpose_twice", B.replace("-(K*points.x)", "K''*points.x"), ps(), "refused: line 18, token %d: syntax" % len(__import__("re").findall(r"[A-Za-z_]\w*|\d+(?:\.\d+)?|\.\*|->|[=!<>]=|\S", B.split("-(K*p")[0] + "K'")))
case(g, "ok_transpose_twice", B.replace("-(K*points.x)", "(K')'*points.x"), ps(), {"points.f": [-20, -25, 45]})
g = "dense"
GR = TWO % "  points.f = G'*G*points.x;\n"


def gram(n):
    return [("points", "x,f\n" + "".join("%d,1\n" % (i % 7) for i in range(n))), ("springs", "p0,p1,k,l\n3,5,1,0\n")]


# G and G' have n words each and G'*G has n*n: 2047*2047 + 2*2047 is one under the limit
case(g, "dense_gram_2047", GR, gram(2047), {"points.f": [{3: -2, 5: 2}.get(i, 0) for i in range(2047)]})
case(g, "dense_gram_2048", GR, gram(2048), LIM)
case(g, "dense_gram_right", GR.replace("G'*G*points.x", "G'*(G*points.x)"), gram(4000), {"points.f": [{3: -2, 5: 2}.get(i, 0) for i in range(4000)]})


# ---------------------------------------------------------------- the first trap of an expression
g = "order"
TZ, TN = "quot(1, 0, 0)", "isqrt(-1, 0)"
for a, b, kind, tag in [(TZ, TN, DZ, "zn"), (TN, TZ, RN, "nz")]:
    for nm, e in [("add", "%s + %s"), ("sub", "%s - %s"), ("mul", "%s*%s"), ("quot", "quot(%s, %s, 0)"), ("neg", "-%s - %s"), ("three", "1 + %s*2 - %s"),
                  ("paren", "(1 - %s)*(2 + %s)"), ("rescale", "rescale(rescale(%s, 2) + rescale(%s, 2), 0)"), ("right_mul", "1 + %s + 2*%s")]:
        case(g, "order_main_%s_%s" % (nm, tag), X % ("  var a = " + e % (a, b) + ";\n"), xt, "trap at line 6: " + kind)
        case(g, "order_func_%s_%s" % (nm, tag), HEAD + "func f(s : Spring) -> (k : vector[springs](int(0)))\n  k(s) = " + e % (a, b) + ";\nend\nproc main\n  springs.k = map f to springs reduce +;\nend\n", ps(),
             "trap at line 14, element 0: " + kind)
    for nm, e in [("emul", "(%s*points.x) .* (%s*points.x)"), ("dot", "dot(%s*points.x, %s*points.x)*points.x"), ("vadd", "%s*points.x - points.x*%s")]:
        case(g, "order_main_%s_%s" % (nm, tag), X % ("  points.x = " + e % (a, b) + ";\n"), xt, "trap at line 6: " + kind)
    for nm, e in [("row", "dot([1, %s, %s], [1, 2, 3])"), ("rows", "dot([1, 2; 3, %s]*[1, 2], [1, %s])"), ("column", "dot([1, 2; %s, 3; 4, %s]*[1, 2], [1, 2, 3])"), ("dot", "dot([%s], [%s])"),
                  ("emul", "dot([1, %s] .* [%s, 1], [1, 1])"), ("transposed", "dot([1, 2; %s, 3]'*[1, 2], [1, %s])"), ("mm", "dot([1; 2]*[%s; 1]'*[3, 4], [1, %s])")]:
        case(g, "order_func_%s_%s" % (nm, tag), HEAD + "func f(s : Spring) -> (k : vector[springs](int(0)))\n  k(s) = " + e % (a, b) + ";\nend\nproc main\n  springs.k = map f to springs reduce +;\nend\n", ps(),
             "trap at line 14, element 0: " + kind)
case(g, "order_quot_operand", X % "  var a = quot(isqrt(-1, 0), 0, 0);\n", xt, "trap at line 6: " + RN)
case(g, "order_isqrt_operand", X % "  var a = isqrt(quot(-1, 0, 0), 0);\n", xt, "trap at line 6: " + DZ)
case(g, "order_zero_times", X % "  var a = 0*quot(1, 0, 0);\n", xt, "trap at line 6: " + DZ)
case(g, "order_statements", X % "  points.x = points.x + points.x;\n  var a = 1;\n  if a == 1\n    a = quot(1, a - 1, 0);\n  end\n", xt, "trap at line 9: " + DZ)
case(g, "order_write_after_trap", HEAD + "func f(s : Spring, p : (Point*2)) -> (x : vector[points](int(0)))\n  x(p(0)) = 5;\n  if s.k == 3\n    x(p(1)) = isqrt(0 - s.k, 0);\n    x(p(1)) = quot(1, 0, 0);\n  end\nend\nproc main\n  points.x = map f to springs reduce +;\nend\n", ps(),
     "trap at line 18, element 1: " + RN)

# ---------------------------------------------------------------- index expressions
import indices
indices.programs(case, B, ps)

# ---------------------------------------------------------------- functions of the host
import hosts
hosts.programs(case, HEAD, ps)

# ---------------------------------------------------------------- each function with each main procedure
import combined
combined.programs(case)

if __name__ == "__main__":
    total = 0
    for g, ns in groups.items():
        print("%-12s %3d  checked %3d" % (g, len(ns), len([n for n in ns if n in checked])))
        total += len(ns)
    print("total", total, "checked", len(checked))
