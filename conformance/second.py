"""A second formula for expected values: tensors as dictionaries from index tuples to signed
whole numbers, sums written out from the definitions.  Shares no code with reference.py.

number: int.  block vector {(r,): v}, block matrix {(r, c): v}.
system vector {(i,) + block index: v}; system matrix {(i, j) + block index: v}.
"""
import re
from fractions import Fraction
from math import floor


def wrap(n):
    n %= 2 ** 64
    return n - 2 ** 64 if n >= 2 ** 63 else n


class TrapAt(Exception):
    def __init__(self, kind, line=None, element=None):
        self.kind, self.line, self.element = kind, line, element


class OutOfTurns(Exception):
    pass


def m1(f, a):
    return f(a) if isinstance(a, int) else {k: f(v) for k, v in a.items()}


def m2(f, a, b):
    if isinstance(a, int):
        return f(a, b)
    assert a.keys() == b.keys(), (a, b)
    return {k: f(a[k], b[k]) for k in a}


def add(a, b): return m2(lambda x, y: wrap(x + y), a, b)
def sub(a, b): return m2(lambda x, y: wrap(x - y), a, b)
def emul(a, b): return m2(lambda x, y: wrap(x * y), a, b)
def neg(a): return m1(lambda x: wrap(-x), a)
def scal(c, a): return m1(lambda x: wrap(c * x), a)


def dot(a, b):
    assert a.keys() == b.keys()
    t = 0
    for k in a:
        t = wrap(t + wrap(a[k] * b[k]))
    return t


def resc(a, s, d):
    if d < s:
        return m1(lambda x: wrap(floor(Fraction(x, 10 ** (s - d)))), a)
    return m1(lambda x: wrap(x * 10 ** (d - s)), a)


def quot(a, s, b, t, d):
    if b == 0:
        raise TrapAt("division by zero")
    return wrap(floor(Fraction(a * 10 ** (d + t - s), b)))


def isqrt(a, s, d):
    if a < 0:
        raise TrapAt("root of a negative number")
    n = a * 10 ** (2 * d - s)
    lo, hi = 0, 1 << 70
    while hi - lo > 1:
        mid = (lo + hi) // 2
        if mid * mid <= n:
            lo = mid
        else:
            hi = mid
    return lo


# functions of the host
def clamp0(a): return a if a > 0 else 0
def least(a, b): return a if a < b else b
def most(a, b): return a if a > b else b
def mix(a): return wrap(a * 6364136223846793005 + 1442695040888963407)
def square(a): return wrap(a * a)


# local products
def lmv(a, x):
    out = {}
    for (r, c), v in a.items():
        out[(r,)] = wrap(out.get((r,), 0) + v * x[(c,)])
    return out


def lmm(a, b):
    out = {}
    for (r, c), v in a.items():
        for (c2, t), w in b.items():
            if c == c2:
                out[(r, t)] = wrap(out.get((r, t), 0) + v * w)
    return out


def ltr(a):
    return {(c, r): v for (r, c), v in a.items()}


def lit(*rows):
    if len(rows) == 1:
        return {(i,): v for i, v in enumerate(rows[0])}
    return {(i, j): v for i, row in enumerate(rows) for j, v in enumerate(row)}


# system products; n is the number of rows, h the block rows (0 for number blocks)
def smv(a, x, zero):
    """zero is the zero vector of the answer's shape"""
    out = dict(zero)
    for k, v in a.items():
        if len(k) == 2:
            i, j = k
            out[(i,)] = wrap(out[(i,)] + v * x[(j,)])
        else:
            i, j, r, c = k
            out[(i, r)] = wrap(out[(i, r)] + v * x[(j, c)])
    return out


def smm(a, b, zero):
    out = dict(zero)
    for k, v in a.items():
        for q, w in b.items():
            if k[1] != q[0]:
                continue
            if len(k) == 2:
                p = (k[0], q[1])
            elif k[3] == q[2]:
                p = (k[0], q[1], k[2], q[3])
            else:
                continue
            out[p] = wrap(out[p] + v * w)
    return out


def strn(a):
    return {((k[1], k[0]) if len(k) == 2 else (k[1], k[0], k[3], k[2])): v for k, v in a.items()}


def bidx(block):
    if block == ():
        return [()]
    if len(block) == 1:
        return [(r,) for r in range(block[0])]
    return [(r, c) for r in range(block[0]) for c in range(block[1])]


def vzero(n, block):
    return {(i,) + b: 0 for i in range(n) for b in bidx(block)}


def mzero(n, m, block):
    return {(i, j) + b: 0 for i in range(n) for j in range(m) for b in bidx(block)}


def put(into, place, block):
    if isinstance(block, int):
        into[place] = wrap(into[place] + block)
    else:
        for k, v in block.items():
            into[place + k] = wrap(into[place + k] + v)


# index expressions, by matrix products.  Here a vector is {position: v} and a matrix {(row, column): v},
# a position being (i,) + block index
def plain(a):
    if len(next(iter(a))) == 2:
        return {((i,), (j,)): v for (i, j), v in a.items()}
    return {((i, r), (j, c)): v for (i, j, r, c), v in a.items()}


def blocks(a):
    """A matrix as it was before `plain`."""
    return {(p[0], q[0]) + p[1:] + q[1:]: v for (p, q), v in a.items()}


def along(m, x):
    out = {}
    for (p, q), v in m.items():
        out[p] = wrap(out.get(p, 0) + v * x[q])
    return out


def through(a, b):
    rows = {}
    for (q, t), v in b.items():
        rows.setdefault(q, []).append((t, v))
    out = {}
    for (p, q), v in a.items():
        for t, w in rows[q]:
            out[p, t] = wrap(out.get((p, t), 0) + v * w)
    return out


def factors_of(text):
    """The free indices of an index expression, and for each term its sign and its factors: (name, indices)."""
    tokens = re.findall(r"[A-Za-z_][\w.]*|\d+(?:\.\d+)?|[-()*,+]", text)
    assert tokens[0] == "ix"
    free = tokens[2:tokens.index(")")]
    rest, terms = tokens[tokens.index(")") + 1:], []
    k = 0
    while k < len(rest):
        if rest[k] in "+-":
            terms.append((rest[k], []))
            k += 1
        elif not terms:
            terms.append(("+", []))
        name, ends = rest[k], []
        k += 1
        if k < len(rest) and rest[k] == "(":
            close = rest.index(")", k)
            ends = [x for x in rest[k + 1:close] if x != ","]
            k = close + 1
        terms[-1][1].append((name, ends))
        if k < len(rest) and rest[k] == "*":
            k += 1
    return [x for x in free if x != ","], terms


def products(text, values):
    """An index expression as sums of products of matrices and vectors: `values` has what each name stands for."""
    free, terms = factors_of(text)
    answer = None
    for sign, factors in terms:
        scalar = -1 if sign == "-" else 1
        left = []
        for name, ends in factors:
            if ends:
                left.append((ends, values[name]))
            elif name[0].isdigit():
                scalar *= int(name.replace(".", ""))
            else:
                scalar *= values[name]
        t = one_term(free, left)
        t = scal(wrap(scalar), t)
        answer = t if answer is None else add(answer, t)
    return answer


def turned(matrix):
    return {(q, p): v for (p, q), v in matrix.items()}


def one_term(free, left):
    """The product of one term's matrices and vectors: a vector takes up the matrix that shares its index, until none is left to."""
    if not left:
        return 1
    if len(free) == 2:
        (here, m), = [f for f in left if free[0] in f[0]]
        left = [f for f in left if f[0] is not here]
        at, m = (here[1], plain(m)) if here[0] == free[0] else (here[0], turned(plain(m)))
        while at != free[1]:
            (here, n), = [f for f in left if at in f[0]]
            left = [f for f in left if f[0] is not here]
            if here[0] == at:
                at, m = here[1], through(m, plain(n))
            else:
                at, m = here[0], through(m, turned(plain(n)))
        assert not left
        return blocks(m)
    vectors = [f for f in left if len(f[0]) == 1]
    matrices = [f for f in left if len(f[0]) == 2]
    first = None if free else vectors.pop(0)
    goal = free[0] if free else first[0][0]
    answer = None
    for (at,), v in vectors:
        while at != goal:
            (here, m), = [f for f in matrices if at in f[0]]
            matrices = [f for f in matrices if f[0] is not here]
            if here[1] == at:
                at, v = here[0], along(plain(m), v)
            else:
                at, v = here[1], along(turned(plain(m)), v)
        answer = v if answer is None else emul(answer, v)
    assert not matrices
    return answer if free else dot(first[1], answer)


def cell(v, d):
    """The text of a cell."""
    s = "%0*d" % (d + 1, abs(v))
    return ("-" if v < 0 else "") + (s if d == 0 else s[:-d] + "." + s[-d:])


def table(name, heads, rows):
    return "set %s\n%s\n" % (name, ",".join(heads)) + "".join(",".join(r) + "\n" for r in rows)
