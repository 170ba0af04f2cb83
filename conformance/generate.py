#!/usr/bin/env python3
"""Random well-typed programs.

    python3 generate.py SEED             prints one program's folder to /tmp/gen-SEED
    python3 generate.py --write N        writes work/programs/gen_000 .. for N seeds
    python3 generate.py --write N mat    writes work/programs/genm_000 .., with many system matrices
    python3 generate.py --write N ix     writes work/programs/geni_000 .., with index expressions
    python3 generate.py --write N host   writes work/programs/genh_000 .., with calls of functions of the host
    python3 generate.py --soak FROM TO [mat|ix|host]   compares reference.py with the translation only

Each program is made twice over: as text of the language, and as a Python text over the dictionary
tensors of second.py.  Both are run and have to give the same status, output and note.
"""
import os
import random
import shutil
import sys
import reference
import second
from second import bidx, cell

HERE = os.path.join(os.path.dirname(os.path.abspath(__file__)), "work")

# ------------------------------------------------------------------ the translated text's runtime


class Machine:
    """State of a translated run: sets, turns, the line of the statement at work."""

    def __init__(self, sets, turns):
        self.S = sets
        self.left = turns
        self.line = None

    def at(self, line):
        self.line = line

    def turn(self):
        if self.left == 0:
            raise second.OutOfTurns()
        self.left -= 1

    def map(self, f, args, name, zeros):
        out = [dict(z) for z in zeros]
        for e in range(self.S[name]["n"]):
            try:
                puts = f(self, args, self.S[name], e)
            except second.TrapAt as t:
                t.element = e
                raise
            for k, place, block in puts:
                second.put(out[k], place, block)
        return out

    def fld(self, set_, field, e):
        b = set_["shape"][field][0]
        if b == ():
            return set_["f"][field][e,]
        return {i: set_["f"][field][(e,) + i] for i in bidx(b)}


def compare(neg, a, op, b):
    return neg != {"==": a == b, "!=": a != b, "<": a < b, "<=": a <= b, ">": a > b, ">=": a >= b}[op]


def judge(parts):
    return any([all(p) for p in parts])


# ------------------------------------------------------------------ expressions: (text, level, python)
# level 0 a sum or a leading minus, 1 a product, 2 a transpose, 3 an atom


def par(e, level, r=None):
    t = e[0]
    if e[1] < level or (r is not None and r.random() < 0.06):
        return "(" + t + ")"
    return t


class Gen:
    def __init__(self, seed, kind=""):
        self.r = random.Random(seed)
        self.ix = kind == "ix"   # a program of index expressions
        self.mat = kind in ("mat", "ix")    # a program in which system matrices stand in front
        self.host = kind == "host"          # a program that calls functions of the host
        self.hosts = []          # those that are declared: (name, the scales of the arguments, that of the answer)
        self.broken = []         # the lines of index expressions that aren't in chain form
        self.lines = []          # the program's text
        self.py = []             # the translation
        self.n = 0
        self.scopes = []         # list of lists of (name, type, kind, extra)
        self.fn = None           # inside a function: its description
        self.plain = self.r.random() < 0.45     # no traps wanted
        self.big = self.r.random() < 0.25

    def fresh(self, stem):
        self.n += 1
        return "%s%d" % (stem, self.n)

    def emit(self, indent, text):
        self.lines.append("  " * indent + text)
        return len(self.lines)

    def pye(self, indent, text):
        self.py.append("  " * indent + text)

    # -------------------------------------------------------------- leaves
    def visible(self):
        return [v for s in self.scopes for v in s]

    def leaves(self, form):
        """References of this form (the type without its scale): list of (text, level, py, scale)."""
        out = []
        for name, t, kind, extra in self.visible():
            if t[:-1] == form:
                out.append((name, 3, "v_" + name, t[-1]))
            if self.fn and t[0] == "L" and form == ("L", ()) and t[1] != () and kind != "loop":
                i = self.entry(t[1])
                out.append((name + "(" + ",".join(x for x, _ in i) + ")", 3,
                            "v_%s[(%s,)]" % (name, ",".join(y for _, y in i)), t[-1]))
        if self.fn:
            for who, shape in self.fn["objects"]:
                for f, (b, s) in shape.items():
                    if who == "own":
                        txt, obj = "%s.%s" % (self.fn["elem"], f), "M.fld(own, '%s', e)" % f
                    else:
                        k, ky = self.index(self.fn["arity"])
                        txt = "%s(%s).%s" % (self.fn["ends"], k, f)
                        obj = "M.fld(over, '%s', own['ends'][e][%s])" % (f, ky)
                    if ("L", b) == form:
                        out.append((txt, 3, obj, s))
                    elif form == ("L", ()):
                        i = self.entry(b)
                        out.append((txt + "(" + ",".join(x for x, _ in i) + ")", 3,
                                    obj + "[(%s,)]" % ",".join(y for _, y in i), s))
        elif form[0] == "V":
            for f, (b, s) in self.sets[form[1]]["shape"].items():
                if b == form[2]:
                    out.append(("%s.%s" % (form[1], f), 3, "M.S['%s']['f']['%s']" % (form[1], f), s))
        return out

    def index(self, n):
        loops = [v for v in self.visible() if v[2] == "loop" and v[3] is not None and v[3] <= n]
        if loops and self.r.random() < 0.6:
            v = self.r.choice(loops)
            return v[0], "v_" + v[0]
        k = str(self.r.randrange(n))
        return k, k

    def entry(self, block):
        return [self.index(n) for n in block]

    def literal(self, s):
        r = self.r
        m = r.random()
        if m < 0.1:
            v = 0
        elif m < 0.85 or not self.big:
            v = r.randrange(10 ** r.randrange(1, 4))
            if r.random() < 0.3:
                v *= 10 ** s
        else:
            v = r.randrange(2 ** 63)
        if v >= 2 ** 63:
            v = 1
        t = cell(v, s)
        return (t, 3, str(v))

    def rescaled(self, e, s, d):
        if s == d and self.r.random() < 0.9:
            return e
        return ("rescale(%s, %d)" % (e[0], d), 3, "resc(%s, %d, %d)" % (e[2], s, d))

    def leaf(self, t):
        """Any expression of type t without more depth."""
        form, s = t[:-1], t[-1]
        r = self.r
        have = self.leaves(form)
        exact = [h for h in have if h[3] == s]
        if exact and r.random() < 0.85:
            return r.choice(exact)[:3]
        near = [h for h in have if abs(h[3] - s) <= 18]
        if near and r.random() < 0.8:
            h = r.choice(near)
            return self.rescaled(h[:3], h[3], s)
        if form == ("L", ()):
            if s <= 18:
                return self.literal(s)
            k = r.randrange(s - 18, 19)
            return self.times(self.literal(k), self.literal(s - k), True)
        if form[0] == "L":
            return self.block(form[1], s, 0)
        if near:
            h = r.choice(near)
            return self.rescaled(h[:3], h[3], s)
        assert have, t
        # too far: first half way
        h = r.choice(have)
        mid = (h[3] + s) // 2
        return self.rescaled(self.rescaled(h[:3], h[3], mid), mid, s)

    def block(self, b, s, depth):
        if len(b) == 1:
            es = [self.ex(("L", (), s), depth) for _ in range(b[0])]
            return ("[" + ", ".join(e[0] for e in es) + "]", 3, "lit([" + ", ".join(e[2] for e in es) + "])")
        h, w = b
        if h >= 2:
            rows = [[self.ex(("L", (), s), depth) for _ in range(w)] for _ in range(h)]
            return ("[" + "; ".join(", ".join(e[0] for e in row) for row in rows) + "]", 3,
                    "lit(" + ", ".join("[" + ", ".join(e[2] for e in row) + "]" for row in rows) + ")")
        if w >= 2:
            return self.transpose(self.block((w, 1), s, depth))
        k = self.r.randrange(s + 1) if s <= 18 else self.r.randrange(s - 18, 19)
        return self.times(self.transpose(self.block((2, 1), k, 0)), self.block((2, 1), s - k, 0), None, "lmm")

    def transpose(self, e):
        op = "ltr" if self.fn else "strn"
        return (par(e, 3) + "'", 2, "%s(%s)" % (op, e[2]))

    def times(self, a, b, scalar_first, op=None, extra=""):
        t = par(a, 1, self.r) + "*" + par(b, 2, self.r)
        if op is None:
            # scal(c, x) evaluates its left argument first, which has to be the text's left one
            if scalar_first:
                return (t, 1, "scal(%s, %s)" % (a[2], b[2]))
            return (t, 1, "rscal(%s, %s)" % (a[2], b[2]))
        return (t, 1, "%s(%s, %s%s)" % (op, a[2], b[2], extra))

    # -------------------------------------------------------------- expressions of a type
    def can(self, form):
        return form[0] == "L" or bool(self.leaves(form))

    def split(self, s):
        lo = max(0, s - 18)
        k = self.r.choice([lo, min(s, 18), self.r.randint(lo, min(s, 18))])
        return k, s - k

    def ex(self, t, depth):
        r = self.r
        form, s = t[:-1], t[-1]
        if depth <= 0:
            return self.leaf(t)
        ops = ["leaf", "sum", "sum", "neg", "scalar", "scalar", "rescale"]
        num = form == ("L", ())
        if num:
            ops += ["dot", "quot", "isqrt"] + ["call"] * (8 if self.hosts else 0)
        elif form[0] == "L":
            ops += ["block", "mul", "mul"]
            if len(form[1]) == 1:
                ops += ["emul"]
            else:
                ops += ["tr"]
        elif form[0] == "V":
            ops += ["emul", "mul", "mul", "mul"] + ["mul"] * (9 if self.mat else 0)
        else:
            ops += ["tr", "mul", "mul"]
        for _ in range(6):
            e = self.op(r.choice(ops), t, form, s, depth - 1)
            if e is not None:
                return e
        return self.leaf(t)

    def op(self, op, t, form, s, d):
        r = self.r
        if op == "leaf":
            return self.leaf(t)
        if op == "sum":
            a = self.ex(t, d)
            b = self.ex(t, d)
            if r.random() < 0.5:
                return (par(a, 0, r) + " + " + par(b, 1, r), 0, "add(%s, %s)" % (a[2], b[2]))
            return (par(a, 0, r) + " - " + par(b, 1, r), 0, "sub(%s, %s)" % (a[2], b[2]))
        if op == "neg":
            a = self.ex(t, d)
            return ("-" + par(a, 1, r), 0, "neg(%s)" % a[2])
        if op == "scalar":
            k, l = self.split(s)
            first = r.random() < 0.6
            if first:
                a = self.ex(("L", (), k), d - 1)
                b = self.ex(form + (l,), d)
            else:
                a = self.ex(form + (k,), d)
                b = self.ex(("L", (), l), d - 1)
            return self.times(a, b, first or form == ("L", ()))
        if op == "rescale":
            k = max(0, min(36, s + r.randint(-3, 3)))
            a = self.ex(form + (k,), d)
            return ("rescale(%s, %d)" % (a[0], s), 3, "resc(%s, %d, %d)" % (a[2], k, s))
        if op == "emul":
            k, l = self.split(s)
            if not self.can(form):
                return None
            a = self.ex(form + (k,), d)
            b = self.ex(form + (l,), d)
            return (par(a, 1, r) + " .* " + par(b, 2, r), 1, "emul(%s, %s)" % (a[2], b[2]))
        if op == "dot":
            k, l = self.split(s)
            if self.fn:
                f = ("L", (r.randint(1, 4),))
            else:
                choices = [("V", n, b) for n, st in self.sets.items() for b, _ in st["shape"].values()]
                if not choices:
                    return None
                f = r.choice(choices)
            a = self.ex(f + (k,), d - 1)
            b = self.ex(f + (l,), d - 1)
            return ("dot(%s, %s)" % (a[0], b[0]), 3, "dot(%s, %s)" % (a[2], b[2]))
        if op == "quot":
            tb = r.randint(0, 3)
            # exponent s + tb - sa in 0..18
            lo, hi = max(0, s + tb - 18), min(18, s + tb)
            if lo > hi:
                return None
            sa = r.randint(lo, hi)
            a = self.ex(("L", (), sa), d - 1)
            if self.plain or r.random() < 0.7:
                v = r.choice([1, 2, 3, 7, 10, 13, 999, r.randrange(1, 10 ** 6)])
                txt, py = cell(v, tb), str(v)
                if r.random() < 0.4:
                    b = ("-" + txt, 0, "neg(%s)" % py)
                else:
                    b = (txt, 3, py)
            else:
                b = self.ex(("L", (), tb), d - 1)
            return ("quot(%s, %s, %d)" % (a[0], b[0], s), 3, "quot(%s, %d, %s, %d, %d)" % (a[2], sa, b[2], tb, s))
        if op == "call":
            name, scales, k = r.choice(self.hosts)
            if abs(k - s) > 18:
                return None
            args = [self.ex(("L", (), a), d - 1) for a in scales]
            return self.rescaled(("%s(%s)" % (name, ", ".join(a[0] for a in args)), 3, "%s(%s)" % (name, ", ".join(a[2] for a in args))), k, s)
        if op == "isqrt":
            lo, hi = max(0, 2 * s - 18), min(18, 2 * s)
            if lo > hi:
                return None
            sa = r.randint(lo, hi)
            if self.plain or r.random() < 0.6:
                a = self.literal(sa)
            else:
                a = self.ex(("L", (), sa), d - 1)
            return ("isqrt(%s, %d)" % (a[0], s), 3, "isqrt(%s, %d, %d)" % (a[2], sa, s))
        if op == "block":
            if max(form[1]) > 4 and r.random() < 0.7:
                return None
            return self.block(form[1], s, min(d, 1))
        if op == "tr":
            if form[0] == "L":
                h, w = form[1]
                return self.transpose(self.ex(("L", (w, h), s), d))
            b = form[3]
            f = ("M", form[2], form[1], (b[1], b[0]) if b else ())
            if not self.can(f):
                return None
            return self.transpose(self.ex(f + (s,), d))
        if op == "mul":
            k, l = self.split(s)
            if form[0] == "L":
                n = r.randint(1, 4)
                a = self.ex(("L", (form[1][0], n), k), d - 1)
                if len(form[1]) == 1:
                    b = self.ex(("L", (n,), l), d - 1)
                    return self.times(a, b, None, "lmv")
                b = self.ex(("L", (n, form[1][1]), l), d - 1)
                return self.times(a, b, None, "lmm")
            mats = [v[1] for v in self.visible() if v[1][0] == "M"]
            mats += [("M", m[2], m[1], (m[3][1], m[3][0]) if m[3] else (), m[4]) for m in mats]
            pairs = []
            for m in mats:
                if m[1] != form[1]:
                    continue
                if form[0] == "V":
                    if m[3] == () and form[2] == ():
                        f = ("V", m[2], ())
                    elif m[3] and len(form[2]) == 1 and m[3][0] == form[2][0]:
                        f = ("V", m[2], (m[3][1],))
                    else:
                        continue
                    if self.can(f):
                        pairs.append((m, f))
                else:
                    for q in mats:
                        if q[1] == m[2] and q[2] == form[2] and (
                                (m[3] == () and q[3] == () and form[3] == ()) or
                                (m[3] and q[3] and form[3] and m[3][1] == q[3][0] and (m[3][0], q[3][1]) == form[3])):
                            pairs.append((m, q[:-1]))
            if not pairs:
                return None
            m, f = r.choice(pairs)
            a = self.ex_or_tr(m[:-1] + (k,), d)
            b = self.ex_or_tr(f + (l,), d)
            if form[0] == "V":
                zero = ", second.vzero(M.S['%s']['n'], %r)" % (form[1], form[2])
                return self.times(a, b, None, "smv", zero)
            zero = ", second.mzero(M.S['%s']['n'], M.S['%s']['n'], %r)" % (form[1], form[2], form[3])
            return self.times(a, b, None, "smm", zero)
        raise AssertionError(op)

    def ex_or_tr(self, t, d):
        """Also where only the transpose has a leaf."""
        if self.can(t[:-1]):
            return self.ex(t, d)
        b = t[3]
        return self.transpose(self.ex(("M", t[2], t[1], (b[1], b[0]) if b else (), t[4]), d))

    # -------------------------------------------------------------- conditions
    def cmp(self, depth):
        r = self.r
        s = r.choice([0, 0, 0, 1, 2, 4])
        a = self.ex(("L", (), s), depth)
        b = self.ex(("L", (), s), depth) if r.random() < 0.5 else self.literal(s)
        op = r.choice(["==", "!=", "<", "<=", ">", ">="])
        neg = r.random() < 0.2
        return (("not " if neg else "") + a[0] + " " + op + " " + b[0],
                "compare(%r, %s, '%s', %s)" % (neg, a[2], op, b[2]))

    def cond(self, depth):
        parts = [[self.cmp(depth) for _ in range(self.r.choice([1, 1, 1, 2, 3]))]
                 for _ in range(self.r.choice([1, 1, 1, 2]))]
        return (" or ".join(" and ".join(c[0] for c in p) for p in parts),
                "judge([" + ", ".join("[" + ", ".join(c[1] for c in p) + "]" for p in parts) + "])")

    # -------------------------------------------------------------- declarations
    def scale(self):
        if self.mat:
            return self.r.choice([0, 0, 0, 1, 1, 2])
        return self.r.choice([0, 0, 0, 1, 2, 3, 4, 4, 9, 18])

    def fblock(self):
        r = self.r
        if self.mat:
            return r.choice([(), (), (2,), (2,), (3,), (r.randint(1, 4),), (2, 3), (3, 2)])
        return r.choice([(), (), (), (2,), (3,), (r.randint(1, 6),), (2, 3), (3, 2), (2, 2), (r.randint(1, 4), r.randint(1, 4))])

    @staticmethod
    def local(b, s):
        if b == ():
            return "int(%d)" % s
        if len(b) == 1:
            return "vector[%d](int(%d))" % (b[0], s)
        return "matrix[%d,%d](int(%d))" % (b[0], b[1], s)

    def value(self, s):
        r = self.r
        m = r.random()
        if m < 0.15:
            v = 0
        elif m < 0.75:
            v = r.randint(-9, 9) * 10 ** min(s, r.choice([0, s]))
        elif m < 0.95 or not self.big:
            v = r.randint(-10 ** 5, 10 ** 5)
        else:
            v = r.choice([r.randint(-2 ** 63, 2 ** 63 - 1), 2 ** 63 - 1, -2 ** 63])
        return max(-2 ** 63, min(2 ** 63 - 1, v))

    def declare(self):
        r = self.r
        self.sets = {}
        self.order = []
        nv = r.choice([1, 1, 1, 2])
        velem = []
        for k in range(nv):
            velem.append(self.element("V%d" % k, r.randint(1, 4)))
        nvs = r.choice([1, 1, 2, 3])
        eelem = [self.element("E%d" % k, r.randint(0, 3)) for k in range(r.choice([1, 1, 2]))]
        for k in range(nvs):
            name, shape = r.choice(velem)
            self.set("p%dset" % k, name, shape, None, 0)
        vs = [s for s in self.order]
        for k in range(r.choice([0, 1, 1, 1, 2, 3])):
            name, shape = r.choice(eelem)
            self.set("l%d" % k, name, shape, r.choice(vs), r.choice([1, 2, 2, 2, 3, 4]))
        if self.host:
            for name in r.sample(["clamp0", "least", "most", "mix", "square"], r.randint(1, 5)):
                scales = [self.scale() for _ in range(2 if name in ("least", "most") else 1)]
                self.hosts.append((name, scales, r.choice([scales[0], scales[0], self.scale(), 36])))
                self.emit(0, "extern func %s(%s) -> int(%d);" % (name, ", ".join("int(%d)" % k for k in scales), self.hosts[-1][2]))

    def element(self, name, n):
        self.emit(0, "element " + name)
        shape = {}
        for k in range(n):
            b, s = self.fblock(), self.scale()
            shape["abcdefg"[k]] = (b, s)
            self.emit(1, "%s : %s;" % ("abcdefg"[k], self.local(b, s)))
        self.emit(0, "end")
        return name, shape

    def set(self, name, el, shape, over, arity):
        r = self.r
        width = arity + sum(len(bidx(b)) for b, s in shape.values())
        if width > 64:
            return
        n = r.choice([0, 1, 2, 3, 3, 4, 5, 6])
        if over is not None and self.sets[over]["n"] == 0:
            n = 0
        ends = [[r.randrange(self.sets[over]["n"]) for _ in range(arity)] for _ in range(n)] if over else []
        data = {f: {(i,) + k: self.value(s) for i in range(n) for k in bidx(b)} for f, (b, s) in shape.items()}
        self.sets[name] = {"n": n, "shape": shape, "el": el, "over": over, "arity": arity, "ends": ends, "f": data}
        self.order.append(name)
        self.emit(0, "extern %s : set{%s}%s;" % (name, el, "(" + ", ".join([over] * arity) + ")" if over else ""))

    def table_heads(self, s):
        out = ["p%d" % k for k in range(s["arity"])]
        for f, (b, sc) in s["shape"].items():
            out += [f + "".join("." + str(i) for i in k) for k in bidx(b)]
        return out

    def table_rows(self, s, messy=False):
        out = []
        for i in range(s["n"]):
            row = [str(v) for v in s["ends"][i]] if s["arity"] else []
            for f, (b, sc) in s["shape"].items():
                for k in bidx(b):
                    t = cell(s["f"][f][(i,) + k], sc)
                    if messy and sc > 0:
                        m = self.r.random()
                        if m < 0.3:
                            t = t.rstrip("0")
                            if t.endswith("."):
                                t = t[:-1]
                        elif m < 0.35:
                            t = " " + t + "00 "
                    row.append(t)
            out.append(row)
        return out

    # -------------------------------------------------------------- functions
    def function(self, name):
        r = self.r
        sname = r.choice(self.order)
        st = self.sets[sname]
        ends = st["arity"] > 0 and r.random() < 0.8
        fn = {"name": name, "set": sname, "elem": "s", "ends": "q" if ends else None, "arity": st["arity"],
              "objects": [("own", st["shape"])] + ([("end", self.sets[st["over"]]["shape"])] if ends else [])}
        args = [("k%d" % i, r.choice([0, 0, 1, 2, 4, 20])) for i in range(r.choice([0, 0, 0, 1, 1, 2, 3]))]
        spots = [sname] + ([st["over"]] if ends else [])
        results = []
        for i in range(r.choice([1, 1, 1, 2, 2, 3, 4])):
            rows = r.choice(spots[-1:] * 2 + spots)
            if r.random() < (0.2 if self.mat else 0.5):
                b = r.choice([b for s_ in spots for b, _ in self.sets[s_]["shape"].values() if len(b) < 2] * 3 + [(), (2,), (3,)])
                # blocks of fields of the rows' set, so that a result can be assigned to one
                own = [x for x in self.sets[rows]["shape"].values() if len(x[0]) < 2]
                if own and r.random() < 0.8:
                    b, s = r.choice(own)
                    results.append(("g%d" % i, rows, None, b, s))
                else:
                    results.append(("g%d" % i, rows, None, b, self.scale()))
            else:
                cols = r.choice(spots)
                bs = [()]
                for x in self.sets[rows]["shape"].values():
                    for y in self.sets[cols]["shape"].values():
                        if len(x[0]) == 1 and len(y[0]) == 1:
                            bs += [(x[0][0], y[0][0])] * 3
                bs.append(r.choice([(2, 3), (3, 2), (2, 2), (1, 2), (2, 1)]))
                results.append(("g%d" % i, rows, cols, r.choice(bs), r.choice([0, 0, 0, 1, 2, 4])))
        fn["args"], fn["results"], fn["spots"] = args, results, spots
        par_ = ["%s : int(%d)" % a for a in args] + ["s : " + st["el"]]
        if ends:
            par_.append("q : (%s*%d)" % (self.sets[st["over"]]["el"], st["arity"]))
        res = []
        for g, rows, cols, b, s in results:
            if cols is None:
                res.append("%s : vector[%s](%s)" % (g, rows, self.local(b, s)))
            else:
                res.append("%s : matrix[%s,%s](%s)" % (g, rows, cols, self.local(b, s)))
        self.emit(0, "func %s(%s) ->" % (name, ", ".join(par_)))
        self.emit(2, "(" + ", ".join(res) + ")")
        self.pye(0, "def f_%s(M, args, own, e):" % name)
        self.pye(1, "puts = []")
        if ends:
            self.pye(1, "over = M.S['%s']" % st["over"])
        for i, (a, s) in enumerate(args):
            self.pye(1, "v_%s = args[%d]" % (a, i))
        self.fn = fn
        self.scopes = [[(a, ("L", (), s), "param", None) for a, s in args]]
        for _ in range(r.randint(1, 3)):
            self.fstmt(1, 2)
        for k in range(len(results)):
            if r.random() < 0.85:
                self.fwrite(1, k)
        for _ in range(r.choice([0, 0, 1])):
            self.fstmt(1, 2)
        self.emit(0, "end")
        self.pye(1, "return puts")
        self.fn = None
        self.scopes = []
        return fn

    def body(self, indent, depth, one):
        self.scopes.append([])
        self.pye(indent, "pass")
        for _ in range(self.r.choice([0, 1, 1, 2, 2, 3])):
            one(indent, depth)
        self.scopes.pop()

    def place(self, set_):
        """A written place that lies in this set: its text and its element."""
        ways = []
        if self.fn["set"] == set_:
            ways.append("own")
        if self.fn["ends"] and self.fn["spots"][-1] == set_:
            ways += ["end"] * 3
        if self.r.choice(ways) == "own":
            return "s", "e"
        k, ky = self.index(self.fn["arity"])
        return "q(%s)" % k, "own['ends'][e][%s]" % ky

    def fwrite(self, indent, k=None):
        r = self.r
        if k is None:
            k = r.randrange(len(self.fn["results"]))
        g, rows, cols, b, s = self.fn["results"][k]
        v = self.ex(("L", b, s), r.choice([0, 1, 2, 2, 3]))
        a = self.place(rows)
        if cols is None:
            self.emit(indent, "%s(%s) = %s;" % (g, a[0], v[0]))
            self.pye(indent, "puts.append((%d, (%s,), %s))" % (k, a[1], v[2]))
        else:
            c = self.place(cols)
            self.emit(indent, "%s(%s,%s) = %s;" % (g, a[0], c[0], v[0]))
            self.pye(indent, "puts.append((%d, (%s, %s), %s))" % (k, a[1], c[1], v[2]))

    def ftype(self):
        r = self.r
        pool = [("L", x[0], x[1]) for _, sh in self.fn["objects"] for x in sh.values()]
        if pool and r.random() < 0.6:
            t = r.choice(pool)
            return t[:2] + (max(0, min(36, t[2] + r.choice([0, 0, 0, 1, 2]))),)
        return ("L", r.choice([(), (), (2,), (3,), (2, 2), (3, 2), (2, 3), (3, 3), (3, 1), (1, 2)]), r.choice([0, 0, 1, 2, 4, 10, 20]))

    def fstmt(self, indent, depth):
        r = self.r
        kinds = ["var", "var", "write", "write", "assign"]
        if depth > 0:
            kinds += ["for", "for", "if", "if"]
        if r.random() < (0.05 if self.plain else 0.2):
            kinds += ["assert"]
        k = r.choice(kinds)
        if k == "assign":
            vs = [v for v in self.visible() if v[2] == "var"]
            if not vs:
                k = "var"
            else:
                v = r.choice(vs)
                e = self.ex(v[1], r.choice([1, 2]))
                self.emit(indent, "%s = %s;" % (v[0], e[0]))
                self.pye(indent, "v_%s = %s" % (v[0], e[2]))
        if k == "var":
            t = self.ftype()
            e = self.ex(t, r.choice([0, 1, 2, 2]))
            name = self.fresh("w")
            self.emit(indent, "var %s = %s;" % (name, e[0]))
            self.pye(indent, "v_%s = %s" % (name, e[2]))
            self.scopes[-1].append((name, t, "var", None))
        elif k == "write":
            self.fwrite(indent)
        elif k == "for":
            lo = r.choice([0, 0, 0, 1])
            hi = lo + r.randint(1, 3)
            name = self.fresh("i")
            self.emit(indent, "for %s in %d:%d" % (name, lo, hi))
            self.pye(indent, "for v_%s in range(%d, %d):" % (name, lo, hi))
            self.scopes.append([(name, ("L", (), 0), "loop", hi)])
            self.body(indent + 1, depth - 1, self.fstmt)
            self.scopes.pop()
            self.emit(indent, "end")
        elif k == "if":
            c = self.cond(r.choice([0, 1, 1]))
            self.emit(indent, "if " + c[0])
            self.pye(indent, "if %s:" % c[1])
            self.body(indent + 1, depth - 1, self.fstmt)
            if r.random() < 0.6:
                self.emit(indent, "else")
                self.pye(indent, "else:")
                self.body(indent + 1, depth - 1, self.fstmt)
            self.emit(indent, "end")
        elif k == "assert":
            c = self.cond(1)
            self.emit(indent, "assert %s;" % c[0])
            self.pye(indent, "if not %s: raise second.TrapAt('assertion failed')" % c[1])

    # -------------------------------------------------------------- main
    def mapping(self, indent, fresh):
        r = self.r
        f = r.choice(self.fns)
        sname = f["set"]
        args = [self.ex(("L", (), s), r.choice([0, 1, 2])) for _, s in f["args"]]
        names, stores = [], []
        types = []
        for g, rows, cols, b, s in f["results"]:
            types.append(("V", rows, b, s) if cols is None else ("M", rows, cols, b, s))
        if not fresh:
            for t in types:
                targets = []
                if t[0] == "V":
                    for n, x in self.sets[t[1]]["shape"].items():
                        if x == (t[2], t[3]):
                            targets += [("%s.%s" % (t[1], n), "M.S['%s']['f']['%s']" % (t[1], n))] * 3
                    for v in self.visible():
                        if v[2] == "var" and v[1] == t:
                            targets.append((v[0], "v_" + v[0]))
                if not targets:
                    return False
                x = r.choice(targets)
                names.append(x[0])
                stores.append(x[1])
        else:
            new = [self.fresh("u") for _ in types]
            names, stores = new, ["v_" + n for n in new]
        line = self.emit(indent, "%s%s = map %s%s to %s reduce +;" % (
            "var " if fresh else "", ", ".join(names), f["name"],
            "(" + ", ".join(a[0] for a in args) + ")" if args else "", sname))
        self.pye(indent, "M.at(%d)" % line)
        zeros = []
        for t in types:
            if t[0] == "V":
                zeros.append("second.vzero(M.S['%s']['n'], %r)" % (t[1], t[2]))
            else:
                zeros.append("second.mzero(M.S['%s']['n'], M.S['%s']['n'], %r)" % (t[1], t[2], t[3]))
        self.pye(indent, "got = M.map(f_%s, [%s], '%s', [%s])" % (f["name"], ", ".join(a[2] for a in args), sname, ", ".join(zeros)))
        for i, s in enumerate(stores):
            self.pye(indent, "%s = got[%d]" % (s, i))
        if fresh:
            for n, t in zip(names, types):
                self.scopes[-1].append((n, t, "var" if t[0] != "M" else "mat", None))
        return True

    def mtype(self):
        r = self.r
        k = r.random()
        mats = [v[1] for v in self.visible() if v[1][0] == "M"]
        if mats and k < 0.35:
            t = r.choice(mats)
            if r.random() < 0.3:
                t = ("M", t[2], t[1], (t[3][1], t[3][0]) if t[3] else (), t[4])
            return t
        if k < 0.7:
            n = r.choice(self.order)
            sh = self.sets[n]["shape"]
            if sh:
                b, s = r.choice(list(sh.values()))
                return ("V", n, b, max(0, min(36, s + r.choice([0, 0, 0, 1, 3]))))
        return ("L", (), r.choice([0, 0, 0, 1, 2, 4, 8, 20]))

    # -------------------------------------------------------------- index expressions
    # A space is a set and the block of a vector over it: what an index ranges over.
    def spaces(self):
        return [(n, b) for n, st in self.sets.items() for b, _ in st["shape"].values()]

    def vectors(self, space):
        """References to vectors over a space: (text, python, scale)."""
        return [(t, py, s) for t, _, py, s in self.leaves(("V",) + space)]

    def steps(self, space):
        """Matrices one of whose sides lies over a space: (name, whether it is turned, the other side, scale)."""
        out = []
        for name, t, kind, extra in self.visible():
            if t[0] == "M":
                rows, columns = (t[1], t[3][:1]), (t[2], t[3][1:])
                if rows == space:
                    out.append((name, False, columns, t[4]))
                if columns == space:
                    out.append((name, True, rows, t[4]))
        return out

    def entered(self, step, here, there):
        """A matrix as a factor of the text, and in the translation."""
        name, turned = step[:2]
        if turned:
            return (name, [there, here]), "strn(v_%s)" % name
        return (name, [here, there]), "v_" + name

    def fresh_index(self, term, space):
        name = self.r.choice([x for x in "abcdefghijklmnop" if x not in term["ranges"]])
        term["ranges"][name] = self.sets[space[0]]["n"] * len(bidx(space[1]))
        return name

    def group(self, term, space, here, depth):
        """Matrices and a last vector from this index on: the translation; None where nothing leads to a vector."""
        ways = self.steps(space)
        have = self.vectors(space)
        if ways and depth > 0 and (not have or self.r.random() < 0.65):
            step = self.r.choice(ways)
            there = self.fresh_index(term, step[2])
            factor, py = self.entered(step, here, there)
            term["factors"].append(factor)
            term["scale"] += step[3]
            rest = self.group(term, step[2], there, depth - 1)
            return rest and "smv(%s, %s, second.vzero(M.S['%s']['n'], %r))" % (py, rest, space[0], space[1])
        if not have:
            return None
        text, py, s = self.r.choice(have)
        term["factors"].append((text, [here]))
        term["scale"] += s
        return py

    def matrices(self, term, space, end, i, j):
        """Matrices from one free index to the other: the translation."""
        py, here, row = None, i, space
        for k in range(self.r.choice([1, 1, 2, 2, 3])):
            ways = self.steps(space)
            last = [w for w in ways if w[2] == end]
            stop = last and (k == 2 or self.r.random() < 0.5)
            if not ways:
                return None
            step = self.r.choice(last if stop else ways)
            there = j if stop else self.fresh_index(term, step[2])
            factor, m = self.entered(step, here, there)
            term["factors"].append(factor)
            term["scale"] += step[3]
            space = step[2]
            block = row[1] + space[1]
            py = m if py is None else "smm(%s, %s, second.mzero(M.S['%s']['n'], M.S['%s']['n'], %r))" % (py, m, row[0], space[0], block)
            if stop:
                return py
            here = there
        return None

    def ixterm(self, form, s, free):
        """A term of this form, and of this scale where one is asked: its text, translation and scale."""
        r = self.r
        term = {"factors": [], "scale": 0, "ranges": {}}
        if form[0] == "L":
            py = None
            if r.random() < 0.85 and self.spaces():
                space = r.choice(self.spaces())
                have = self.vectors(space)
                here = self.fresh_index(term, space)
                text, first, fs = r.choice(have)
                term["factors"].append((text, [here]))
                term["scale"] += fs
                py = self.group(term, space, here, 3)
                if py is None:
                    return None
                py = "dot(%s, %s)" % (first, py)
        elif form[0] == "V":
            term["ranges"][free[0]] = self.sets[form[1]]["n"] * len(bidx(form[2]))
            parts = [self.group(term, form[1:], free[0], 3) for _ in range(r.choice([1, 1, 1, 2, 2, 3]))]
            if None in parts:
                return None
            py = parts[0]
            for other in parts[1:]:
                py = "emul(%s, %s)" % (py, other)
        else:
            row, column = (form[1], form[3][:1]), (form[2], form[3][1:])
            for name, space in zip(free, (row, column)):
                term["ranges"][name] = self.sets[space[0]]["n"] * len(bidx(space[1]))
            py = self.matrices(term, row, column, *free)
            if py is None:
                return None
        cost = 1
        for n in term["ranges"].values():
            cost *= max(n, 1)
        left = (term["scale"] + r.choice([0, 0, 1, 2]) if s is None else s) - term["scale"]
        term["scale"] += left
        if cost > 20000 or left < 0 or term["scale"] > 36:
            return None
        scalars = []
        for _ in range(r.choice([0, 0, 1, 2])):
            have = [h for h in self.leaves(("L", ())) if h[3] <= left]
            if have:
                h = r.choice(have)
                scalars.append((h[0], h[2]))
                left -= h[3]
        while left > 0 or r.random() < 0.3 or py is None and not scalars:
            k = r.randint(0, min(left, 18)) if left <= 18 else 18
            t = self.literal(k)
            scalars.append((t[0], t[2]))
            left -= k
        c = "wrap(%s)" % "*".join(["1"] + ["(%s)" % x[1] for x in scalars])
        term["factors"] += [(x[0], []) for x in scalars]
        term["py"] = c if py is None else "scal(%s, %s)" % (c, py)
        return term

    def out_of_chain(self, term, free):
        """Turns a term into one that isn't in chain form."""
        r = self.r
        factors = term["factors"]
        summed = [x for x in term["ranges"] if x not in free]
        with_summed = [k for k, (_, at) in enumerate(factors) if any(x in summed for x in at)]
        matrices = [k for k, (_, at) in enumerate(factors) if len(at) == 2]
        ways = ["cycle"]
        ways += ["alone", "thrice", "drop"] if with_summed else []
        ways += ["twice"] if matrices else []
        ways += ["missing"] if free else []
        way = r.choice(ways)
        if way == "cycle":
            factors += [("X", ["q", "r"]), ("X", r.choice([["q", "r"], ["r", "q"]]))]
        elif way == "thrice":
            factors.append(("x", [r.choice(summed)]))
        elif way == "drop":
            factors.pop(r.choice(with_summed))
        elif way == "twice":
            at = factors[r.choice(matrices)][1]
            k = r.randrange(2)
            at[k] = at[1 - k]
        else:
            places = [(at, k) for _, at in factors for k, x in enumerate(at) if x in (summed if way == "alone" else free)]
            at, k = r.choice(places)
            at[k] = "q"

    def ixexpr(self, form, s):
        """An index expression: its text with the lines that it takes, its translation, its scale; None where none was found."""
        r = self.r
        free = r.sample("ijkxyz", {"L": 0, "V": 1, "M": 2}[form[0]])
        terms = []
        for _ in range(r.choice([1, 1, 1, 2, 2, 3])):
            for _ in range(8):
                t = self.ixterm(form, s, free)
                if t is not None:
                    break
            else:
                return None
            terms.append(t)
            s = t["scale"]
        text, py, bad = "", None, False
        for k, t in enumerate(terms):
            minus = r.random() < 0.35
            if r.random() < 0.03:
                self.out_of_chain(t, free)
                bad = True
            r.shuffle(t["factors"])
            text += (" - " if minus else " + ") if k else ("-" if minus else "")
            text += r.choice(["*", "*", " * ", "\n    *"]).join(n + ("(%s)" % ",".join(at) if at else "") for n, at in t["factors"])
            if py is None:
                py = "neg(%s)" % t["py"] if minus else t["py"]
            else:
                py = "%s(%s, %s)" % ("sub" if minus else "add", py, t["py"])
        lead = r.choice([" ", " ", " ", "\n      "])
        return lead + "ix (%s) " % r.choice([",", ", "]).join(free) + text, py, s, bad, lead != " "

    def ixstmt(self, indent):
        r = self.r
        fields = [("V", n, b, s, "%s.%s" % (n, f), "M.S['%s']['f']['%s']" % (n, f))
                  for n in self.order for f, (b, s) in self.sets[n]["shape"].items()]
        old = [v[1] + (v[0], "v_" + v[0]) for v in self.visible() if v[2] == "var"]
        mats = [v[1] for v in self.visible() if v[1][0] == "M"]
        way = r.choice(["field", "field", "old", "scalar", "vector", "matrix", "matrix"])
        pool = {"field": fields, "old": old}.get(way)
        if pool:
            t = r.choice(pool)
            form, s, name, store = t[:-3], t[-3], t[-2], t[-1]
        else:
            if way == "matrix" and mats:
                t, u = r.choice(mats), r.choice(mats)
                form = r.choice([t[:-1], ("M", t[2], t[1], t[3][::-1]), ("M", t[1], t[1], t[3][:1] * 2), ("M", t[2], t[2], t[3][1:] * 2)])
            elif way == "scalar" or not self.spaces():
                form = ("L", ())
            else:
                form = ("V",) + r.choice(self.spaces())
            s, name, store = None, None, None
        got = self.ixexpr(form, s)
        if got is None:
            return False
        text, py, s, bad, below = got
        if name is None:
            name = self.fresh("u")
            store = "v_" + name
            self.scopes[-1].append((name, form + (s,), "mat" if form[0] == "M" else "var", None))
            name = "var " + name
        lines = ("%s =%s;" % (name, text)).split("\n")
        line = self.emit(indent, lines[0])
        for more in lines[1:]:
            self.emit(indent, more)
        if bad:
            self.broken.append(line + below)
        self.pye(indent, "M.at(%d)" % line)
        self.pye(indent, "%s = %s" % (store, py))
        return True

    def mstmt(self, indent, depth):
        r = self.r
        if self.ix and r.random() < 0.6 and self.ixstmt(indent):
            return
        kinds = ["var", "var", "field", "field", "field", "assign", "map", "map"]
        if self.fns:
            kinds += ["varmap"]
        if depth > 0:
            kinds += ["for", "if", "while", "if"]
        if r.random() < (0.05 if self.plain else 0.15):
            kinds += ["assert"]
        k = r.choice(kinds)
        if k == "varmap":
            self.mapping(indent, True)
            return
        if k == "map":
            if self.fns and self.mapping(indent, False):
                return
            k = "field"
        if k == "assign":
            vs = [v for v in self.visible() if v[2] == "var"]
            if vs:
                v = r.choice(vs)
                e = self.ex(v[1], r.choice([1, 2, 3]))
                line = self.emit(indent, "%s = %s;" % (v[0], e[0]))
                self.pye(indent, "M.at(%d)" % line)
                self.pye(indent, "v_%s = %s" % (v[0], e[2]))
                return
            k = "var"
        if k == "field":
            fs = [(n, f, x) for n in self.order for f, x in self.sets[n]["shape"].items()]
            if not fs:
                return
            n, f, (b, s) = r.choice(fs)
            e = self.ex(("V", n, b, s), r.choice([1, 2, 3]))
            line = self.emit(indent, "%s.%s = %s;" % (n, f, e[0]))
            self.pye(indent, "M.at(%d)" % line)
            self.pye(indent, "M.S['%s']['f']['%s'] = %s" % (n, f, e[2]))
        elif k == "var":
            t = self.mtype()
            if t[0] == "M" and not self.can(t[:-1]):
                b = t[3]
                t = ("M", t[2], t[1], (b[1], b[0]) if b else (), t[4])
            e = self.ex(t, r.choice([0, 1, 2, 3]))
            name = self.fresh("u")
            line = self.emit(indent, "var %s = %s;" % (name, e[0]))
            self.pye(indent, "M.at(%d)" % line)
            self.pye(indent, "v_%s = %s" % (name, e[2]))
            self.scopes[-1].append((name, t, "mat" if t[0] == "M" else "var", None))
        elif k == "for":
            if r.random() < 0.6:
                lo = r.choice([("0", 3, "0"), ("1", 3, "1"), ("-1", 0, "neg(1)")])
                hi = r.choice([("2", 3, "2"), ("3", 3, "3"), ("0", 3, "0"), ("1 + 1", 0, "add(1, 1)")])
            else:
                # a bound made of the state, held small
                x = self.ex(("L", (), 0), 1)
                q = "quot(%s, 4611686018427387904, 0)" % x[0]
                lo = (q, 3, "quot(%s, 0, 4611686018427387904, 0, 0)" % x[2])
                hi = ("2", 3, "2")
            name = self.fresh("j")
            line = self.emit(indent, "for %s in %s:%s" % (name, lo[0], hi[0]))
            self.pye(indent, "M.at(%d)" % line)
            lov, hiv = self.fresh("b"), self.fresh("b")
            self.pye(indent, "%s = %s; %s = %s" % (lov, lo[2], hiv, hi[2]))
            self.pye(indent, "while %s < %s:" % (lov, hiv))
            self.pye(indent + 1, "M.turn(); v_%s = %s; %s += 1" % (name, lov, lov))
            self.scopes.append([(name, ("L", (), 0), "loop", None)])
            self.body(indent + 1, depth - 1, self.mstmt)
            self.scopes.pop()
            self.emit(indent, "end")
        elif k == "while":
            name = self.fresh("c")
            n = r.choice([0, 1, 2, 3])
            line = self.emit(indent, "var %s = 0;" % name)
            self.pye(indent, "v_%s = 0" % name)
            c = ""
            pc = ""
            if r.random() < 0.4:
                x = self.cmp(1)
                c, pc = " and " + x[0], ", " + x[1]
            line = self.emit(indent, "while %s < %d%s" % (name, n, c))
            self.pye(indent, "while (M.at(%d), judge([[compare(False, v_%s, '<', %d)%s]]))[1]:" % (line, name, n, pc))
            self.pye(indent + 1, "M.turn()")
            self.scopes[-1].append((name, ("L", (), 0), "counter", None))
            self.emit(indent + 1, "%s = %s + 1;" % (name, name))
            self.pye(indent + 1, "v_%s = v_%s + 1" % (name, name))
            self.body(indent + 1, depth - 1, self.mstmt)
            self.emit(indent, "end")
        elif k == "if":
            c = self.cond(r.choice([0, 1, 2]))
            line = self.emit(indent, "if " + c[0])
            self.pye(indent, "M.at(%d)" % line)
            self.pye(indent, "if %s:" % c[1])
            self.body(indent + 1, depth - 1, self.mstmt)
            if r.random() < 0.6:
                self.emit(indent, "else")
                self.pye(indent, "else:")
                self.body(indent + 1, depth - 1, self.mstmt)
            self.emit(indent, "end")
        elif k == "assert":
            c = self.cond(1)
            line = self.emit(indent, "assert %s;" % c[0])
            self.pye(indent, "M.at(%d)" % line)
            self.pye(indent, "if not %s: raise second.TrapAt('assertion failed')" % c[1])

    def program(self):
        self.declare()
        self.fns = [self.function("f%d" % i) for i in range(self.r.choice([2, 3, 3, 4] if self.mat else [0, 1, 2, 2, 3]))]
        self.emit(0, "proc main")
        self.pye(0, "def main(M):")
        self.pye(1, "pass")
        self.scopes = [[]]
        if self.fns:
            for _ in range(self.r.choice([3, 4] if self.mat else [1, 2])):
                self.mapping(1, True)
        for _ in range(self.r.randint(2, 8)):
            self.mstmt(1, 2)
        self.emit(0, "end")
        text = "\n".join(self.lines) + "\n"
        tables = []
        for n in self.order:
            s = self.sets[n]
            heads = self.table_heads(s)
            # a set without columns can't be; an edge set always has endpoints
            tables.append((n, ",".join(heads) + "\n" + "".join(",".join(row) + "\n" for row in self.table_rows(s, True))))
        return text, tables, "\n".join(self.py) + "\n"

    def answer(self, turns=100000):
        """The answer by the translation."""
        if self.broken:
            return 2, "", "refused: line %d: not a chain" % min(self.broken)
        m = Machine(self.sets, turns)
        space = {"second": second, "compare": compare, "judge": judge}
        for k in ("add", "sub", "neg", "scal", "emul", "dot", "resc", "quot", "isqrt", "lmv", "lmm", "ltr", "smv", "smm", "strn", "lit", "wrap",
                  "clamp0", "least", "most", "mix", "square"):
            space[k] = getattr(second, k)
        space["rscal"] = lambda x, c: second.scal(c, x)
        exec(compile("\n".join(self.py) + "\n", "translation", "exec"), space)
        try:
            space["main"](m)
        except second.TrapAt as t:
            where = "line %d" % m.line
            if t.element is not None:
                where += ", element %d" % t.element
            return 5, "", "trap at %s: %s" % (where, t.kind)
        except second.OutOfTurns:
            return 6, "", "spent: %d turns" % turns
        out = "".join(second.table(n, self.table_heads(s), self.table_rows(s)) for n, s in self.sets.items())
        return 0, out, None


def make(seed, where, kind=""):
    """Makes one program and runs it both ways: both answers, the translation and the length."""
    g = Gen(seed, kind)
    text, tables, py = g.program()
    if os.path.isdir(where):
        shutil.rmtree(where)
    os.makedirs(where)
    words = ["program.sim"]
    with open(where + "/program.sim", "w") as f:
        f.write(text)
    for n, t in tables:
        with open("%s/%s.csv" % (where, n), "w") as f:
            f.write(t)
        words.append(n + ".csv")
    back = os.getcwd()
    os.chdir(where)
    try:
        got = reference.main(words)
    finally:
        os.chdir(back)
    want = g.answer()
    for name, v in [("words", "".join(w + "\n" for w in words)), ("out", got[1]),
                    ("note", "" if got[2] is None else got[2] + "\n"), ("status", "%d\n" % got[0])]:
        with open("%s/%s" % (where, name), "w") as f:
            f.write(v)
    return got, want, py, len(text)


def main():
    if sys.argv[1] == "--soak":
        stats = {}
        kind = sys.argv[4] if len(sys.argv) > 4 else ""
        for seed in range(int(sys.argv[2]), int(sys.argv[3])):
            got, want, py, n = make(seed, "/tmp/gen-soak-%s%s" % (sys.argv[2], kind), kind)
            if got != want:
                print("DIFFERS seed", seed, got[0], got[2], "want", want[0], want[2])
                stats["differs"] = stats.get("differs", 0) + 1
            key = (got[0], got[2].split(": ")[-1] if got[2] else None)
            stats[key] = stats.get(key, 0) + 1
        print(stats)
    elif sys.argv[1] == "--write":
        want_n = int(sys.argv[2])
        kind = sys.argv[3] if len(sys.argv) > 3 else ""
        stem = "gen" + kind[:1]
        made, seed, traps, refusals = 0, 1000, 0, 0
        while made < want_n:
            where = "%s/programs/%s_%03d" % (HERE, stem, made)
            got, want, py, n = make(seed, where, kind)
            main_ = py[py.index("def main"):]
            if kind in ("mat", "ix") and main_.count("smv(") + main_.count("smm(") < 2 or kind == "host" and sum(
                    py.count(name + "(") for name in ("clamp0", "least", "most", "mix", "square")) < 4:
                seed += 1
                continue
            assert got == want, (seed, got, want)
            seed += 1
            # at most a quarter end in a trap, and no very short or long program is kept
            if got[0] == 5:
                if traps * 4 >= want_n:
                    continue
                traps += 1
            elif got[0] == 2 and refusals * 6 < want_n:
                refusals += 1
            elif got[0] != 0:
                continue
            if not 400 <= n <= 12000:
                if got[0] == 5:
                    traps -= 1
                continue
            made += 1
        for extra in range(made, made + 5):
            w = "%s/programs/%s_%03d" % (HERE, stem, extra)
            if os.path.isdir(w):
                shutil.rmtree(w)
        print(made, "programs,", traps, "traps, seeds 1000 to", seed - 1)
    else:
        seed = int(sys.argv[1])
        got, want, py, n = make(seed, "/tmp/gen-%d" % seed)
        print(py)
        print(open("/tmp/gen-%d/program.sim" % seed).read())
        print("reference", got)
        print("translation", want)
        print("EQUAL" if got == want else "DIFFERS")


if __name__ == "__main__":
    main()
