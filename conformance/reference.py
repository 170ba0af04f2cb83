#!/usr/bin/env python3
"""A whole interpreter of the language, in plain Python, written from the description of the language alone.

    python3 reference.py PROGRAM SETS.. [--turns N]

Standard output, the note line and the status are those of `simit run` in the stage where
every matrix is dense; the functions of the host are those of the program `simit`.

An index expression has the types of what it lowers to, and so its faults and its dense matrices; its value
is the sum of its products, written out over all values of the summed indices.

A system matrix of blocks high x wide over R x C elements is kept as one dense matrix of
R*high rows and C*wide columns; a system vector as one list.  All entries are words 0..2^64-1.
"""
import csv
import io
import itertools
import math
import operator
import sys

W = 1 << 64
MASK = W - 1
HALF = 1 << 63
DENSE = 4194304


# ------------------------------------------------------------------ words

def signed(w):
    return w - W if w >= HALF else w


def w_rescale(w, s, d):
    if d < s:
        return (signed(w) // 10 ** (s - d)) & MASK
    return (w * 10 ** (d - s)) & MASK


def w_quot(a, s, b, t, d):
    if b == 0:
        raise Trap("division by zero")
    return ((signed(a) * 10 ** (d + t - s)) // signed(b)) & MASK


def w_isqrt(a, s, d):
    if a >= HALF:
        raise Trap("root of a negative number")
    return math.isqrt(a * 10 ** (2 * d - s))


HOSTS = {       # a function of the host: how many arguments it takes, and what it answers, on signed numbers
    "clamp0": (1, lambda a: max(a, 0)),
    "least": (2, min),
    "most": (2, max),
    "mix": (1, lambda a: 6364136223846793005 * a + 1442695040888963407),
    "square": (1, lambda a: a * a),
}


def w_host(name, words):
    return HOSTS[name][1](*map(signed, words)) & MASK


def cell_text(d, w):
    v = signed(w)
    sign = "-" if v < 0 else ""
    t = str(abs(v))
    if d == 0:
        return sign + t
    t = t.rjust(d + 1, "0")
    return sign + t[:-d] + "." + t[-d:]


def read_cell(d, text):
    """The word, or a string that names the fault.  `text` is latin-1 decoded bytes."""
    t = text.strip(" ")
    lead = len(text) - len(text.lstrip(" "))
    if t == "":
        return "empty cell"
    k = 0
    if k < len(t) and t[k] == "-":
        k += 1
    a = k
    while k < len(t) and "0" <= t[k] <= "9":
        k += 1
    if k == a:
        return "bad byte at %d" % (lead + k)
    whole = t[a:k]
    dec = ""
    if k < len(t) and t[k] == ".":
        k += 1
        b = k
        while k < len(t) and "0" <= t[k] <= "9":
            k += 1
        if k == b:
            return "bad byte at %d" % (lead + k)
        dec = t[b:k]
    if k < len(t):
        return "bad byte at %d" % (lead + k)
    if dec[d:].strip("0") != "":
        return "too many decimals"
    v = int(whole + (dec[:d]).ljust(d, "0"))
    if t[0] == "-":
        v = -v
    if not -HALF <= v < HALF:
        return "too large"
    return v & MASK


# ------------------------------------------------------------------ endings

class Ending(Exception):
    def __init__(self, status, note):
        self.status = status
        self.note = note


class Trap(Exception):
    def __init__(self, kind, line=None, element=None):
        self.kind = kind
        self.line = line
        self.element = element


class Spent(Exception):
    pass


def refuse(line, kind):
    raise Ending(2, "refused: line %d: %s" % (line, kind))


# ------------------------------------------------------------------ tokens

KEYWORDS = ("and assert by dot element else end extern for func if in int isqrt ix main map "
            "matrix max min not or proc quot reduce rescale set tangent to var vector while").split()
SYMBOLS2 = [".*", "->", "==", "!=", "<=", ">="]
SYMBOLS1 = "()[]{}:;,.*+-=<>'"
DIGITS = "0123456789"
LETTERS = "abcdefghijklmnopqrstuvwxyzABCDEFGHIJKLMNOPQRSTUVWXYZ_"


class Tok:
    __slots__ = ("kind", "text", "line")

    def __init__(self, kind, text, line):
        self.kind = kind
        self.text = text
        self.line = line


def lex(src):
    toks = []
    i, line, depth, n = 0, 1, 0, len(src)

    def fault(at, what):
        raise Ending(2, "refused: line %d, byte %d: %s" % (line, at, what))

    while True:
        while i < n:
            c = src[i]
            if c == "\n":
                line += 1
                i += 1
            elif c in " \t\r":
                i += 1
            elif c == "%":
                while i < n and src[i] != "\n":
                    i += 1
            else:
                break
        start = i
        if i >= n:
            if len(toks) >= 65536:
                fault(start, "too many tokens")
            toks.append(Tok("end", "", line))
            return toks
        c = src[i]
        if c in LETTERS:
            while i < n and (src[i] in LETTERS or src[i] in DIGITS):
                i += 1
            t = src[start:i]
            kind = "key" if t in KEYWORDS else "name"
        elif c in DIGITS:
            while i < n and src[i] in DIGITS:
                i += 1
            if i + 1 < n and src[i] == "." and src[i + 1] in DIGITS:
                i += 1
                while i < n and src[i] in DIGITS:
                    i += 1
            t = src[start:i]
            kind = "num"
        elif src[i:i + 2] in SYMBOLS2:
            t = src[i:i + 2]
            i += 2
            kind = "sym"
        elif c in SYMBOLS1:
            t = c
            i += 1
            kind = "sym"
        else:
            fault(start, "bad byte")
        if len(toks) >= 65536:
            fault(start, "too many tokens")
        if kind == "name" and len(t) > 64:
            fault(start, "long name")
        if (kind == "sym" and t in "([{") or (kind == "key" and t in ("if", "while", "for")):
            depth += 1
            if depth > 64:
                fault(start, "too deep")
        elif (kind == "sym" and t in ")]}") or (kind == "key" and t == "end"):
            depth = max(0, depth - 1)
        toks.append(Tok(kind, t, line))


# ------------------------------------------------------------------ tree and parser

class N:
    """A node: kind, line and whatever the kind needs."""
    ix = None       # the index expression that a node was lowered from
    rank = None     # how many indices a reference of an index expression had

    def __init__(self, kind, line, **more):
        self.kind = kind
        self.line = line
        self.__dict__.update(more)


class Parser:
    def __init__(self, toks):
        self.toks = toks
        self.i = 0

    def t(self):
        return self.toks[self.i]

    def bad(self):
        raise Ending(2, "refused: line %d, token %d: syntax" % (self.t().line, self.i))

    def at(self, text):
        t = self.t()
        return t.kind in ("key", "sym") and t.text == text

    def accept(self, text):
        if self.at(text):
            self.i += 1
            return True
        return False

    def need(self, text):
        if not self.accept(text):
            self.bad()

    def name(self):
        t = self.t()
        if t.kind != "name":
            self.bad()
        self.i += 1
        return t.text

    def num(self):
        t = self.t()
        if t.kind != "num":
            self.bad()
        self.i += 1
        return t.text

    def program(self):
        decls = []
        while not self.at("proc"):
            decls.append(self.decl())
        self.need("proc")
        self.need("main")
        body = self.stmts(self.mstmt)
        self.need("end")
        if self.t().kind != "end":
            self.bad()
        return decls, body

    def decl(self):
        line = self.t().line
        if self.accept("element"):
            name = self.name()
            fields = []
            while not self.at("end"):
                fl = self.t().line
                fn = self.name()
                self.need(":")
                loc = self.local()
                self.need(";")
                fields.append(N("field", fl, name=fn, local=loc))
            self.need("end")
            return N("element", line, name=name, fields=fields)
        if self.accept("extern"):
            if self.accept("func"):
                name = self.name()
                self.need("(")
                scales = [self.int()]
                while self.accept(","):
                    scales.append(self.int())
                self.need(")")
                self.need("->")
                scales.append(self.int())
                self.need(";")
                return N("host", line, name=name, scales=scales)
            name = self.name()
            self.need(":")
            self.need("set")
            self.need("{")
            el = self.name()
            self.need("}")
            ends = []
            if self.accept("("):
                ends.append(self.name())
                while self.accept(","):
                    ends.append(self.name())
                self.need(")")
            self.need(";")
            return N("set", line, name=name, element=el, ends=ends)
        if self.accept("func"):
            name = self.name()
            self.need("(")
            params = [self.param()]
            while self.accept(","):
                params.append(self.param())
            self.need(")")
            self.need("->")
            self.need("(")
            results = [self.result()]
            while self.accept(","):
                results.append(self.result())
            self.need(")")
            body = self.stmts(self.fstmt)
            self.need("end")
            return N("func", line, name=name, params=params, results=results, body=body)
        self.bad()

    def int(self):
        self.need("int")
        self.need("(")
        n = self.num()
        self.need(")")
        return n

    def local(self):
        if self.at("int"):
            return ((), self.int())
        if self.accept("vector"):
            self.need("[")
            a = self.num()
            self.need("]")
            self.need("(")
            s = self.int()
            self.need(")")
            return ((a,), s)
        if self.accept("matrix"):
            self.need("[")
            a = self.num()
            self.need(",")
            b = self.num()
            self.need("]")
            self.need("(")
            s = self.int()
            self.need(")")
            return ((a, b), s)
        self.bad()

    def param(self):
        line = self.t().line
        name = self.name()
        self.need(":")
        if self.at("int"):
            return N("pint", line, name=name, scale=self.int())
        if self.accept("("):
            el = self.name()
            self.need("*")
            n = self.num()
            self.need(")")
            return N("pends", line, name=name, element=el, count=n)
        return N("pelem", line, name=name, element=self.name())

    def result(self):
        line = self.t().line
        name = self.name()
        self.need(":")
        cols = None
        if self.accept("vector"):
            self.need("[")
            rows = self.name()
        elif self.accept("matrix"):
            self.need("[")
            rows = self.name()
            self.need(",")
            cols = self.name()
        else:
            self.bad()
        self.need("]")
        self.need("(")
        block = self.local()
        self.need(")")
        return N("result", line, name=name, rows=rows, cols=cols, local=block)

    def stmts(self, one):
        out = []
        while not (self.at("end") or self.at("else")):
            out.append(one())
        return out

    def fstmt(self):
        line = self.t().line
        if self.accept("var"):
            name = self.name()
            self.need("=")
            e = self.expr()
            self.need(";")
            return N("fvar", line, name=name, value=e)
        if self.accept("for"):
            name = self.name()
            self.need("in")
            a = self.num()
            self.need(":")
            b = self.num()
            body = self.stmts(self.fstmt)
            self.need("end")
            return N("cfor", line, name=name, lo=a, hi=b, body=body)
        if self.accept("if"):
            return self.if_(line, self.fstmt)
        if self.accept("assert"):
            c = self.cond()
            self.need(";")
            return N("assert", line, cond=c)
        name = self.name()
        if self.accept("("):
            places = [self.place()]
            if self.accept(","):
                places.append(self.place())
            self.need(")")
            self.need("=")
            e = self.expr()
            self.need(";")
            return N("write", line, name=name, places=places, value=e)
        self.need("=")
        e = self.expr()
        self.need(";")
        return N("fassign", line, name=name, value=e)

    def if_(self, line, one):
        c = self.cond()
        yes = self.stmts(one)
        no = []
        if self.accept("else"):
            no = self.stmts(one)
        self.need("end")
        return N("if", line, cond=c, yes=yes, no=no)

    def place(self):
        name = self.name()
        index = None
        if self.accept("("):
            t = self.t()
            if t.kind == "num":
                index = ("num", self.num())
            else:
                index = ("name", self.name())
            self.need(")")
        return (name, index)

    def mstmt(self):
        line = self.t().line
        if self.accept("var"):
            names = [self.name()]
            while self.accept(","):
                names.append(self.name())
            self.need("=")
            right = self.right() if len(names) == 1 else self.map()
            self.need(";")
            return N("var", line, names=names, right=right)
        if self.accept("while"):
            c = self.cond()
            body = self.stmts(self.mstmt)
            self.need("end")
            return N("while", line, cond=c, body=body)
        if self.accept("for"):
            name = self.name()
            self.need("in")
            a = self.expr()
            self.need(":")
            b = self.expr()
            body = self.stmts(self.mstmt)
            self.need("end")
            return N("for", line, name=name, lo=a, hi=b, body=body)
        if self.accept("if"):
            return self.if_(line, self.mstmt)
        if self.accept("assert"):
            c = self.cond()
            self.need(";")
            return N("assert", line, cond=c)
        targets = [self.target()]
        while self.accept(","):
            targets.append(self.target())
        self.need("=")
        right = self.right() if len(targets) == 1 else self.map()
        self.need(";")
        return N("assign", line, targets=targets, right=right)

    def target(self):
        a = self.name()
        return (a, self.name()) if self.accept(".") else (a, None)

    def right(self):
        if self.at("map"):
            return self.map()
        if self.at("ix"):
            return self.ix()
        return self.expr()

    def map(self):
        line = self.t().line
        self.need("map")
        f = self.name()
        args = []
        if self.accept("("):
            args.append(self.expr())
            while self.accept(","):
                args.append(self.expr())
            self.need(")")
        self.need("to")
        s = self.name()
        self.need("reduce")
        self.need("+")
        return N("map", line, func=f, args=args, set=s)

    def ix(self):
        line = self.t().line
        self.need("ix")
        self.need("(")
        free = []
        if not self.at(")"):
            free.append(self.name())
            if self.accept(","):
                free.append(self.name())
        self.need(")")
        terms = [self.ixterm(self.accept("-"))]
        while self.at("+") or self.at("-"):
            minus = self.accept("-")
            if not minus:
                self.need("+")
            terms.append(self.ixterm(minus))
        return N("ix", line, free=free, terms=terms)

    def ixterm(self, minus):
        line = self.t().line
        atoms = [self.ixatom()]
        while self.accept("*"):
            atoms.append(self.ixatom())
        return N("ixterm", line, minus=minus, atoms=atoms)

    def ixatom(self):
        line = self.t().line
        if self.t().kind == "num":
            return N("ixnum", line, text=self.num(), indices=[])
        name, field, indices = self.name(), None, []
        if self.accept("."):
            field = self.name()
        if self.accept("("):
            indices.append(self.name())
            if self.accept(","):
                indices.append(self.name())
            self.need(")")
        return N("ixref", line, name=name, field=field, indices=indices)

    def cond(self):
        parts = [self.conj()]
        while self.accept("or"):
            parts.append(self.conj())
        return parts

    def conj(self):
        parts = [self.cmp()]
        while self.accept("and"):
            parts.append(self.cmp())
        return parts

    def cmp(self):
        line = self.t().line
        neg = self.accept("not")
        a = self.expr()
        for op in ("==", "!=", "<=", ">=", "<", ">"):
            if self.accept(op):
                return N("cmp", line, neg=neg, a=a, op=op, b=self.expr())
        self.bad()

    def expr(self):
        line = self.t().line
        if self.accept("-"):
            left = N("neg", line, a=self.term())
        else:
            left = self.term()
        while True:
            if self.accept("+"):
                left = N("add", line, a=left, b=self.term())
            elif self.accept("-"):
                left = N("sub", line, a=left, b=self.term())
            else:
                return left

    def term(self):
        line = self.t().line
        left = self.post()
        while True:
            if self.accept("*"):
                left = N("mul", line, a=left, b=self.post())
            elif self.accept(".*"):
                left = N("emul", line, a=left, b=self.post())
            else:
                return left

    def post(self):
        line = self.t().line
        a = self.atom()
        return N("tr", line, a=a) if self.accept("'") else a

    def atom(self):
        t = self.t()
        if t.kind == "num":
            self.i += 1
            return N("num", t.line, text=t.text)
        if t.kind == "name":
            self.i += 1
            args = self.list() if self.at("(") else []
            field, fargs = None, []
            if self.accept("."):
                field = self.name()
                if self.at("("):
                    fargs = self.list()
            return N("ref", t.line, name=t.text, args=args, field=field, fargs=fargs)
        if self.accept("("):
            e = self.expr()
            self.need(")")
            return e
        if self.accept("["):
            rows = [self.row()]
            while self.accept(";"):
                rows.append(self.row())
            self.need("]")
            return N("block", t.line, rows=rows)
        if self.accept("rescale"):
            self.need("(")
            e = self.expr()
            self.need(",")
            d = self.num()
            self.need(")")
            return N("rescale", t.line, a=e, d=d)
        if self.accept("quot"):
            self.need("(")
            a = self.expr()
            self.need(",")
            b = self.expr()
            self.need(",")
            d = self.num()
            self.need(")")
            return N("quot", t.line, a=a, b=b, d=d)
        if self.accept("isqrt"):
            self.need("(")
            a = self.expr()
            self.need(",")
            d = self.num()
            self.need(")")
            return N("isqrt", t.line, a=a, d=d)
        if self.accept("dot"):
            self.need("(")
            a = self.expr()
            self.need(",")
            b = self.expr()
            self.need(")")
            return N("dot", t.line, a=a, b=b)
        self.bad()

    def row(self):
        out = [self.expr()]
        while self.accept(","):
            out.append(self.expr())
        return out

    def list(self):
        self.need("(")
        out = self.row()
        self.need(")")
        return out


# ------------------------------------------------------------------ index expressions

def is_vector(atom):
    return len(atom.indices) == 1


def linked(factors, free):
    """Each factor shares one summed index with the next."""
    return all(len(set(a.indices) & set(b.indices) - set(free)) == 1 for a, b in zip(factors, factors[1:]))


def groups_in_order(factors, free):
    """The groups of these factors where they stand in the order of a chain, or None."""
    if len(free) == 0:
        if not factors:
            return []
        ends = len(factors) > 1 and is_vector(factors[0]) and is_vector(factors[-1])
        return [factors] if ends and not any(map(is_vector, factors[1:-1])) and linked(factors, free) else None
    if not factors:
        return None
    if len(free) == 2:
        ends = free[0] in factors[0].indices and free[1] in factors[-1].indices
        return [factors] if ends and not any(map(is_vector, factors)) and linked(factors, free) else None
    groups, group = [], []
    for a in factors:
        group.append(a)
        if is_vector(a):
            groups.append(group)
            group = []
    if group:
        return None
    for g in groups:
        if free[0] not in g[0].indices or not linked(g, free) or sum(a.indices.count(free[0]) for a in g) != 1:
            return None
    return groups


def every_order(factors, free):
    """The groups of a chain by trying each order of its factors, or None."""
    for order in itertools.permutations(factors):
        groups = groups_in_order(list(order), free)
        if groups is not None:
            return groups
    return None


def shared_indices(factors, free):
    """The same by going from each factor to the one that shares its other index."""
    left = list(factors)

    def follow(atom):
        """The factors from this one on, and the index at which they end."""
        seq, index = [], free[0] if free else None
        while True:
            left.remove(atom)
            seq.append(atom)
            out = [x for x in atom.indices if x != index]
            if not out or out[0] in free:
                return seq, out[0] if out else None
            index = out[0]
            after = [a for a in left if index in a.indices]
            if not after:
                return seq, index
            atom = after[0]

    if not free:
        if not factors:
            return []
        if not any(map(is_vector, factors)):
            return None
        seq, end = follow(next(a for a in factors if is_vector(a)))
        return [seq] if end is None and not left else None
    starts = [a for a in factors if free[0] in a.indices]
    if len(free) == 2:
        if len(starts) != 1:
            return None
        seq, end = follow(starts[0])
        return [seq] if end == free[1] and not left else None
    groups = []
    for a in starts:
        if a not in left:
            return None
        seq, end = follow(a)
        if end is not None:
            return None
        groups.append(seq)
    return groups if groups and not left else None


def chain(free, term, way=None):
    """The groups of a term in their order and in that of each group's first factor in the text; None where the term
    isn't in chain form."""
    factors = [a for a in term.atoms if a.indices]
    names = [x for a in factors for x in a.indices]
    if any(len(set(a.indices)) < len(a.indices) for a in factors) or len(set(free)) < len(free):
        return None
    if any(names.count(x) != 2 for x in names if x not in free):
        return None
    groups = (way or (every_order if len(factors) <= 6 else shared_indices))(factors, free)
    if groups is None:
        return None
    if not free and groups and factors.index(groups[0][0]) > factors.index(groups[0][-1]):
        groups[0].reverse()
    return sorted(groups, key=lambda g: min(map(factors.index, g)))


def made(atom):
    if atom.kind == "ixnum":
        return N("num", atom.line, text=atom.text)
    atom.made = N("ref", atom.line, name=atom.name, args=[], field=atom.field, fargs=[], rank=len(atom.indices))
    return atom.made


def joined(kind, line, nodes):
    """A product of these nodes, from the left."""
    left = nodes[0]
    for n in nodes[1:]:
        left = N(kind, line, a=left, b=n)
    return left


def stepped(atom, index):
    """A matrix that is entered at this index, and the index at which it is left."""
    if atom.indices[0] == index:
        return made(atom), atom.indices[1]
    return N("tr", atom.line, a=made(atom)), atom.indices[0]


def nested(group, index, line):
    """The nested product of matrices and a last vector."""
    if is_vector(group[0]):
        return made(group[0])
    matrix, index = stepped(group[0], index)
    return N("mul", line, a=matrix, b=nested(group[1:], index, line))


def lowered_term(free, term):
    groups = chain(free, term)
    factors = [made(a) for a in term.atoms if not a.indices]
    if groups and len(free) == 0:
        first, rest = groups[0][0], groups[0][1:]
        factors.append(N("dot", term.line, a=made(first), b=nested(rest, first.indices[0], term.line)))
    if len(free) == 1:
        factors.append(joined("emul", term.line, [nested(g, free[0], term.line) for g in groups]))
    if len(free) == 2:
        matrices, index = [], free[0]
        for a in groups[0]:
            matrix, index = stepped(a, index)
            matrices.append(matrix)
        factors.append(joined("mul", term.line, matrices))
    return joined("mul", term.line, factors)


def lowered(ix):
    left = None
    for term in ix.terms:
        value = lowered_term(ix.free, term)
        if left is None:
            left = N("neg", ix.line, a=value) if term.minus else value
        else:
            left = N("sub" if term.minus else "add", ix.line, a=left, b=value)
    left.ix = ix
    return left


def index_statements(body):
    """The statements with an index expression, in the order of the text."""
    for s in body:
        if s.kind in ("var", "assign") and s.right.kind == "ix":
            yield s
        elif s.kind in ("while", "for"):
            yield from index_statements(s.body)
        elif s.kind == "if":
            yield from index_statements(s.yes)
            yield from index_statements(s.no)


def lower(body):
    """Puts what each index expression lowers to into its place."""
    for s in index_statements(body):
        if any(chain(s.right.free, t) is None for t in s.right.terms):
            refuse(s.right.line, "not a chain")
    for s in index_statements(body):
        s.right = lowered(s.right)


# ------------------------------------------------------------------ types
# ("L", block, scale) a number, vector or matrix of a function, or a scalar of main
# ("V", set, block, scale) a system vector; ("M", rows, columns, block, scale) a system matrix
# a block is (), (n,) or (m, n)

UNKNOWN, TWICE, NOTCONST, NOTPLACE = "unknown name", "declared twice", "not a constant", "not a place"
SHAPE, SET, SCALE, LARGE = "shape", "set", "scale", "too large"


def size(block):
    n = 1
    for k in block:
        n *= k
    return n


def is_num(t):
    return t[0] == "L" and t[1] == ()


def with_scale(t, s):
    return t[:-1] + (s,)


class Types:
    def __init__(self, decls, body):
        self.elements, self.sets, self.funcs, self.hosts = {}, {}, {}, {}
        self.set_order = []
        self.scopes = []
        self.count = 0
        for d in decls:
            getattr(self, "d_" + d.kind)(d)
        self.fn = None
        self.matrix_vars = []       # types of all matrix variables of main
        self.matrix_nodes = []      # types of the other matrix-valued nodes that are counted
        self.stmts_main(body)

    # names
    def known(self, name):
        return self.is_declared(name) or any(name in s for s in self.scopes)

    def is_declared(self, name):
        return any(name in space for space in (self.elements, self.sets, self.funcs, self.hosts))

    def find(self, name):
        for s in reversed(self.scopes):
            if name in s:
                return s[name]
        return None

    def statement(self, line):
        self.count += 1
        if self.count > 4096:
            refuse(line, LARGE)

    def whole(self, text, line):
        if "." in text:
            refuse(line, NOTCONST)
        return int(text)

    def block(self, local, line, top):
        sides, scale = local
        if "." in scale or any("." in s for s in sides):
            refuse(line, NOTCONST)
        return tuple(int(s) for s in sides), int(scale)

    def block_limits(self, block, scale, line, top):
        if scale > top:
            refuse(line, SCALE)
        if any(not 1 <= s <= 6 for s in block):
            refuse(line, LARGE)

    # declarations
    def d_element(self, d):
        fields = {}
        for f in d.fields:
            if f.name in fields or f.name == "key" or f.name in ["p%d" % k for k in range(8)]:
                refuse(f.line, TWICE)
            b, s = self.block(f.local, f.line, 18)
            self.block_limits(b, s, f.line, 18)
            fields[f.name] = (b, s)
        if self.known(d.name):
            refuse(d.line, TWICE)
        if len(fields) > 32:
            refuse(d.line, LARGE)
        self.elements[d.name] = fields

    def d_set(self, d):
        if d.element not in self.elements or any(e not in self.sets for e in d.ends):
            refuse(d.line, UNKNOWN)
        if self.known(d.name):
            refuse(d.line, TWICE)
        fields = self.elements[d.element]
        if not d.ends and not fields:
            refuse(d.line, SHAPE)
        if d.ends and (len(set(d.ends)) > 1 or self.sets[d.ends[0]].ends):
            refuse(d.line, SET)
        if len(d.ends) > 8 or len(d.ends) + sum(size(b) for b, s in fields.values()) > 64:
            refuse(d.line, LARGE)
        if len(self.set_order) >= 8:
            refuse(d.line, LARGE)
        self.sets[d.name] = d
        self.set_order.append(d.name)

    def d_host(self, d):
        if d.name not in HOSTS:
            refuse(d.line, UNKNOWN)
        if self.known(d.name):
            refuse(d.line, TWICE)
        scales = [self.whole(s, d.line) for s in d.scales]
        if len(scales) - 1 != HOSTS[d.name][0]:
            refuse(d.line, SHAPE)
        if any(s > 36 for s in scales):
            refuse(d.line, SCALE)
        self.hosts[d.name] = scales[:-1], scales[-1]

    def d_func(self, d):
        scope = {}
        self.scopes = [scope]
        for p in d.params:
            if p.kind != "pint" and p.element not in self.elements:
                refuse(p.line, UNKNOWN)
            if self.known(p.name):
                refuse(p.line, TWICE)
            if p.kind == "pint":
                p.scale = self.whole(p.scale, p.line)
                if p.scale > 36:
                    refuse(p.line, SCALE)
                scope[p.name] = ("value", ("L", (), p.scale), "param")
            elif p.kind == "pelem":
                scope[p.name] = ("elem", p.element)
            else:
                p.count = self.whole(p.count, p.line)
                if not 1 <= p.count <= 8:
                    refuse(p.line, LARGE)
                scope[p.name] = ("ends", p.element, p.count)
        for k, r in enumerate(d.results):
            if r.rows not in self.sets or (r.cols is not None and r.cols not in self.sets):
                refuse(r.line, UNKNOWN)
            if self.known(r.name):
                refuse(r.line, TWICE)
            r.block, r.scale = self.block(r.local, r.line, 36)
            if (r.cols is None and len(r.block) == 2) or (r.cols is not None and len(r.block) == 1):
                refuse(r.line, SHAPE)
            self.block_limits(r.block, r.scale, r.line, 36)
            scope[r.name] = ("result", k, r)
        self.fn = d
        d.writes = []
        cost = self.stmts_fn(d.body)
        if self.known(d.name):
            refuse(d.line, TWICE)
        kinds = [p.kind for p in d.params]
        args = kinds.count("pint")
        rest = kinds[args:]
        if kinds[:args] != ["pint"] * args or rest not in (["pelem"], ["pelem", "pends"]):
            refuse(d.line, SHAPE)
        if args > 8 or len(d.results) > 4 or cost > 65536:
            refuse(d.line, LARGE)
        d.nargs = args
        d.elem = d.params[args]
        d.ends = d.params[args + 1] if len(rest) == 2 else None
        d.cost = cost
        self.funcs[d.name] = d
        self.scopes = []
        self.fn = None

    # statements of functions; the answer is their cost
    def stmts_fn(self, body):
        self.scopes.append({})
        cost = sum(self.stmt_fn(s) for s in body)
        self.scopes.pop()
        return cost

    def stmt_fn(self, s):
        k = s.kind
        if k == "fvar":
            cost = self.ex(s.value)
            if self.known(s.name):
                refuse(s.line, TWICE)
            self.scopes[-1][s.name] = ("value", s.value.t, "var")
        elif k == "fassign":
            cost = self.ex(s.value)
            v = self.find(s.name)
            if v is None:
                refuse(s.line, UNKNOWN)
            if v[0] != "value" or v[2] != "var":
                refuse(s.line, NOTPLACE)
            self.equal(s.line, v[1], s.value.t)
        elif k == "write":
            cost = self.ex(s.value)
            self.write(s)
        elif k == "cfor":
            if "." in s.lo or "." in s.hi:
                bounds = None
            else:
                bounds = (int(s.lo), int(s.hi))
            self.scopes.append({s.name: ("value", ("L", (), 0), "loop", bounds)})
            twice = any(s.name in x for x in self.scopes[:-1]) or self.is_declared(s.name)
            inner = self.stmts_fn(s.body)
            self.scopes.pop()
            if twice:
                refuse(s.line, TWICE)
            if bounds is None:
                refuse(s.line, NOTCONST)
            if bounds[0] >= bounds[1] or bounds[1] > 4096:
                refuse(s.line, LARGE)
            s.lo, s.hi = bounds
            cost = inner * (s.hi - s.lo)
        elif k == "if":
            cost = self.cond(s.cond)
            cost += self.stmts_fn(s.yes) + self.stmts_fn(s.no)
        elif k == "assert":
            cost = self.cond(s.cond)
        self.statement(s.line)
        return cost + 1

    def write(self, s):
        r = self.find(s.name)
        if r is None and not self.known(s.name):
            refuse(s.line, UNKNOWN)
        places = []
        for name, index in s.places:
            if not self.known(name):
                refuse(s.line, UNKNOWN)
            if index is not None and index[0] == "name" and not self.known(index[1]):
                refuse(s.line, UNKNOWN)
        for name, index in s.places:
            if index is not None:
                if index[0] == "num":
                    if "." in index[1]:
                        refuse(s.line, NOTCONST)
                else:
                    v = self.find(index[1])
                    if v is None or v[0] != "value" or v[2] != "loop":
                        refuse(s.line, NOTCONST)
        if r is None or r[0] != "result":
            refuse(s.line, NOTPLACE)
        for name, index in s.places:
            p = self.find(name)
            if p is None or p[0] not in ("elem", "ends"):
                refuse(s.line, NOTPLACE)
        for name, index in s.places:
            p = self.find(name)
            if (p[0] == "elem") != (index is None):
                refuse(s.line, SHAPE)
            places.append(("elem",) if index is None else ("end", index))
        res = r[2]
        if len(places) != (1 if res.cols is None else 2):
            refuse(s.line, SHAPE)
        self.equal(s.line, ("L", res.block, res.scale), s.value.t)
        for (name, index) in s.places:
            p = self.find(name)
            if index is not None:
                self.in_range(s.line, index, p[2])
        s.result = r[1]
        s.at = places
        self.fn.writes.append((r[1], [x[0] for x in places]))

    def in_range(self, line, index, n):
        if index[0] == "num":
            if int(index[1]) >= n:
                refuse(line, LARGE)
        else:
            b = self.find(index[1])[3]
            if b is not None and b[0] < b[1] and b[1] - 1 >= n:
                refuse(line, LARGE)

    # statements of main
    def stmts_main(self, body):
        self.scopes.append({})
        for s in body:
            self.stmt_main(s)
        self.scopes.pop()

    def right(self, s, count, target):
        """The types of a right side, one for each name or target."""
        r = s.right
        if r.kind != "map":
            self.ex(r)
            return [r.t]
        for a in r.args:
            self.ex(a)
        if r.func not in self.funcs or r.set not in self.sets:
            refuse(s.line, UNKNOWN)
        f = self.funcs[r.func]
        d = self.sets[r.set]
        return ("map", f, d)

    def map_rules(self, s, count):
        r = s.right
        f, d = self.funcs[r.func], self.sets[r.set]
        if len(r.args) != f.nargs or len(f.results) != count or any(not is_num(a.t) for a in r.args):
            refuse(s.line, SHAPE)

    def map_sets(self, s):
        r = s.right
        f, d = self.funcs[r.func], self.sets[r.set]
        if f.elem.element != d.element:
            refuse(s.line, SET)
        if f.ends is not None:
            if len(d.ends) != f.ends.count or self.sets[d.ends[0]].element != f.ends.element:
                refuse(s.line, SET)
        for k, at in f.writes:
            res = f.results[k]
            for want, kind in zip([res.rows, res.cols], at):
                have = d.name if kind == "elem" else d.ends[0]
                if have != want:
                    refuse(s.line, SET)

    def map_types(self, f):
        out = []
        for r in f.results:
            if r.cols is None:
                out.append(("V", r.rows, r.block, r.scale))
            else:
                out.append(("M", r.rows, r.cols, r.block, r.scale))
        return out

    def stmt_main(self, s):
        k = s.kind
        if k == "var":
            types = self.right(s, len(s.names), False)
            is_map = isinstance(types, tuple)
            for i, n in enumerate(s.names):
                if self.known(n) or n in s.names[:i]:
                    refuse(s.line, TWICE)
            if is_map:
                self.map_rules(s, len(s.names))
                self.map_sets(s)
                f = types[1]
                for a, p in zip(s.right.args, f.params):
                    if a.t[-1] != p.scale:
                        refuse(s.line, SCALE)
                types = self.map_types(f)
            for n, t in zip(s.names, types):
                self.scopes[-1][n] = ("value", t, "var")
                if t[0] == "M":
                    self.matrix_vars.append(t)
            if not is_map:
                self.uncount(s.right)
        elif k == "assign":
            types = self.right(s, len(s.targets), True)
            is_map = isinstance(types, tuple)
            wants = []
            for name, field in s.targets:
                if field is not None:
                    if name not in self.sets or field not in self.elements[self.sets[name].element]:
                        refuse(s.line, UNKNOWN)
                elif self.find(name) is None:
                    refuse(s.line, UNKNOWN)
            for name, field in s.targets:
                if field is not None:
                    b, sc = self.elements[self.sets[name].element][field]
                    wants.append(("V", name, b, sc))
                else:
                    v = self.find(name)
                    if v[2] != "var" or v[1][0] == "M":
                        refuse(s.line, NOTPLACE)
                    wants.append(v[1])
            if is_map:
                self.map_rules(s, len(s.targets))
                f = types[1]
                types = self.map_types(f)
                for w, t in zip(wants, types):
                    if w[0] != t[0] or w[-2] != t[-2]:
                        refuse(s.line, SHAPE)
                self.map_sets(s)
                for w, t in zip(wants, types):
                    if w[1:-2] != t[1:-2]:
                        refuse(s.line, SET)
                for a, p in zip(s.right.args, f.params):
                    if a.t[-1] != p.scale:
                        refuse(s.line, SCALE)
            for w, t in zip(wants, types):
                self.equal(s.line, w, t)
        elif k == "while":
            self.cond(s.cond)
            self.stmts_main(s.body)
        elif k == "for":
            self.ex(s.lo)
            self.ex(s.hi)
            twice = self.known(s.name)
            self.scopes.append({s.name: ("value", ("L", (), 0), "loop", None)})
            self.stmts_main(s.body)
            self.scopes.pop()
            if twice:
                refuse(s.line, TWICE)
            if not is_num(s.lo.t) or not is_num(s.hi.t):
                refuse(s.line, SHAPE)
            if s.lo.t[-1] != 0 or s.hi.t[-1] != 0:
                refuse(s.line, SCALE)
        elif k == "if":
            self.cond(s.cond)
            self.stmts_main(s.yes)
            self.stmts_main(s.no)
        elif k == "assert":
            self.cond(s.cond)
        self.statement(s.line)

    def uncount(self, node):
        """The right side of a `var` is no counted node."""
        if node.t[0] == "M" and node.kind != "ref":
            self.matrix_nodes.remove(node)

    # conditions; the answer is the cost
    def cond(self, parts):
        cost = 0
        for conj in parts:
            for c in conj:
                cost += self.ex(c.a) + self.ex(c.b)
                if not is_num(c.a.t) or not is_num(c.b.t):
                    refuse(c.line, SHAPE)
                if c.a.t[-1] != c.b.t[-1]:
                    refuse(c.line, SCALE)
        return cost

    def equal(self, line, a, b):
        if a[0] != b[0] or a[-2] != b[-2]:
            refuse(line, SHAPE)
        if a[1:-2] != b[1:-2]:
            refuse(line, SET)
        if a[-1] != b[-1]:
            refuse(line, SCALE)

    # expressions; the answer is the cost
    def ex(self, n):
        cost = getattr(self, "e_" + n.kind)(n)
        if n.t[0] == "M" and n.kind != "ref":
            self.matrix_nodes.append(n)
        return cost

    def e_num(self, n):
        whole, _, dec = n.text.partition(".")
        n.word = int(whole + dec)
        if len(dec) > 18:
            refuse(n.line, SCALE)
        if n.word >= HALF:
            refuse(n.line, LARGE)
        n.t = ("L", (), len(dec))
        return 1

    def indices(self, n, args, sides):
        """Rules of entry indices, whose nodes are typed already; their limits come last."""
        out = []
        for a in args:
            if a.kind == "num" and "." not in a.text:
                out.append(("num", a.text))
            elif a.kind == "ref" and a.field is None and not a.args:
                v = self.find(a.name)
                if v is None or v[0] != "value" or v[2] != "loop" or v[3] is None and self.fn is None:
                    refuse(n.line, NOTCONST)
                out.append(("name", a.name))
            else:
                refuse(n.line, NOTCONST)
        return out

    def e_ref(self, n):
        cost = sum(self.ex(a) for a in n.args) + sum(self.ex(a) for a in n.fargs)
        if n.field is None and n.name in self.hosts:
            self.call(n)
            self.ranked(n)
            return cost + 1
        if self.fn is None:
            if n.field is not None:
                if n.name not in self.sets:
                    refuse(n.line, UNKNOWN)
                fields = self.elements[self.sets[n.name].element]
                if n.field not in fields:
                    refuse(n.line, UNKNOWN)
                if n.args or n.fargs:
                    refuse(n.line, SHAPE)
                b, s = fields[n.field]
                n.t = ("V", n.name, b, s)
                n.what = "field"
                self.ranked(n)
                return cost
            v = self.find(n.name)
            if v is None:
                refuse(n.line, UNKNOWN)
            if n.args:
                refuse(n.line, SHAPE)
            n.t = v[1]
            n.what = "var"
            self.ranked(n)
            return cost
        v = self.find(n.name)
        if v is None:
            refuse(n.line, UNKNOWN)
        if n.field is not None:
            if v[0] not in ("elem", "ends") or n.field not in self.elements[v[1]]:
                refuse(n.line, UNKNOWN)
            b, s = self.elements[v[1]][n.field]
            idx = self.indices(n, n.args, None)
            fidx = self.indices(n, n.fargs, None)
            if len(n.args) != (0 if v[0] == "elem" else 1):
                refuse(n.line, SHAPE)
            if n.fargs and len(n.fargs) != len(b):
                refuse(n.line, SHAPE)
            if n.args:
                self.in_range(n.line, idx[0], v[2])
            n.what = "own" if v[0] == "elem" else "end"
            n.place = idx[0] if idx else None
        else:
            fidx = self.indices(n, n.args, None) if n.args else []
            if v[0] != "value":
                refuse(n.line, SHAPE)
            b, s = v[1][1], v[1][2]
            if n.args and len(n.args) != len(b):
                refuse(n.line, SHAPE)
            n.what = "var"
        for i, side in zip(fidx, b):
            self.in_range(n.line, i, side)
        n.entry = fidx
        n.whole_block = b
        n.t = ("L", () if fidx else b, s)
        return cost + size(n.t[1])

    def call(self, n):
        scales, scale = self.hosts[n.name]
        if len(n.args) != len(scales) or any(not is_num(a.t) for a in n.args):
            refuse(n.line, SHAPE)
        if any(a.t[-1] != s for a, s in zip(n.args, scales)):
            refuse(n.line, SCALE)
        n.what = "host"
        n.t = ("L", (), scale)

    def ranked(self, n):
        if n.rank is not None and n.t[0] != "LVM"[n.rank]:
            refuse(n.line, SHAPE)

    def e_block(self, n):
        cost = 0
        for r in n.rows:
            for e in r:
                cost += self.ex(e)
        if self.fn is None:
            refuse(n.line, SHAPE)
        w = len(n.rows[0])
        if any(len(r) != w for r in n.rows) or any(not is_num(e.t) for r in n.rows for e in r):
            refuse(n.line, SHAPE)
        s = n.rows[0][0].t[-1]
        if any(e.t[-1] != s for r in n.rows for e in r):
            refuse(n.line, SCALE)
        if w > 6 or len(n.rows) > 6:
            refuse(n.line, LARGE)
        b = (w,) if len(n.rows) == 1 else (len(n.rows), w)
        n.t = ("L", b, s)
        return cost + size(b)

    def e_neg(self, n):
        cost = self.ex(n.a)
        n.t = n.a.t
        return cost + (size(n.t[1]) if n.t[0] == "L" else 0)

    def e_add(self, n):
        cost = self.ex(n.a) + self.ex(n.b)
        self.equal(n.line, n.a.t, n.b.t)
        n.t = n.a.t
        return cost + (size(n.t[1]) if n.t[0] == "L" else 0)

    e_sub = e_add

    def e_mul(self, n):
        cost = self.ex(n.a) + self.ex(n.b)
        a, b = n.a.t, n.b.t
        s = a[-1] + b[-1]
        own = None
        if is_num(a):
            t = with_scale(b, s)
            n.how = "left"
        elif is_num(b):
            t = with_scale(a, s)
            n.how = "right"
        elif a[0] == "L" and b[0] == "L":
            if len(a[1]) == 2 and len(b[1]) == 1 and a[1][1] == b[1][0]:
                t = ("L", (a[1][0],), s)
                own = a[1][0] * a[1][1]
                n.how = "mv"
            elif len(a[1]) == 2 and len(b[1]) == 2 and a[1][1] == b[1][0]:
                t = ("L", (a[1][0], b[1][1]), s)
                own = a[1][0] * a[1][1] * b[1][1]
                n.how = "mm"
            else:
                refuse(n.line, SHAPE)
        elif a[0] == "M" and b[0] in ("V", "M"):
            x, y = a[-2], b[-2]
            if b[0] == "V":
                if x == () and y == ():
                    blk = ()
                elif len(x) == 2 and len(y) == 1 and x[1] == y[0]:
                    blk = (x[0],)
                else:
                    refuse(n.line, SHAPE)
                if a[2] != b[1]:
                    refuse(n.line, SET)
                t = ("V", a[1], blk, s)
                n.how = "MV"
            else:
                if x == () and y == ():
                    blk = ()
                elif len(x) == 2 and len(y) == 2 and x[1] == y[0]:
                    blk = (x[0], y[1])
                else:
                    refuse(n.line, SHAPE)
                if a[2] != b[1]:
                    refuse(n.line, SET)
                t = ("M", a[1], b[2], blk, s)
                n.how = "MM"
        else:
            refuse(n.line, SHAPE)
        if s > 36:
            refuse(n.line, SCALE)
        n.t = t
        if own is None:
            own = size(t[1]) if t[0] == "L" else 0
        return cost + own

    def e_emul(self, n):
        cost = self.ex(n.a) + self.ex(n.b)
        a, b = n.a.t, n.b.t
        if a[0] != b[0] or a[0] == "M" or a[-2] != b[-2] or (a[0] == "L" and len(a[1]) != 1):
            refuse(n.line, SHAPE)
        if a[1:-2] != b[1:-2]:
            refuse(n.line, SET)
        s = a[-1] + b[-1]
        if s > 36:
            refuse(n.line, SCALE)
        n.t = with_scale(a, s)
        return cost + (size(a[1]) if a[0] == "L" else 0)

    def e_dot(self, n):
        cost = self.e_emul(n)
        n.t = ("L", (), n.t[-1])
        return cost

    def e_tr(self, n):
        cost = self.ex(n.a)
        a = n.a.t
        if a[0] == "L" and len(a[1]) == 2:
            n.t = ("L", (a[1][1], a[1][0]), a[2])
            return cost + size(a[1])
        if a[0] == "M":
            b = a[3]
            n.t = ("M", a[2], a[1], (b[1], b[0]) if b else (), a[4])
            return cost
        refuse(n.line, SHAPE)

    def e_rescale(self, n):
        cost = self.ex(n.a)
        n.d = self.whole(n.d, n.line)
        if n.d > 36 or abs(n.d - n.a.t[-1]) > 18:
            refuse(n.line, SCALE)
        n.t = with_scale(n.a.t, n.d)
        return cost + (size(n.t[1]) if n.t[0] == "L" else 0)

    def e_quot(self, n):
        cost = self.ex(n.a) + self.ex(n.b)
        n.d = self.whole(n.d, n.line)
        if not is_num(n.a.t) or not is_num(n.b.t):
            refuse(n.line, SHAPE)
        if n.d > 36 or not 0 <= n.d + n.b.t[-1] - n.a.t[-1] <= 18:
            refuse(n.line, SCALE)
        n.t = ("L", (), n.d)
        return cost + 1

    def e_isqrt(self, n):
        cost = self.ex(n.a)
        n.d = self.whole(n.d, n.line)
        if not is_num(n.a.t):
            refuse(n.line, SHAPE)
        if n.d > 36 or not 0 <= 2 * n.d - n.a.t[-1] <= 18:
            refuse(n.line, SCALE)
        n.t = ("L", (), n.d)
        return cost + 1


# ------------------------------------------------------------------ tables

class SetData:
    def __init__(self, decl, fields, over):
        self.decl = decl
        self.fields = fields        # name -> (block, scale), in order
        self.over = over            # the endpoints' SetData or None
        self.count = 0
        self.ends = []              # one list of endpoints per element
        self.values = {f: [] for f in fields}     # flat lists of words

    def headings(self):
        out = ["p%d" % k for k in range(len(self.decl.ends))]
        for f, (b, s) in self.fields.items():
            if b == ():
                out.append(f)
            elif len(b) == 1:
                out += ["%s.%d" % (f, i) for i in range(b[0])]
            else:
                out += ["%s.%d.%d" % (f, i, j) for i in range(b[0]) for j in range(b[1])]
        return out

    def text(self):
        out = ["set " + self.decl.name, ",".join(self.headings())]
        for e in range(self.count):
            cells = [str(v) for v in (self.ends[e] if self.decl.ends else [])]
            for f, (b, s) in self.fields.items():
                n = size(b)
                cells += [cell_text(s, w) for w in self.values[f][e * n:e * n + n]]
            out.append(",".join(cells))
        return "\n".join(out) + "\n"


def read_table(data, file):
    try:
        raw = open(file, "rb").read()
    except OSError:
        raise Ending(3, "read fault: " + file)
    if len(raw) > 67108864:
        raise Ending(7, "limit: %s is over 67108864 bytes" % file)
    if raw[:3] == b"\xef\xbb\xbf":
        raw = raw[3:]
    rows = [r for r in csv.reader(io.StringIO(raw.decode("latin-1"), newline="")) if r]
    head = data.headings()
    if not rows:
        raise Ending(2, "refused: %s: no header" % file)
    have = [c.strip(" ") for c in rows[0]]
    for k in range(max(len(have), len(head))):
        if k >= len(have) or k >= len(head) or have[k] != head[k]:
            raise Ending(2, "refused: %s row 0, column %d: header" % (file, k))
    arity = len(data.decl.ends)
    scales = []
    for f, (b, s) in data.fields.items():
        scales += [s] * size(b)
    for r, row in enumerate(rows[1:], 1):
        if r > 1048576:
            raise Ending(2, "refused: %s: more than 1048576 rows" % file)
        if len(row) != len(head):
            raise Ending(2, "refused: %s row %d: width" % (file, r))
        words = []
        for c, cell in enumerate(row):
            w = read_cell(0 if c < arity else scales[c - arity], cell)
            if c < arity and not isinstance(w, str) and not 0 <= signed(w) < data.over.count:
                w = "no such endpoint"
            if isinstance(w, str):
                raise Ending(2, "refused: %s row %d, column %d: %s" % (file, r, c, w))
            words.append(w)
        data.ends.append(words[:arity])
        k = arity
        for f, (b, s) in data.fields.items():
            data.values[f] += words[k:k + size(b)]
            k += size(b)
        data.count += 1


# ------------------------------------------------------------------ values

def lincomb(op, a, b):
    """Entry by entry on numbers, lists, and lists of lists."""
    if isinstance(a, int):
        return op(a, b) & MASK
    if a and isinstance(a[0], list):
        return [[op(x, y) & MASK for x, y in zip(p, q)] for p, q in zip(a, b)]
    return [op(x, y) & MASK for x, y in zip(a, b)]


def each(f, a):
    if isinstance(a, int):
        return f(a)
    if a and isinstance(a[0], list):
        return [[f(x) for x in row] for row in a]
    return [f(x) for x in a]


def dotted(a, b):
    return sum(map(operator.mul, a, b)) & MASK


class Run:
    def __init__(self, types, sets, turns):
        self.types = types
        self.sets = sets
        self.left = turns
        self.vars = {}

    def sides(self, t):
        """Dense rows and columns of a system matrix type."""
        b = t[3] if t[3] else (1, 1)
        return self.sets[t[1]].count * b[0], self.sets[t[2]].count * b[1]

    # index expressions
    def ranges(self, term):
        """How many values each index of a term has: the pairs of an element and a component of its block."""
        out = {}
        for a in term.atoms:
            if a.indices:
                t = a.made.t
                counts = self.sides(t) if t[0] == "M" else [self.sets[t[1]].count * size(t[2])]
                for name, n in zip(a.indices, counts):
                    assert out.setdefault(name, n) == n
        return out

    def atom(self, a):
        if a.kind == "ixnum":
            return int(a.text.replace(".", ""))
        return self.vars[a.name] if a.field is None else self.sets[a.name].values[a.field]

    def products(self, term, at):
        """The sum over all values of the summed indices of the product of the atoms, the free indices being `at`."""
        ranges = self.ranges(term)
        values = [(a.indices, self.atom(a)) for a in term.atoms]
        summed = [x for x in ranges if x not in at]
        known = dict(at)

        def total(depth, product):
            for indices, v in ready[depth]:
                for x in indices:
                    v = v[known[x]]
                product = product * v & MASK
            if product == 0 or depth == len(summed):
                return product
            out = 0
            for known[summed[depth]] in range(ranges[summed[depth]]):
                out += total(depth + 1, product)
            return out

        ready = [[] for _ in range(len(summed) + 1)]
        for indices, v in values:
            ready[max([summed.index(x) + 1 for x in indices if x in summed], default=0)].append((indices, v))
        return total(0, 1) & MASK

    def sums(self, ix):
        """The value of an index expression: at its free indices the sum of its terms."""
        ranges = self.ranges(ix.terms[0])

        def entry(at):
            return sum((-1 if t.minus else 1) * self.products(t, at) for t in ix.terms) & MASK

        if len(ix.free) == 0:
            return entry({})
        i = ix.free[0]
        if len(ix.free) == 1:
            return [entry({i: x}) for x in range(ranges[i])]
        j = ix.free[1]
        return [[entry({i: x, j: y}) for y in range(ranges[j])] for x in range(ranges[i])]

    # expressions of main
    def ev(self, n):
        if n.ix is not None:
            return self.sums(n.ix)
        k = n.kind
        if k == "num":
            return n.word
        if k == "ref":
            if n.what == "host":
                return w_host(n.name, [self.ev(a) for a in n.args])
            return self.sets[n.name].values[n.field] if n.what == "field" else self.vars[n.name]
        if k == "neg":
            return each(lambda x: -x & MASK, self.ev(n.a))
        if k == "add":
            a = self.ev(n.a)
            return lincomb(operator.add, a, self.ev(n.b))
        if k == "sub":
            a = self.ev(n.a)
            return lincomb(operator.sub, a, self.ev(n.b))
        if k == "mul":
            a = self.ev(n.a)
            b = self.ev(n.b)
            if n.how == "left":
                return each(lambda x: a * x & MASK, b)
            if n.how == "right":
                return each(lambda x: x * b & MASK, a)
            if n.how == "MV":
                return [dotted(row, b) for row in a]
            columns = self.columns(b, n.b.t)
            return [[dotted(row, c) for c in columns] for row in a]
        if k == "emul":
            a = self.ev(n.a)
            return lincomb(operator.mul, a, self.ev(n.b))
        if k == "dot":
            a = self.ev(n.a)
            return dotted(a, self.ev(n.b))
        if k == "tr":
            return self.columns(self.ev(n.a), n.a.t)
        if k == "rescale":
            s, d = n.a.t[-1], n.d
            return each(lambda x: w_rescale(x, s, d), self.ev(n.a))
        if k == "quot":
            a = self.ev(n.a)
            b = self.ev(n.b)
            return w_quot(a, n.a.t[-1], b, n.b.t[-1], n.d)
        if k == "isqrt":
            return w_isqrt(self.ev(n.a), n.a.t[-1], n.d)
        raise AssertionError(k)

    def columns(self, rows, t):
        r, c = self.sides(t)
        if r == 0:
            return [[] for _ in range(c)]
        return [list(col) for col in zip(*rows)]

    def truth(self, cond, ev):
        answer = False
        for conj in cond:
            all_ = True
            for c in conj:
                a = signed(ev(c.a))
                b = signed(ev(c.b))
                v = {"==": a == b, "!=": a != b, "<": a < b, "<=": a <= b, ">": a > b, ">=": a >= b}[c.op]
                if v == c.neg:
                    all_ = False
            if all_:
                answer = True
        return answer

    # statements of main
    def go(self, body):
        for s in body:
            try:
                self.step(s)
            except Trap as t:
                if t.line is None:
                    t.line = s.line
                raise

    def turn(self):
        if self.left == 0:
            raise Spent()
        self.left -= 1

    def step(self, s):
        k = s.kind
        if k == "var":
            for n, v in zip(s.names, self.right(s.right)):
                self.vars[n] = v
        elif k == "assign":
            for (name, field), v in zip(s.targets, self.right(s.right)):
                if field is None:
                    self.vars[name] = v
                else:
                    self.sets[name].values[field] = v
        elif k == "while":
            while self.truth(s.cond, self.ev):
                self.turn()
                self.go(s.body)
        elif k == "for":
            a = signed(self.ev(s.lo))
            b = signed(self.ev(s.hi))
            while a < b:
                self.turn()
                self.vars[s.name] = a & MASK
                self.go(s.body)
                a += 1
        elif k == "if":
            self.go(s.yes if self.truth(s.cond, self.ev) else s.no)
        elif k == "assert":
            if not self.truth(s.cond, self.ev):
                raise Trap("assertion failed")

    def right(self, r):
        if r.kind != "map":
            return [self.ev(r)]
        args = [self.ev(a) for a in r.args]
        f = self.types.funcs[r.func]
        data = self.sets[r.set]
        out = []
        for res, t in zip(f.results, self.types.map_types(f)):
            if res.cols is None:
                out.append([0] * (self.sets[res.rows].count * size(res.block)))
            else:
                rows, cols = self.sides(t)
                out.append([[0] * cols for _ in range(rows)])
        for e in range(data.count):
            el = Element(self, f, data, e, args)
            try:
                el.go(f.body)
            except Trap as t:
                t.element = e
                raise
            for k, place, block in el.puts:
                res = f.results[k]
                if res.cols is None:
                    n = size(res.block)
                    v = out[k]
                    base = place[0] * n
                    for i, w in enumerate(block):
                        v[base + i] = (v[base + i] + w) & MASK
                else:
                    h, w_ = res.block if res.block else (1, 1)
                    m = out[k]
                    for i in range(h):
                        row = m[place[0] * h + i]
                        for j in range(w_):
                            c = place[1] * w_ + j
                            row[c] = (row[c] + block[i * w_ + j]) & MASK
        return out


class Element:
    """One element's run of a function: values are numbers or flat lists, row by row."""

    def __init__(self, run, f, data, e, args):
        self.run = run
        self.f = f
        self.data = data
        self.e = e
        self.vars = {p.name: w for p, w in zip(f.params, args)}
        self.puts = []

    def index(self, i):
        return int(i[1]) if i[0] == "num" else self.vars[i[1]]

    def go(self, body):
        for s in body:
            k = s.kind
            if k in ("fvar", "fassign"):
                self.vars[s.name] = self.ev(s.value)
            elif k == "write":
                v = self.ev(s.value)
                at = []
                for p in s.at:
                    at.append(self.e if p[0] == "elem" else self.data.ends[self.e][self.index(p[1])])
                self.puts.append((s.result, at, [v] if isinstance(v, int) else v))
            elif k == "cfor":
                for i in range(s.lo, s.hi):
                    self.vars[s.name] = i
                    self.go(s.body)
            elif k == "if":
                self.go(s.yes if self.run.truth(s.cond, self.ev) else s.no)
            elif k == "assert":
                if not self.run.truth(s.cond, self.ev):
                    raise Trap("assertion failed")

    def ev(self, n):
        k = n.kind
        if k == "num":
            return n.word
        if k == "ref":
            if n.what == "host":
                return w_host(n.name, [self.ev(a) for a in n.args])
            if n.what == "var":
                v = self.vars[n.name]
            else:
                data, e = self.data, self.e
                if n.what == "end":
                    e = data.ends[e][self.index(n.place)]
                    data = data.over
                b = size(n.whole_block)
                v = data.values[n.field][e * b:e * b + b]
                if n.whole_block == ():
                    v = v[0]
            if n.entry:
                at = self.index(n.entry[0])
                if len(n.entry) == 2:
                    at = at * n.whole_block[1] + self.index(n.entry[1])
                v = v[at]
            return v
        if k == "block":
            return [self.ev(e) for row in n.rows for e in row]
        if k == "neg":
            return each(lambda x: -x & MASK, self.ev(n.a))
        if k == "add":
            a = self.ev(n.a)
            return lincomb(operator.add, a, self.ev(n.b))
        if k == "sub":
            a = self.ev(n.a)
            return lincomb(operator.sub, a, self.ev(n.b))
        if k == "mul":
            a = self.ev(n.a)
            b = self.ev(n.b)
            if n.how == "left":
                return each(lambda x: a * x & MASK, b)
            if n.how == "right":
                return each(lambda x: x * b & MASK, a)
            h, m = n.a.t[1]
            w = n.b.t[1][1] if n.how == "mm" else 1
            return [sum(a[i * m + j] * b[j * w + c] for j in range(m)) & MASK
                    for i in range(h) for c in range(w)]
        if k == "emul":
            a = self.ev(n.a)
            return lincomb(operator.mul, a, self.ev(n.b))
        if k == "dot":
            a = self.ev(n.a)
            return dotted(a, self.ev(n.b))
        if k == "tr":
            a = self.ev(n.a)
            h, w = n.a.t[1]
            return [a[i * w + j] for j in range(w) for i in range(h)]
        if k == "rescale":
            s, d = n.a.t[-1], n.d
            return each(lambda x: w_rescale(x, s, d), self.ev(n.a))
        if k == "quot":
            a = self.ev(n.a)
            b = self.ev(n.b)
            return w_quot(a, n.a.t[-1], b, n.b.t[-1], n.d)
        if k == "isqrt":
            return w_isqrt(self.ev(n.a), n.a.t[-1], n.d)
        raise AssertionError(k)


# ------------------------------------------------------------------ the whole

def dense_words(types, sets):
    total = 0
    for t in types.matrix_vars + [n.t for n in types.matrix_nodes]:
        total += sets[t[1]].count * sets[t[2]].count * size(t[3])
    return total


def whole(program, files, turns, stats=None):
    try:
        raw = open(program, "rb").read()
    except OSError:
        raise Ending(3, "read fault: " + program)
    if len(raw) > 1048576:
        raise Ending(7, "limit: %s is over 1048576 bytes" % program)
    decls, body = Parser(lex(raw.decode("latin-1"))).program()
    lower(body)
    types = Types(decls, body)
    if len(files) != len(types.set_order):
        raise Ending(2, "refused: %d files for %d sets" % (len(files), len(types.set_order)))
    sets = {}
    for name, file in zip(types.set_order, files):
        d = types.sets[name]
        data = SetData(d, types.elements[d.element], sets[d.ends[0]] if d.ends else None)
        read_table(data, file)
        sets[name] = data
    words = dense_words(types, sets)
    if stats is not None:
        stats["dense"] = words
    if words > DENSE:
        raise Ending(7, "limit: dense words over %d" % DENSE)
    run = Run(types, sets, turns)
    try:
        run.go(body)
    except Trap as t:
        where = "line %d" % t.line
        if t.element is not None:
            where += ", element %d" % t.element
        raise Ending(5, "trap at %s: %s" % (where, t.kind))
    except Spent:
        raise Ending(6, "spent: %d turns" % turns)
    return "".join(sets[n].text() for n in types.set_order)


def main(words):
    turns = 100000
    files = []
    i = 0
    usage = "usage: simit run|plan|plain PROGRAM SETS.. or simit make SEED N"
    while i < len(words):
        w = words[i]
        if w == "--turns" and i + 1 < len(words) and words[i + 1].isdigit():
            turns = int(words[i + 1])
            i += 2
        elif w.startswith("--turns=") and w[8:].isdigit():
            turns = int(w[8:])
            i += 1
        elif len(w) > 1 and w.startswith("-") or w == "":
            return 2, "", usage
        else:
            files.append(w)
            i += 1
    if not files or turns > 1048576:
        return 2, "", usage
    try:
        return 0, whole(files[0], files[1:], turns), None
    except Ending as e:
        return e.status, "", e.note


if __name__ == "__main__":
    sys.setrecursionlimit(100000)
    status, out, note = main(sys.argv[1:])
    sys.stdout.write(out)
    if note is not None:
        sys.stderr.write(note + "\n")
    sys.exit(status)
