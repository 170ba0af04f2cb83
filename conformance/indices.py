"""The programs with index expressions that are written by hand: values by the matrix products of second.py, refusals by
hand.  `programs` is called by build.py."""
import random
import re
import reference
from second import *

PRE = """element N
  u : vector[2](int(0));
  v : vector[3](int(0));
  z : int(0);
  y : int(0);
  s : int(1);
  q : matrix[2,2](int(0));
end
element L
  m : matrix[2,3](int(0));
  n : matrix[3,2](int(0));
  k : int(0);
  w : int(0);
end
extern ns : set{N};
extern ls : set{L}(ns, ns);
func all(s : L, p : (N*2)) ->
    (A : matrix[ns,ns](matrix[2,3](int(0))), B : matrix[ns,ns](matrix[3,2](int(0))),
     K : matrix[ns,ns](int(0)), G : matrix[ls,ns](int(0)))
  A(p(0),p(1)) = s.m;
  A(p(1),p(1)) = s.k * s.m;
  B(p(0),p(1)) = s.n;
  B(p(1),p(0)) = s.m';
  K(p(0),p(1)) = s.k;
  K(p(1),p(0)) = 1;
  G(s,p(0)) = -s.k;
  G(s,p(1)) = 1;
end
proc main
  var A, B, K, G = map all to ls reduce +;
"""
NODES, LINKS = 3, 4
NODE_BLOCKS = {"u": (2,), "v": (3,), "z": (), "y": (), "s": (), "q": (2, 2)}
LINK_BLOCKS = {"m": (2, 3), "n": (3, 2), "k": (), "w": ()}
# what a matrix goes from and to: the fields whose vectors fit at its rows and columns
MATRICES = {"A": ("u", "v"), "B": ("v", "u"), "K": ("z", "z"), "G": ("k", "z")}
VECTORS = {"u": ["ns.u"], "v": ["ns.v"], "z": ["ns.z", "ns.y"], "k": ["ls.k", "ls.w"]}
NAMES = ["a", "b", "c", "d", "e", "f", "g", "h", "K", "ns", "N", "all", "x_1", "u", "_"]


def data(seed, big=False):
    """What the names stand for, and the tables."""
    r = random.Random(seed)
    most = 3 * 10 ** 18 if big else 9
    st = {}
    for f, b in NODE_BLOCKS.items():
        st["ns." + f] = {(i,) + x: r.randint(-most, most) for i in range(NODES) for x in bidx(b)}
    for f, b in LINK_BLOCKS.items():
        st["ls." + f] = {(i,) + x: r.randint(-most, most) for i in range(LINKS) for x in bidx(b)}
    ends = [(r.randrange(NODES), r.randrange(NODES)) for _ in range(LINKS)]
    st["A"], st["B"] = mzero(NODES, NODES, (2, 3)), mzero(NODES, NODES, (3, 2))
    st["K"], st["G"] = mzero(NODES, NODES, ()), mzero(LINKS, NODES, ())
    for e, (p, t) in enumerate(ends):
        m = {x: st["ls.m"][(e,) + x] for x in bidx((2, 3))}
        n = {x: st["ls.n"][(e,) + x] for x in bidx((3, 2))}
        k = st["ls.k"][e,]
        put(st["A"], (p, t), m)
        put(st["A"], (t, t), scal(k, m))
        put(st["B"], (p, t), n)
        put(st["B"], (t, p), ltr(m))
        put(st["K"], (p, t), k)
        put(st["K"], (t, p), 1)
        put(st["G"], (e, p), -k)
        put(st["G"], (e, t), 1)
    return st, [("ns", text(st, "ns", NODE_BLOCKS, [[]] * NODES)), ("ls", text(st, "ls", LINK_BLOCKS, ends))]


def text(st, name, shape, ends):
    heads = ["p%d" % i for i in range(len(ends[0]))]
    heads += [f + "".join(".%d" % i for i in x) for f, b in shape.items() for x in bidx(b)]
    out = [",".join(heads)]
    for e, places in enumerate(ends):
        cells = [str(p) for p in places]
        cells += [cell(st["%s.%s" % (name, f)][(e,) + x], int(f == "s")) for f, b in shape.items() for x in bidx(b)]
        out.append(",".join(cells))
    return "".join(line + "\n" for line in out)


def column(field, v):
    """A field's columns as `case` wants them."""
    shape = {**{"ns." + f: b for f, b in NODE_BLOCKS.items()}, **{"ls." + f: b for f, b in LINK_BLOCKS.items()}}
    count = NODES if field[0] == "n" else LINKS
    return {field + "".join(".%d" % i for i in x): [cell(v[(e,) + x], int(field == "ns.s")) for e in range(count)]
            for x in bidx(shape[field])}


def zero(field):
    return vzero(NODES if field[0] == "n" else LINKS, (NODE_BLOCKS if field[0] == "n" else LINK_BLOCKS)[field[3:]])


class Term:
    """A random term in chain form, with its factors in any order."""

    def __init__(self, r, numbers=0):
        self.r = r
        self.names = r.sample(NAMES, len(NAMES))
        self.factors = ["%d" % r.choice([2, 3, 5, 7]) for _ in range(numbers)]

    def step(self, space, only):
        """A matrix one of whose sides lies over this space: its name, whether it is turned, and the space of its other side."""
        ways = [(m, False, b) for m, (a, b) in MATRICES.items() if a == space and m in only]
        ways += [(m, True, a) for m, (a, b) in MATRICES.items() if b == space and m in only]
        return self.r.choice(ways)

    def matrix(self, name, turned, here, there):
        self.factors.append("%s(%s,%s)" % ((name, there, here) if turned else (name, here, there)))

    def walk(self, space, here, count, only):
        for _ in range(count):
            name, turned, space = self.step(space, only)
            there = self.names.pop()
            self.matrix(name, turned, here, there)
            here = there
        return space, here

    def group(self, space, here, matrices, only="ABKG"):
        space, here = self.walk(space, here, matrices, only)
        self.factors.append("%s(%s)" % (self.r.choice(VECTORS[space]), here))

    def form(self, space, matrices, only="ABKG"):
        here = self.names.pop()
        self.factors.append("%s(%s)" % (self.r.choice(VECTORS[space]), here))
        self.group(space, here, matrices, only)

    def between(self, space, i, j, matrices, only="ABKG"):
        """Matrices from one free index to the other; the space of the last."""
        space, here = self.walk(space, i, matrices - 1, only)
        name, turned, space = self.step(space, only)
        self.matrix(name, turned, here, j)
        return space

    def text(self):
        self.r.shuffle(self.factors)
        return "*".join(self.factors)


def same_chains():
    """Trying every order of a term's factors and following the indices that they share find the same chains."""
    r = random.Random(1)
    found = 0
    for _ in range(6000):
        free = r.choice([[], ["i"], ["i", "j"], ["i", "i"]])
        t = Term(r)
        if len(free) == 0:
            t.form("z", r.randint(0, 3), "K")
        elif len(free) == 1:
            for _ in range(r.randint(1, 2)):
                t.group("z", "i", r.randint(0, 2), "K")
        else:
            t.between("z", free[0], free[1], r.randint(1, 4), "K")
        factors = [(f, re.findall(r"\w+", f[f.index("(") + 1:])) for f in t.factors]
        names = sorted({x for _, at in factors for x in at})
        for _ in range(r.choice([0, 0, 1, 1, 2])):
            change = r.randrange(4)
            at = r.choice(factors)[1]
            if change == 0:
                at[r.randrange(len(at))] = r.choice(names)
            elif change == 1:
                factors.append(("more", r.sample(names + ["q", "r"], r.randint(1, 2))))
            elif change == 2 and len(factors) > 1:
                factors.pop(r.randrange(len(factors)))
            else:
                factors += [("m", ["q", "r"]), ("n", ["r", "q"])]
        r.shuffle(factors)
        atoms = [reference.N("ixref", 1, name=name, field=None, indices=at) for name, at in factors[:6]]
        term = reference.N("ixterm", 1, minus=False, atoms=atoms)
        both = [reference.chain(free, term, way) for way in (reference.every_order, reference.shared_indices)]
        assert both[0] == both[1], (free, factors)
        found += both[0] is not None
    assert 1000 < found < 5000, found


def programs(case, B, ps):
    same_chains()
    first = PRE.count("\n")

    def to_field(name, field, ix, seed=1, big=False, before="", more={}):
        st, tables = data(seed, big)
        case("index", "ix_" + name, PRE + before + "  %s = %s;\nend\n" % (field, ix), tables,
             column(field, products(ix, {**st, **more})))

    def to_scalar(name, ix, seed=1, big=False, before="", more={}):
        st, tables = data(seed, big)
        case("index", "ix_" + name, PRE + before + "  var answer = %s;\n  ns.z = answer*ns.y;\nend\n" % ix, tables,
             column("ns.z", scal(products(ix, {**st, **more}), st["ns.y"])))

    def to_matrix(name, field, ix, operand, seed=1, big=False, before="", more={}):
        st, tables = data(seed, big)
        case("index", "ix_" + name, PRE + before + "  var answer = %s;\n  %s = answer*%s;\nend\n" % (ix, field, operand), tables,
             column(field, smv(products(ix, {**st, **more}), st[operand], zero(field))))

    # ------------------------------------------------------------ the rows
    def row(name, ix, want):
        case("index", "ix_" + name, B.replace("-(K*points.x)", ix), ps(), want)

    row("entrywise", "ix (i) points.x(i)*points.x(i)", {"points.f": [0, 100, 625]})
    row("transposed", "ix (i) 2*K(j,i)*points.x(j)", {"points.f": [-40, -50, 90]})
    row("matrix_without_index", "ix (i) K*points.x(i)", "refused: line 18: shape")
    row("diagonal", "ix (i) K(i,i)*points.x(i)", "refused: line 18: not a chain")

    # ------------------------------------------------------------ one to nine factors, in any order of the text
    for n in range(1, 10):
        only = "ABKG" if n <= 5 else "KG"
        r = random.Random(n)
        spaces = "uvzk" if n <= 5 else "zk"
        if n >= 2:
            t = Term(r, n % 3)
            t.form(r.choice(spaces), n - 2, only)
            to_scalar("scalar_%d" % n, "ix () " + t.text(), n)
        t = Term(r, (n + 1) % 3)
        space = r.choice(spaces)
        t.group(space, "i", n - 1, only)
        to_field("vector_%d" % n, VECTORS[space][0], "ix (i) " + t.text(), n)
        t = Term(r, (n + 2) % 3)
        space = r.choice(spaces)
        end = t.between(space, "i", "j", n, only)
        to_matrix("matrix_%d" % n, VECTORS[space][0], "ix (i, j) " + t.text(),
                  VECTORS[end][0], n)

    # ------------------------------------------------------------ groups, joined entry by entry
    to_field("groups_2", "ns.z", "ix (i) ns.z(i)*ns.y(i)")
    to_field("groups_3", "ns.u", "ix (i) ns.u(i)*ns.u(i)*ns.u(i)")
    to_field("groups_matrix", "ns.u", "ix (i) A(i,j)*ns.u(i)*ns.v(j)")
    to_field("groups_nested", "ns.z", "ix (i) ns.z(b)*K(i,a)*ns.y(i)*K(b,a)*3")
    to_field("groups_two_chains", "ns.v", "ix (i) A(a,i)*B(i,b)*ns.u(b)*ns.u(a)")
    to_field("groups_mixed", "ls.k", "ix (e) ns.y(t)*2*G(e,p)*ls.w(e)*G(e,t)*ns.z(p)*ls.k(e)")
    to_field("groups_many", "ns.z", "ix (i) ns.z(i)*K(b,i)*ns.y(a)*ns.y(b)*ns.z(i)*K(i,a)*ns.y(i)", 4)
    to_field("groups_blocks_of_matrices", "ns.q", "ix (i) ns.q(i)*ns.q(i) - 2*ns.q(i)")
    to_field("groups_wrap", "ns.v", "ix (i) ns.v(i)*B(i,j)*ns.u(j)*ns.v(i)", 3, True)

    # ------------------------------------------------------------ matrices with and against the order
    to_field("once_each_way", "ns.z", "ix (i) K(i,a)*K(b,a)*ns.z(b)", 2)
    to_field("other_each_way", "ns.z", "ix (i) K(a,i)*K(a,b)*ns.z(b)", 2)
    to_field("blocks_with", "ns.u", "ix (i) A(i,j)*ns.v(j)")
    to_field("blocks_against", "ns.v", "ix (i) A(j,i)*ns.u(j)")
    to_field("blocks_both", "ns.u", "ix (i) A(i,a)*B(a,b)*B(c,b)*ns.v(c)")
    to_field("blocks_square", "ns.v", "ix (i) A(a,i)*A(a,b)*ns.v(b)")
    to_scalar("blocks_form", "ix () ns.u(a)*A(a,b)*ns.v(b)")
    to_scalar("blocks_form_turned", "ix () ns.v(b)*A(a,b)*ns.u(a)")
    to_matrix("blocks_product", "ns.u", "ix (i,j) A(i,a)*A(j,a)", "ns.u")
    to_matrix("blocks_transpose", "ns.v", "ix (i,j) A(j,i)", "ns.u")
    to_matrix("blocks_three", "ns.u", "ix (i,j) B(j,c)*A(i,a)*A(c,a)", "ns.v")
    to_matrix("free_exchanged", "ns.z", "ix (j,i) K(i,j)", "ns.z", 5)
    to_matrix("matrix_itself", "ns.z", "ix (i,j) K(i,j)", "ns.z", 5)
    to_matrix("gram", "ns.z", "ix (p,t) G(e,p)*G(e,t)", "ns.y")
    to_matrix("gram_turned", "ls.k", "ix (e,f) G(e,p)*G(f,p)", "ls.w")
    to_matrix("gram_wrap", "ls.k", "ix (e,f) G(e,p)*K(p,t)*G(f,t)", "ls.w", 6, True)
    to_field("form_wrap", "ns.v", "ix (i) ns.u(b)*B(i,b)*3 - A(b,i)*ns.u(b)", 7, True)
    to_scalar("dot_blocks_of_matrices", "ix () ns.q(a)*ns.q(a)")
    to_scalar("dot_wrap", "ix () ns.v(a)*ns.v(a)", 8, True)

    # ------------------------------------------------------------ scalars and numbers
    two = "  var c = 7;\n  var d = 0 - 3;\n"
    known = {"c": 7, "d": -3}
    to_field("number_first", "ns.z", "ix (i) 2*K(i,j)*ns.z(j)")
    to_field("number_between", "ns.z", "ix (i) K(i,j)*2*ns.z(j)")
    to_field("number_last", "ns.z", "ix (i) K(i,j)*ns.z(j)*2")
    to_field("scalars_everywhere", "ns.z", "ix (i) c*K(i,j)*2*c*ns.z(j)*d*ns.y(i)*5", 1, False, two, known)
    to_matrix("scalars_matrix", "ns.u", "ix (i,j) d*A(i,a)*2*B(a,j)*c", "ns.u", 1, False, two, known)
    to_scalar("scalars_dot", "ix () ns.v(a)*c*ns.v(a)*d", 1, False, two, known)
    to_scalar("numbers_alone", "ix () 2*3*7")
    to_scalar("number_alone", "ix () 5")
    to_scalar("number_negative", "ix () -5")
    to_scalar("scalars_alone", "ix () c*d*c - 2*d + c", 1, False, two, known)
    to_scalar("large_number", "ix () 9223372036854775807*4 + 9223372036854775807")
    to_field("number_zero", "ns.z", "ix (i) 0*K(i,j)*ns.z(j) + ns.y(i)")
    st, tables = data(1)
    case("index", "ix_scales", PRE + "  ns.s = ix (i) 2*ns.s(i) + 0.5*ns.z(i)*1 - K(i,j)*ns.s(j);\nend\n", tables, column("ns.s",
         products("ix (i) 2*a(i) + 5*z(i) - K(i,j)*a(j)", {"a": st["ns.s"], "z": st["ns.z"], "K": st["K"]})))
    case("index", "ix_scales_many", PRE + "  var t = ix () 0.25*ns.s(a)*K(a,b)*0.1*ns.s(b)*1.00;\n  ns.s = rescale(t*ns.z, 1);\nend\n",
         tables, column("ns.s", resc(scal(wrap(2500 * dot(st["ns.s"], smv(st["K"], st["ns.s"], vzero(NODES, ())))), st["ns.z"]), 7, 1)))

    # ------------------------------------------------------------ signs and several terms
    to_field("minus_first_alone", "ns.z", "ix (i) -ns.z(i) + ns.y(i) + ns.y(i)")
    to_field("minus_second", "ns.z", "ix (i) ns.z(i) - K(i,j)*ns.y(j) - 2*ns.y(i)")
    to_field("minus_both", "ns.u", "ix (i) -ns.u(i) - A(i,j)*ns.v(j)")
    to_field("same_summed_name", "ns.z", "ix (i) K(i,j)*ns.y(j) + K(j,i)*ns.z(j) - G(j,i)*ls.k(j)")
    to_scalar("terms_scalar", "ix () ns.z(a)*ns.y(a) - 4 + ns.u(a)*A(a,b)*ns.v(b) - ls.k(a)*ls.w(a)")
    to_matrix("terms_matrix", "ns.z", "ix (i,j) -K(i,j) + 2*K(j,i) - G(a,i)*G(a,j) + K(i,j)*3", "ns.y")
    to_matrix("terms_blocks", "ns.u", "ix (i,j) A(i,j) - B(j,i) + A(i,a)*B(a,b)*A(b,j)", "ns.v")
    to_field("free_name_summed_before", "ns.z", "ix (j) K(j,i)*ns.y(i) + K(i,j)*ns.z(i)")
    names = "  var i = 3;\n  var j = 5;\n"
    to_field("names_of_variables", "ns.z", "ix (i) K(i,j)*ns.z(j)*j", 1, False, names, {"i": 3, "j": 5})
    to_field("names_of_sets", "ns.z", "ix (ns) K(ns,all)*ns.z(all)", 1)
    to_field("sixteen_terms", "ns.z", "ix (i) " + " + ".join("%d*K(i,a)*K(b,a)*ns.z(b) - K(b,i)*ns.y(b)" % k for k in range(8)))

    # ------------------------------------------------------------ where they stand
    def stands(name, body, want):
        st, tables = data(1)
        case("index", "ix_" + name, PRE + body + "end\n", tables, column("ns.z", want(st)))

    def power(st, count, turned=False):
        v = st["ns.z"]
        for _ in range(count):
            v = smv(strn(st["K"]) if turned else st["K"], v, vzero(NODES, ()))
        return v

    stands("lines", "  ns.z\n   =\n   ix\n (\ni\n)\n -\n2\n*\nK(\ni,\nj)\n* ns\n.z(j)\n;\n", lambda st: scal(-2, power(st, 1)))
    stands("in_for", "  for j in 0:3\n    ns.z = ix (i) j*K(i,j)*ns.z(j) + K(i,j)*ns.z(j);\n  end\n", lambda st: scal(6, power(st, 3)))
    stands("in_while", "  var d = 0;\n  while d < 2\n    ns.z = ix (i) K(i,d)*ns.z(d);\n    d = ix () d + 1;\n  end\n", lambda st: power(st, 2))
    stands("in_if", "  if dot(ns.z, ns.z) > 0\n    ns.z = ix (i) K(i,j)*ns.z(j);\n  else\n    ns.z = ix (i) ns.z(i)*ns.z(i);\n  end\n",
           lambda st: power(st, 1))
    stands("in_else", "  if 1 == 2\n    ns.z = ix (i) K(i,j)*ns.z(j);\n  else\n    ns.z = ix (i) ns.z(i)*ns.y(i);\n  end\n",
           lambda st: emul(st["ns.z"], st["ns.y"]))
    stands("var_and_again", "  var t = ix (i) K(i,j)*ns.z(j);\n  t = ix (i) K(i,j)*t(j);\n  ns.z = ix (i) t(i)*2;\n", lambda st: scal(2, power(st, 2)))
    stands("var_matrix_again", "  var P = ix (i,j) K(i,a)*K(a,j);\n  var Q = ix (i,j) P(a,i)*K(j,a);\n  ns.z = ix (i) Q(i,a)*ns.z(a);\n",
           lambda st: power(st, 3, True))
    stands("field_read_and_written", "  ns.z = ix (i) K(i,j)*ns.z(j)*ns.z(i);\n", lambda st: emul(power(st, 1), st["ns.z"]))
    stands("matrix_keeps", "  var P = ix (i,j) K(j,i);\n  ls.k = 0*ls.k;\n  ns.z = ix (i) P(j,i)*ns.z(j);\n", lambda st: power(st, 1))
    stands("scalar_again", "  var d = ix () 3;\n  d = ix () d*d - 2;\n  ns.z = d*ns.z;\n", lambda st: scal(7, st["ns.z"]))
    stands("argument_of_later", "  var d = ix () ns.z(a)*ns.z(a);\n  assert d == dot(ns.z, ns.z);\n  for k in 0:2\n    assert 2*d != d - 1;\n  end\n"
           "  ns.z = ix (i) d*ns.y(i);\n", lambda st: scal(dot(st["ns.z"], st["ns.z"]), st["ns.y"]))

    # ------------------------------------------------------------ sets without elements
    heads = [t[1].split("\n")[0] + "\n" for t in tables]
    em = [("ns", heads[0]), ("ls", heads[1])]
    nothing = "set ns\n" + heads[0] + "set ls\n" + heads[1]
    case("index", "ix_empty", PRE + "  ns.z = ix (i) K(i,j)*ns.z(j);\n  ls.k = ix (e) G(e,i)*ns.z(i);\n  var P = ix (i,j) G(e,i)*G(e,j);\n"
         "  var d = ix () ns.z(a)*P(a,b)*ns.y(b) + 4;\n  assert d == 4;\nend\n", em, nothing)
    nodes = [tables[0], ("ls", heads[1])]
    case("index", "ix_empty_links", PRE + "  ns.z = ix (i) G(e,i)*ls.k(e) + ns.y(i);\n  ls.k = ix (e) G(e,i)*ns.z(i);\n"
         "  var P = ix (i,j) G(e,i)*G(e,j);\n  ns.y = ix (i) P(i,j)*ns.z(j);\nend\n", nodes,
         {**column("ns.z", st["ns.y"]), "ns.y": ["0"] * NODES})

    # ------------------------------------------------------------ long terms, over one node and two links
    def one_node(name, ix, bad=None):
        r = random.Random(name)
        st = {"ns." + f: {(0,) + x: r.randint(1, 9) for x in bidx(b)} for f, b in NODE_BLOCKS.items()}
        st.update({"ls." + f: {(e,) + x: r.randint(1, 9) for e in range(2) for x in bidx(b)} for f, b in LINK_BLOCKS.items()})
        # odd, so that long products don't end in 0
        st["ns.z"], st["ns.y"], st["ls.k"] = {(0,): 7}, {(0,): -5}, {(0,): 3, (1,): -8}
        st["K"] = {(0, 0): 3 - 8 + 2}
        short = [("ns", text(st, "ns", NODE_BLOCKS, [[]])), ("ls", text(st, "ls", LINK_BLOCKS, [[0, 0], [0, 0]]))]
        case("index", "ix_long_" + name, PRE + "  ns.z = %s;\nend\n" % ix, short,
             bad or {"ns.z": [str(products(ix, st)[0,])]})

    def shuffled(factors):
        random.Random(9).shuffle(factors)
        return "*".join(factors)

    def ring(count):
        return ["K(%s)" % ",".join(random.Random(k).sample(["a%d" % k, "a%d" % ((k + 1) % count)], 2)) for k in range(count)]

    one_node("chain", "ix (a0) " + shuffled(ring(121)[:-1] + ["ns.y(a120)"]))
    one_node("groups", "ix (i) " + shuffled(["ns.z(i)"] * 40 + ["K(i,b%d)*ns.y(b%d)" % (k, k) for k in range(40)]))
    one_node("scalars", "ix (i) " + shuffled(["%d" % k for k in range(1, 100, 2)] + ["ns.z(i)"]))
    one_node("sum", "ix (i) -ns.z(i)" + " + 3*K(i,j)*ns.y(j) - ns.y(i)*ns.z(i)" * 150)
    one_node("cycle", "ix (i) " + shuffled(ring(60) + ["K(b,i)", "ns.z(b)"]), "refused: line %d: not a chain" % (first + 1))

    # ------------------------------------------------------------ not in chain form
    def refused(name, body, line, kind):
        """Lines are those of the body, from 1."""
        case("index", "ix_" + name, PRE + body + "end\n", [], "refused: line %d: %s" % (first + line, kind))

    def no_chain(name, ix, before="", line=1):
        refused("no_chain_" + name, before + "  ns.z = %s;\n" % ix, line, "not a chain")

    no_chain("three_places", "ix (i) K(i,j)*ns.z(j)*ns.y(j)")
    no_chain("four_places", "ix () ns.z(a)*K(a,b)*K(b,c)*K(c,a)*ns.y(a)")
    no_chain("four_places_groups", "ix (i) K(i,a)*ns.z(a)*K(i,a)*ns.y(a)")
    no_chain("alone", "ix (i) ns.z(i)*ns.y(j)")
    no_chain("alone_in_matrix", "ix (i) K(i,j)")
    no_chain("alone_vector", "ix () ns.z(a)")
    no_chain("twice_in_reference", "ix (i) K(j,j)*ns.z(i)")
    no_chain("trace", "ix () K(j,j)")
    no_chain("free_twice_in_reference", "ix (i) K(i,i)")
    no_chain("equal_free", "ix (i,i) K(i,i)")
    no_chain("equal_free_two", "ix (i,i) K(i,j)*K(j,i)")
    no_chain("equal_free_numbers", "ix (i, i) 3")
    no_chain("free_missing", "ix (i) 3")
    no_chain("free_missing_dot", "ix (i) ns.z(a)*ns.y(a)")
    no_chain("free_missing_second", "ix (i) ns.z(i) - 2")
    no_chain("second_free_missing", "ix (i,j) K(i,a)*ns.z(a)")
    no_chain("second_free_missing_cycle", "ix (i,j) K(a,b)*K(b,a)")
    no_chain("free_twice_in_chain", "ix (i) K(i,j)*K(j,i)")
    no_chain("free_twice_in_long_chain", "ix (i) K(i,a)*K(a,b)*K(b,i)*ns.z(i)")
    no_chain("cycle_beside_chain", "ix (i) K(a,b)*K(b,a)*ns.z(i)")
    no_chain("cycle_beside_dot", "ix () ns.z(c)*K(a,b)*K(a,b)*ns.z(c)")
    no_chain("cycle_beside_matrices", "ix (i,j) K(i,j)*K(a,b)*K(b,c)*K(c,a)")
    no_chain("two_chains", "ix () ns.z(a)*ns.y(a)*ns.z(b)*ns.y(b)")
    no_chain("chain_beside_group", "ix (i) ns.z(i)*ns.z(b)*ns.y(b)")
    no_chain("chain_beside_matrices", "ix (i,j) K(i,j)*ns.z(b)*ns.y(b)")
    no_chain("vector_at_free_end", "ix (i,j) K(i,a)*ns.z(a)*ns.z(j)")
    no_chain("outer_product", "ix (i,j) ns.z(i)*ns.y(j)")
    no_chain("scaled_rows", "ix (i,j) ns.z(i)*K(i,j)")
    no_chain("entrywise_matrices", "ix (i,j) K(i,j)*K(i,j)")
    no_chain("all_entries", "ix () K(a,b)*K(a,b)")
    no_chain("matrix_in_the_middle", "ix () ns.z(a)*K(a,b)")
    no_chain("weights", "ix (i) G(e,i)*ls.k(e)*G(e,j)*ns.z(j)")
    no_chain("nine_factors", "ix (i) K(i,a)*K(a,b)*K(b,c)*K(c,d)*K(d,e)*K(e,f)*K(f,g)*K(h,h2)*ns.z(g)")
    no_chain("eight_matrices", "ix (i,j) K(i,a)*K(a,b)*K(b,c)*K(c,d)*K(d,e)*K(e,f)*K(f,g)*ns.z(g)*ns.y(j)")
    no_chain("third_term", "ix (i) ns.z(i) + K(i,j)*ns.z(j) - ns.z(j)*ns.y(j)")

    # ------------------------------------------------------------ the order of refusals
    bad = "ix (i) K(i,i)"
    NC = "not a chain"
    refused("chain_before_type", "  ns.z = nope;\n  ns.z = %s;\n" % bad, 2, NC)
    refused("chain_and_later_type", "  ns.z = %s;\n  ns.z = nope;\n" % bad, 1, NC)
    refused("chain_of_unknown", "  nope.z = ix (i) nope(i,i);\n", 1, NC)
    refused("chain_of_the_first", "  ns.z = ix (i) ns.z(i);\n  ns.z = ix () ns.y(i);\n  ns.z = %s;\n" % bad, 2, NC)
    refused("chain_line_of_ix", "  ns.z =\n\n    ix (i)\n   K(i,i);\n", 3, NC)
    refused("chain_in_if", "  if 1 == 2\n    ns.z = ix (i) ns.z(i);\n  else\n    ns.z = %s;\n  end\n  ns.z = %s;\n" % (bad, bad), 4, NC)
    refused("chain_in_both_branches", "  if 1 == 2\n    ns.z = %s;\n  else\n    ns.z = %s;\n  end\n" % (bad, bad), 2, NC)
    refused("chain_in_loops", "  while 1 == 2\n    for i in 0:2\n      var d = ix () ns.z(i)*ns.z(i);\n      d = ix () ns.z(i);\n    end\n  end\n", 4, NC)
    case("index", "ix_chain_before_function", PRE.replace("A(p(0),p(1)) = s.m", "A(p(0),p(1)) = nope") + "  ns.z = %s;\nend\n" % bad, [],
         "refused: line %d: not a chain" % (first + 1))
    host = "extern func least(int(0), int(0)) -> int(0);\n"
    case("index", "ix_with_host", host + PRE + "  ns.z = ix (i) ns.z(i);\n  ns.y = least(2, 3)*ns.z;\nend\n", tables,
         {**column("ns.z", st["ns.z"]), **column("ns.y", scal(2, st["ns.z"]))})
    case("index", "ix_before_unknown_host", host.replace("least", "gcd") + PRE + "  ns.z = ix (i) ns.z(i);\nend\n", tables, "refused: line 1: unknown name")
    case("index", "ix_chain_before_host", host.replace("least", "gcd") + PRE + "  ns.z = %s;\nend\n" % bad, tables, "refused: line %d: not a chain" % (first + 2))
    case("index", "ix_chain_before_files", PRE + "  ns.z = ix (i) ns.z(i);\nend\n", [], "refused: 0 files for 2 sets")

    def syntax(name, before, rest):
        """The first token of `rest` can't go on."""
        count = len(re.findall(r"[A-Za-z_]\w*|\d+(?:\.\d+)?|\.\*|->|[=!<>]=|\S", PRE + before))
        case("index", "ix_syntax_" + name, PRE + before + rest, [],
             "refused: line %d, token %d: syntax" % (1 + (PRE + before).count("\n"), count))

    syntax("before_chain", "  ns.z = %s;\n  ns.z = " % bad, ";\nend\n")
    syntax("no_parenthesis", "  ns.z = ix ", "i K(i,j);\nend\n")
    syntax("three_free", "  ns.z = ix (i,j", ",k) K(i,j);\nend\n")
    syntax("three_indices", "  ns.z = ix (i) K(i,j", ",k)*ns.z(j);\nend\n")
    syntax("number_index", "  ns.z = ix (i) K(i,", "0)*ns.z(i);\nend\n")
    syntax("parentheses", "  ns.z = ix (i) ", "(ns.z(i));\nend\n")
    syntax("transpose", "  ns.z = ix (i) K(i,j)", "'*ns.z(j);\nend\n")
    syntax("entrywise", "  ns.z = ix (i) ns.z(i)", " .* ns.z(i);\nend\n")
    syntax("two_signs", "  ns.z = ix (i) ns.z(i) - ", "-ns.z(i);\nend\n")
    syntax("part_of_a_sum", "  ns.z = 2*", "ix (i) ns.z(i);\nend\n")
    syntax("no_index", "  ns.z = ix (i) ns.z(", ");\nend\n")
    syntax("comma", "  ns.z = ix (i,", ") ns.z(i);\nend\n")
    syntax("two_targets", "  var a, b = ", "ix (i) ns.z(i);\nend\n")

    # ------------------------------------------------------------ types, and the lines of made nodes
    U, TW, NP, SH, SE, SL, TL = "unknown name", "declared twice", "not a place", "shape", "set", "scale", "too large"
    refused("type_vector_unknown", "  ns.z = ix (i)\n    K(i,j)*\n    ns.nope(j);\n", 3, U)
    refused("type_matrix_unknown", "  ns.z = ix (i)\n    X(i,j)*\n    nope(j);\n", 2, U)
    refused("type_scalar_before_chain", "  ns.z = ix (i)\n    nope(i)*\n    c;\n", 3, U)
    refused("type_scalar_before_dot", "  var d = ix ()\n    nope(a)*\n    nopf(a)*\n    c;\n", 4, U)
    refused("type_scalar_before_matrices", "  var d = ix (i,j)\n    X(i,a)*\n    Y(a,j)*\n    c;\n", 4, U)
    refused("type_order_of_chain", "  ns.z = ix (i)\n    nope(j)*\n    X(i,j);\n", 3, U)
    refused("type_order_against", "  ns.z = ix (i)\n    nope(j)*\n    X(j,i);\n", 3, U)
    refused("type_first_vector", "  var d = ix ()\n    X(a,b)*\n    nope(b)*\n    nopf(a);\n", 3, U)
    refused("type_after_first_vector", "  var d = ix ()\n    X(b,c)*\n    ns.z(c)*\n    Y(a,b)*\n    nope(a);\n", 2, U)
    refused("type_next_of_chain", "  var d = ix ()\n    Y(a,b)*\n    ns.z(c)*\n    K(b,c)*\n    nope(a);\n", 2, U)
    refused("type_last_of_chain", "  var d = ix ()\n    K(a,b)*\n    ns.z(b)*\n    nope(a);\n", 4, U)
    refused("type_order_of_groups", "  ns.z = ix (i)\n    nope(a)*\n    nopf(i)*\n    X(i,a);\n", 4, U)
    refused("type_groups_by_first_factor", "  ns.z = ix (i)\n    X(i,a)*\n    nopf(i)*\n    nope(a);\n", 2, U)
    refused("type_second_group", "  ns.z = ix (i)\n    nope(i)*\n    ns.z(a)*\n    X(i,a);\n", 2, U)
    refused("type_order_of_terms", "  ns.z = ix (i) ns.z(i)\n    + nope(i)\n    + nopf(i);\n", 2, U)
    refused("type_sum_before_third", "  ns.z = ix (i) ns.z(i)\n    + 1.0*ns.z(i)\n    + nope(i);\n", 1, SL)
    refused("type_set_is_no_value", "  ns.z = ix (i) ns(i);\n", 1, U)
    refused("type_function_is_no_value", "  ns.z = ix (i) all(i);\n", 1, U)
    refused("type_field_of_variable", "  ns.z = ix (i) K.z(i);\n", 1, U)
    refused("type_own_variable", "  var d = ix () d*2;\n", 1, U)
    refused("type_index_is_no_value", "  ns.z = ix (i) ns.z(i)*i;\n", 1, U)
    refused("rank_matrix_none", "  ns.z = ix (i)\n    ns.z(i)*\n    K;\n", 3, SH)
    refused("rank_matrix_one", "  ns.z = ix (i)\n    K(i);\n", 2, SH)
    refused("rank_vector_two", "  ns.z = ix (i)\n    ns.y(j)*\n    ns.z(j,\n    i);\n", 3, SH)
    refused("rank_vector_none", "  ns.z = ix (i) ns.z*ns.y(i);\n", 1, SH)
    refused("rank_scalar_one", "  var c = 2;\n  ns.z = ix (i) c(i)*ns.z(i);\n", 2, SH)
    refused("rank_scalar_two", "  var c = 2;\n  ns.z = ix (i) c(i,j)*ns.z(j);\n", 2, SH)
    refused("rank_loop_variable", "  for c in 0:2\n    ns.z = ix (i)\n c(i);\n  end\n", 3, SH)
    refused("rank_before_set", "  ns.z = ix (i)\n    ls.k(j)*\n    K(i,j)*\n    K;\n", 4, SH)
    refused("product_set", "  ns.z =\n    ix (i)\n    2*\n    ls.k(j)*\n    K(i,j);\n", 3, SE)
    refused("product_line_of_first_token", "  ns.z = ix (i)\n    ls\n    .k(j)\n    *\n    K(i,j);\n", 2, SE)
    refused("product_set_against", "  ls.k = ix (i)\n    ns.z(j)*\n    G(j,i);\n", 2, SE)
    refused("product_shape", "  ns.z =\n    ix (i)\n    ns.z(j)*\n    A(i,j);\n", 3, SH)
    refused("product_matrices_shape", "  var P = ix (i,j)\n    K(a,j)*\n    A(i,a);\n", 2, SH)
    refused("product_matrices_set", "  var P = ix (i,j)\n    G(a,j)*\n    K(i,a);\n", 2, SE)
    refused("product_second_term", "  ns.z = ix (i)\n    ns.z(i) +\n    3*\n    K(i,j)*\n    ls.k(j);\n", 3, SE)
    refused("product_inner_first", "  ns.z = ix (i)\n    2*\n    A(i,a)*\n    K(a,b)*\n    ls.k(b);\n", 2, SE)
    refused("dot_set", "  var d = ix ()\n    2*\n    ns.z(a)*\n    ls.k(a);\n", 2, SE)
    refused("dot_shape", "  var d = ix ()\n    ns.u(a)*\n    ns.v(a);\n", 2, SH)
    refused("entrywise_set", "  ns.z = ix (i)\n    ns.z(i)*\n    ls.k(i)*\n    2;\n", 2, SE)
    refused("entrywise_shape", "  ns.z =\n    ix (i)\n    ns.v(i)*\n    ns.u(i);\n", 3, SH)
    one = "1." + "0" * 18
    refused("scalars_scale", "  ns.s = ix (i)\n    ns.s(i)*\n    %s*\n    %s*\n    0.1;\n" % (one, one), 2, SL)
    refused("scaled_scale", "  ns.s = ix (i)\n    %s*\n    %s*\n    ns.s(i);\n" % (one, one), 2, SL)
    big = "  var t = %s*ns.z;\n  var h = 1.0*t;\n  var M = %s*K;\n" % (one, one)
    refused("dot_scale", big + "  var e = ix () t(i)*t(i);\n  var d = ix ()\n    t(i)*\n    h(i);\n", 6, SL)
    refused("entrywise_scale", big + "  var e = ix (i) t(i)*t(i);\n  var d = ix (i)\n    t(i)*\n    h(i);\n", 6, SL)
    refused("product_scale", big + "  var e = ix (i) M(i,j)*t(j);\n  var d = ix (i)\n    M(i,j)*\n    h(j);\n", 6, SL)
    wide = big + "  var H = 1.0*M;\n"
    refused("chain_is_one_factor", wide + "  var d = ix (i)\n    %s*h(i)*ls.k(i);\n" % one, 6, SE)
    refused("matrices_are_one_factor", wide + "  var P = ix (i,j)\n    %s*H(i,a)*A(a,j);\n" % one, 6, SH)
    refused("scalars_before_chain", wide + "  var d = ix (i)\n    ns.z(i)*\n    ls.k(i)*%s*%s*0.1;\n" % (one, one), 6, SL)
    refused("matrices_from_left", "  var P = ix (i,j)\n    G(b,j)*\n    K(a,b)*\n    A(i,a);\n", 2, SH)
    refused("groups_from_left", "  var d = ix (i)\n    ns.u(i)*ns.z(i)*ls.k(i);\n", 2, SH)
    refused("sum_scale", "  ns.z =\n    ix (i)\n    ns.z(i)\n    - ns.s(i);\n", 2, SL)
    refused("sum_set", "  ns.z =\n    ix (i)\n    ns.z(i)\n    + ls.k(i);\n", 2, SE)
    refused("sum_shape", "  ns.z =\n    ix (i)\n    -ns.u(i)\n    + ns.v(i);\n", 2, SH)
    refused("sum_matrices", "  var P =\n    ix (i,j)\n    G(i,j)\n    + K(i,j);\n", 2, SE)
    refused("sum_transposed", "  var P =\n    ix (i,j)\n    A(i,j)\n    + B(i,j);\n", 2, SH)
    refused("number_large", "  var d = ix () 1 +\n    9223372036854775808;\n", 2, TL)
    refused("number_scale", "  var d = ix () 1 +\n    0.0000000000000000000;\n", 2, SL)
    refused("assign_scale", "  ns.z =\n    ix (i) 1.0*ns.z(i);\n", 1, SL)
    refused("assign_set", "  ns.z =\n    ix (i) ls.k(i);\n", 1, SE)
    refused("assign_shape", "  ns.u =\n    ix (i) ns.v(i);\n", 1, SH)
    refused("assign_scalar", "  ns.z =\n    ix () 1;\n", 1, SH)
    refused("assign_matrix_to_field", "  ns.z =\n    ix (i,j) K(i,j);\n", 1, SH)
    refused("assign_matrix", "  K =\n    ix (i,j) K(i,j);\n", 1, NP)
    refused("assign_loop_variable", "  for c in 0:2\n    c =\n      ix () c;\n  end\n", 2, NP)
    refused("assign_value_first", "  nope.z =\n    ix (i) nopf(i);\n", 2, U)
    refused("var_twice", "  var K =\n    ix (i,j) K(i,j);\n", 1, TW)
    case("index", "ix_in_function", PRE.replace("  A(p(0),p(1)) = s.m;\n", "  var t = ix () 1;\n") + "end\n", [],
         "refused: line %d, token %d: syntax" % (20, len(re.findall(r"[A-Za-z_]\w*|\d+(?:\.\d+)?|\.\*|->|[=!<>]=|\S", PRE.split("  A(p(0)")[0])) + 3))

    # ------------------------------------------------------------ dense matrices
    LIM = "limit: dense words over 4194304"

    def dense(name, ix, most):
        """An index expression that isn't run, over as many points as its matrices allow, and over one more."""
        prog = B.replace("  points.f = -(K*points.x);\n", "  if 1 == 2\n    %s;\n  end\n" % ix)
        for n, want in [(most, {"points.f": [0] * most}), (most + 1, LIM)]:
            case("index", "ix_dense_%s_%d" % (name, n), prog, ps("x,f\n" + "1,0\n" * n, "p0,p1,k\n"), want)

    dense("nested", "points.f = ix (i) K(i,a)*K(a,b)*points.x(b)", 2048)
    dense("against", "points.f = ix (i) K(i,a)*K(b,a)*points.x(b)", 1448)
    dense("three", "var P = ix (i,j) K(i,a)*K(a,b)*K(b,j)", 1182)
    dense("itself", "var P = ix (i,j) K(i,j)", 1448)
    dense("terms", "var P = ix (i,j) 2*K(i,j) - K(j,i)", 1024)
