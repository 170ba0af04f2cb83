"""The programs that declare and call functions of the host, written by hand: values by the functions of second.py, refusals by
hand.  `programs` is called by build.py."""
from second import *

ONE = {"clamp0": clamp0, "mix": mix, "square": square}
TWO = {"least": least, "most": most}
FIVE = "".join("extern func %s(int(0)) -> int(0);\n" % f for f in ("clamp0", "mix", "square")) \
    + "".join("extern func %s(int(0), int(0)) -> int(0);\n" % f for f in ("least", "most"))
LEAST = "extern func least(int(0), int(0)) -> int(0);\n"
NONE = "proc main\nend\n"
U, TW, NC, NP, SH, SC, TL = "unknown name", "declared twice", "not a constant", "not a place", "shape", "scale", "too large"
LOW, HIGH = -2 ** 63, 2 ** 63 - 1
NUMBERS = [(0, 0), (-3, 2), (5, -7), (4, 4), (-6, -5), (4294967296, 1), (LOW, HIGH), (HIGH, LOW), (HIGH, -1), (-1, 1)]
SPRINGS = [(0, 1, 2), (0, 1, -5), (1, 2, 4), (2, 2, 7)]
POINTS = [0, 10, 25]


def programs(case, head, ps):
    first = head.count("\n") + 1        # the line after sets and elements

    def springs(*rest):
        return ps(springs="p0,p1,k\n" + "".join("%d,%d,%d\n" % s for s in rest or SPRINGS))

    def refused(name, text, line, kind):
        """The first line of `text` counts as line 1."""
        case("hosts", "host_" + name, head + text, ps(), "refused: line %d: %s" % (first + line - 1, kind))

    def in_function(name, body, want, declared=FIVE):
        """A function over springs, whose statements begin in line 7 where all five are declared."""
        text = declared + "func g(s : Spring, p : (Point*2)) -> (f : vector[points](int(0)), e : vector[springs](int(0)))\n" + body \
            + "end\nproc main\n  points.f, springs.k = map g to springs reduce +;\nend\n"
        if isinstance(want, tuple):
            refused(name, text, *want)
        else:
            case("hosts", "host_" + name, head + text, springs(), want)

    def in_main(name, body, want, declared=FIVE):
        """Statements of the main procedure, which begin in line 7 where all five are declared."""
        text = declared + "proc main\n" + body + "end\n"
        if isinstance(want, tuple):
            refused(name, text, *want)
        else:
            case("hosts", "host_" + name, head + text, ps(), want)

    # ------------------------------------------------------------ declarations
    refused("declared_unknown", "extern func gcd(int(0), int(0)) -> int(0);\n" + NONE, 1, U)
    refused("declared_other_case", "\nextern func Least(int(0), int(0)) -> int(0);\n" + NONE, 2, U)
    refused("declared_set", "extern func points(int(0)) -> int(0);\n" + NONE, 1, U)
    refused("declared_again", LEAST + LEAST + NONE, 2, TW)
    refused("declared_taken", "element mix end\nextern func mix(int(0)) -> int(0);\n" + NONE, 2, TW)
    refused("declared_taken_by_function", "func square(s : Spring) -> (f : vector[springs](int(0)))\nend\nextern func square(int(0)) -> int(0);\n" + NONE, 3, TW)
    refused("declared_three", "extern func least(int(0), int(0), int(0)) -> int(0);\n" + NONE, 1, SH)
    refused("declared_one_of_two", "\n\nextern\nfunc least(int(0)) -> int(0);\n" + NONE, 3, SH)
    refused("declared_two_of_one", "extern func mix(int(0), int(0)) -> int(0);\n" + NONE, 1, SH)
    refused("declared_point", "extern func least(int(0), int(0.0)) -> int(0);\n" + NONE, 1, NC)
    refused("declared_point_of_result", "extern func mix(int(0)) -> int(1.0);\n" + NONE, 1, NC)
    refused("declared_scale", "extern func most(int(36), int(37)) -> int(0);\n" + NONE, 1, SC)
    refused("declared_scale_of_result", "extern func mix(int(36)) -> int(37);\n" + NONE, 1, SC)
    # the first cause: unknown, twice, not a constant, shape, scale
    refused("order_unknown", LEAST + "extern func gcd(int(0.5), int(0), int(99)) -> int(0);\n" + NONE, 2, U)
    refused("order_twice", LEAST + "extern func least(int(0.5), int(0), int(99)) -> int(0);\n" + NONE, 2, TW)
    refused("order_constant", "extern func least(int(0), int(0), int(99)) -> int(0.5);\n" + NONE, 1, NC)
    refused("order_shape", "extern func least(int(99)) -> int(99);\n" + NONE, 1, SH)
    # what else may have its name, and what may not
    refused("name_of_set", "extern func mix(int(0)) -> int(0);\nextern mix : set{Point};\n" + NONE, 2, TW)
    refused("name_of_parameter", LEAST + "func g(s : Spring,\n least : (Point*2)) -> (f : vector[points](int(0)))\nend\n" + NONE, 3, TW)
    in_function("name_of_variable", "  e(s) = 1;\n  var most = 1;\n", (8, TW))
    in_function("name_of_loop", "  for mix in 0:2\n  end\n", (7, TW))
    in_main("name_of_variable_in_main", "  if 1 == 1\n    var square = 2;\n  end\n", (8, TW))
    case("hosts", "host_name_of_field_and_before",
         "element P\n  least : int(0);\nend\nextern ps : set{P};\nfunc g(most : P) -> (f : vector[ps](int(0)))\n  var mix = most.least;\n  f(most) = mix + 1;\nend\n" + FIVE
         + "proc main\n  ps.least = map g to ps reduce +;\n  var x = least(3, 2);\n  ps.least = ix (least) x*ps.least(least);\nend\n",
         [("ps", "least\n4\n-1\n")], {"ps.least": [10, 0]})

    # ------------------------------------------------------------ calls that are refused
    in_main("call_undeclared", "  var a = most(1, 2);\n", (3, U), LEAST)
    refused("call_before", "func g(s : Spring) -> (e : vector[springs](int(0)))\n  e(s) = least(s.k, 2);\nend\n" + LEAST + NONE, 2, U)
    in_main("call_one", "  var a = least(1);\n", (7, SH))
    in_main("call_three", "  var a = least(1,\n 2, 3);\n", (7, SH))
    in_main("call_bare", "  points.f = square*points.x;\n", (7, SH))
    in_main("call_bare_in_index", "  points.f = ix (i) square*points.x(i);\n", (7, SH))
    in_main("call_by_index", "  points.f = ix (i) square(i);\n", (7, SH))
    in_main("call_of_vector", "  points.f = clamp0(points.x);\n", (7, SH))
    in_function("call_of_block", "  e(s) = least([1, 2], 3);\n", (7, SH))
    in_main("call_of_scale", "  var a = most(1, 2.0);\n", (7, SC))
    in_main("call_with_sum_of_scale", "  var a = 1.5 + most(1, 2);\n", (7, SC))
    in_main("call_field", "  var a = least(1, 2).x;\n", (7, U))
    in_main("call_mapped", "  points.f = map least to points reduce +;\n", (7, U))
    in_main("call_assigned", "  least = 1;\n", (7, U))
    in_function("call_assigned_in_function", "  least = 1;\n", (7, U))
    in_function("call_written", "  least(s) = 1;\n", (7, NP))
    in_function("call_as_place", "  f(least(0)) = 1;\n", (7, NP))
    in_function("call_as_index", "  e(s) = p(clamp0(0)).x;\n", (7, NC))
    in_function("call_as_entry", "  var v = [1, 2];\n  e(s) = v(least(0, 1));\n", (8, NC))
    # the first cause: that of an argument, shape, scale
    in_main("call_order_argument", "  var a = least(least(1),\n    nope);\n", (7, SH))
    in_main("call_order_second_argument", "  var a = least(1.5,\n    nope);\n", (8, U))
    in_main("call_order_shape", "  var a = least(1.5);\n", (7, SH))
    in_main("call_order_shape_of_second", "  var a = least(1.5, points.x);\n", (7, SH))

    # ------------------------------------------------------------ what they answer
    text = "element Q\n  x : int(0);\n  y : int(0);\n" + "".join("  %s : int(0);\n" % c for c in "abcde") + "end\nextern q : set{Q};\n" + FIVE
    table = [("q", "x,y,a,b,c,d,e\n" + "".join("%d,%d,0,0,0,0,0\n" % n for n in NUMBERS))]
    want = {"q." + c: [f(x) for x, _ in NUMBERS] for c, f in zip("abc", ONE.values())}
    want.update({"q." + c: [f(x, y) for x, y in NUMBERS] for c, f in zip("de", TWO.values())})
    case("hosts", "host_five", text + """func one(s : Q) -> (a : vector[q](int(0)), b : vector[q](int(0)), c : vector[q](int(0)))
  a(s) = clamp0(s.x);
  b(s) = mix(s.x);
  c(s) = square(s.x);
end
func two(s : Q) -> (d : vector[q](int(0)), e : vector[q](int(0)))
  d(s) = least(s.x, s.y);
  e(s) = most(s.x, s.y);
end
proc main
  q.a, q.b, q.c = map one to q reduce +;
  q.d, q.e = map two to q reduce +;
end
""", table, want)
    case("hosts", "host_five_exchanged", text + """func g(s : Q) -> (d : vector[q](int(0)), e : vector[q](int(0)))
  d(s) = least(s.y, s.x);
  e(s) = most(s.y, s.x);
end
proc main
  q.d, q.e = map g to q reduce +;
end
""", table, {"q.d": want["q.d"], "q.e": want["q.e"]})

    def written(v):
        return str(v) if v > LOW else "-%d - 1" % HIGH

    tested = ["  assert %s(%s) == %s;\n" % (n, written(x), written(f(x))) for x, _ in NUMBERS for n, f in ONE.items()]
    tested += ["  assert %s(%s, %s) == %s;\n" % (n, written(x), written(y), written(f(x, y))) for x, y in NUMBERS for n, f in TWO.items()]
    in_main("five_in_main", "".join(tested), {"points.f": [0, 0, 0]})
    in_main("never_called", "  points.f = points.x + points.x;\n", {"points.f": [0, 20, 50]})
    in_main("nested", "  points.f = square(most(least(4, 9), -clamp0(-2)))*points.x;\n", {"points.f": [0, 160, 400]})
    in_main("in_sums_and_products", "  points.f = points.x*least(2, 3) - square(2)*points.x + (1 + most(2, 1)*2)*points.x;\n", {"points.f": [0, 30, 75]})
    in_main("in_quotients", "  var a = quot(square(7), least(5, 6), 0);\n  a = a*10 + isqrt(most(17, 3), 0) + rescale(quot(clamp0(7), 2, 1), 0);\n  points.f = a*points.x;\n",
            {"points.f": [0, 970, 2425]})
    in_main("in_conditions", "  if least(dot(points.x, points.x), 700) == 700 and not clamp0(-1) > 0\n    points.f = points.x;\n  end\n  if most(1, 2) < 2 or square(2) == 5\n    points.f = points.f + points.x;\n  end\n",
            {"points.f": [0, 10, 25]})
    in_main("in_loops", "  var n = 0;\n  while least(n, 5) < 5\n    n = n + 1;\n  end\n  for i in clamp0(-2):square(most(1, 2))\n    n = n + 10*least(i, 1);\n  end\n  points.f = n*points.x;\n",
            {"points.f": [0, 350, 875]})
    in_main("spent", "  while clamp0(1) == 1\n  end\n", "spent: 100000 turns")
    in_main("in_index_expression", "  var c = most(2, 3);\n  points.f = ix (i) -c*points.x(i) + 2*points.x(i);\n", {"points.f": [0, -10, -25]})
    n, sums = 7, []
    for i in range(3):
        total = 0
        for _ in range(100):
            n = mix(n)
            total = wrap(total + n)
        sums.append(total)
    in_main("mixed_often", "  for i in 0:3\n    var t = 0;\n    for j in 0:100\n      n = mix(n);\n      t = t + n;\n    end\n    if i == 0\n      a = t;\n    end\n    if i == 1\n      b = t;\n    end\n    if i == 2\n      c = t;\n    end\n  end\n"
            .join(["  var n = 7;\n  var a = 0;\n  var b = 0;\n  var c = 0;\n", "".join("  assert %s == %s;\n" % (v, written(t)) for v, t in zip("abc", sums))]),
            {"points.f": [0, 0, 0]})
    # an assertion that doesn't hold, and traps of arguments
    in_main("assertion", "  assert least(1, 2) == 1;\n  assert most(1, 2) == 1;\n", "trap at line %d: assertion failed" % (first + 7))
    in_main("trap_of_argument", "  var a = least(isqrt(-1, 0), quot(1, 0, 0));\n", "trap at line %d: root of a negative number" % (first + 6))
    in_main("trap_of_second_argument", "  var a = least(1,\n    quot(1, clamp0(-1), 0));\n", "trap at line %d: division by zero" % (first + 6))
    in_main("trap_of_other_side", "  if least(1, 2) == 1 or square(quot(1, 0, 0)) == 1\n  end\n", "trap at line %d: division by zero" % (first + 6))
    in_function("trap_in_function", "  e(s) = least(quot(1, s.k - 4, 0), 0);\n", "trap at line %d, element 2: division by zero" % (first + 9))

    # ------------------------------------------------------------ in functions
    def summed(at_points, at_spring):
        """The results where each spring adds pairs (point, number) and a number."""
        f = [0, 0, 0]
        for p, t, k in SPRINGS:
            for point, v in at_points(p, t, k):
                f[point] = wrap(f[point] + v)
        return {"points.f": f, "springs.k": [wrap(at_spring(*s)) for s in SPRINGS]}

    in_function("endpoints", "  f(p(0)) = least(s.k, p(1).x);\n  f(p(1)) = -most(p(0).x - p(1).x, s.k);\n  e(s) = square(s.k);\n",
                summed(lambda p, t, k: [(p, least(k, POINTS[t])), (t, -most(POINTS[p] - POINTS[t], k))], lambda p, t, k: k * k))
    in_function("loop_variable", "  for i in 0:2\n    f(p(i)) = least(i, s.k)*p(i).x + square(i);\n  end\n  var d = s.k;\n  for i in 0:3\n    d = d - clamp0(d - i);\n  end\n  e(s) = d;\n",
                summed(lambda p, t, k: [(p, least(0, k) * POINTS[p]), (t, least(1, k) * POINTS[t] + 1)], lambda p, t, k: least(k, 0)))
    in_function("blocks", "  var v = [clamp0(s.k), least(s.k, 3), square(2)];\n  var m = [most(s.k, 0), 1; mix(0), least(0, s.k)];\n  m = m'*m;\n  e(s) = dot(v, [1, 10, 100]) + least(m(0,0), 1000) + m(1,1) + clamp0(v(1));\n",
                summed(lambda p, t, k: [], lambda p, t, k: clamp0(k) + 10 * least(k, 3) + 400 + least(wrap(clamp0(k) ** 2 + mix(0) ** 2), 1000)
                       + 1 + least(0, k) ** 2 + clamp0(least(k, 3))))
    in_function("branches", "  if most(s.k, 3) > 3 and least(p(0).x, p(1).x) >= 10\n    e(s) = mix(s.k);\n  else\n    assert clamp0(s.k) == 0 or square(s.k) <= 49;\n    e(s) = -1;\n  end\n",
                summed(lambda p, t, k: [], lambda p, t, k: mix(k) if k > 3 and p > 0 else -1))
    case("hosts", "host_argument_of_map", head + FIVE + """func g(a : int(0), b : int(0), s : Spring) -> (e : vector[springs](int(0)))
  e(s) = most(a, s.k) + b;
end
proc main
  springs.k = map g(least(3, 9), square(-10)) to springs reduce +;
end
""", springs(), {"springs.k": [103, 103, 104, 107]})
    matrix = mzero(3, 3, ())
    for p, t, k in SPRINGS:
        put(matrix, (p, t), most(k, 3))
        put(matrix, (t, t), -clamp0(k))
    x = {(i,): v for i, v in enumerate(POINTS)}
    case("hosts", "host_matrix", head + FIVE + """func g(s : Spring, p : (Point*2)) -> (K : matrix[points,points](int(0)))
  K(p(0),p(1)) = most(s.k, 3);
  K(p(1),p(1)) = -clamp0(s.k);
end
proc main
  var K = map g to springs reduce +;
  points.f = least(2, 3)*K*points.x - K'*points.x;
end
""", springs(), {"points.f": [v for _, v in sorted(sub(scal(2, smv(matrix, x, vzero(3, ()))), smv(strn(matrix), x, vzero(3, ()))).items())]})

    # ------------------------------------------------------------ scales: words as they stand, by the declaration
    scaled = """element Q
  x : int(2);
  y : int(1);
  v : vector[2](int(2));
  a : int(1);
  b : int(2);
  c : int(3);
end
extern q : set{Q};
extern func least(int(2), int(0)) -> int(1);
extern func square(int(1)) -> int(2);
extern func clamp0(int(2)) -> int(3);
extern func most(int(36), int(0)) -> int(36);
"""
    rows_ = [(150, 15, 7, -7), (300, -3, -250, 250), (-5, 100, 0, 1), (20001, 1, 100, 99)]
    table = [("q", "x,y,v.0,v.1,a,b,c\n" + "".join("%s,%s,%s,%s,0,0,0\n" % (cell(x, 2), cell(y, 1), cell(v, 2), cell(w, 2)) for x, y, v, w in rows_))]
    case("hosts", "host_scales", scaled + """func g(s : Q) -> (a : vector[q](int(1)), b : vector[q](int(2)), c : vector[q](int(3)))
  a(s) = least(s.x, 200);
  b(s) = square(s.y) + rescale(least(s.v(0), 0), 2);
  c(s) = clamp0(s.v(1)) - 1.000;
end
proc main
  q.a, q.b, q.c = map g to q reduce +;
end
""", table, {"q.a": [cell(least(x, 200), 1) for x, _, _, _ in rows_], "q.b": [cell(y * y + 10 * least(v, 0), 2) for _, y, v, _ in rows_],
             "q.c": [cell(clamp0(w) - 1000, 3) for _, _, _, w in rows_]})
    case("hosts", "host_scales_in_main", scaled + """proc main
  assert least(1.50, 200) == 15.0 and least(3.00, 200) == 20.0;
  assert square(-1.5) == 2.25 and square(0.3) == 0.09;
  assert clamp0(0.07) == 0.007 and clamp0(-0.01) == 0.000;
  var tiny = 0.000000000000000001*0.000000000000000002;
  assert most(tiny, 3) == tiny + 0.000000000000000001*0.000000000000000001;
  q.a = least(9.99, 1000)*q.a + 0*q.a;
end
""".replace("  q.a = least(9.99, 1000)*q.a + 0*q.a;\n", "  q.b = rescale(least(9.99, 1000)*q.x, 2);\n"), table,
         {"q.b": [cell(resc(999 * x, 3, 2), 2) for x, _, _, _ in rows_]})
    case("hosts", "host_scale_of_argument", scaled + "proc main\n  var a = least(1.5, 200);\nend\n", table, "refused: line %d: scale" % (scaled.count("\n") + 2))
    case("hosts", "host_scale_of_answer", scaled + "proc main\n  q.b = 2*q.b;\n  q.b = square(1.5)*q.b;\nend\n", table, "refused: line %d: scale" % (scaled.count("\n") + 3))

    # ------------------------------------------------------------ cost: a call counts 1, and its arguments
    # a turn of the inner loop counts 4, the loops 1 + 4*(1 + 4095*4), two more writes 8, and the last one 3 or 4
    for name, last, want in [("cost_most", "clamp0(1)", {"springs.k": [4 * 4095 * 2 + 2 + 2 + 1] * 2}), ("cost_over", "least(1, 2)", None)]:
        text = FIVE + "func g(s : Spring) -> (e : vector[springs](int(0)))\n  for i in 0:4\n    for j in 0:4095\n      e(s) = most(1, 2);\n    end\n  end\n" \
            + "  e(s) = most(1, 2);\n" * 2 + "  e(s) = %s;\nend\nproc main\n  springs.k = map g to springs reduce +;\nend\n" % last
        if want is None:
            refused(name, text, 6, TL)
        else:
            case("hosts", "host_" + name, head + text, ps(), want)
