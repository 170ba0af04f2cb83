"""Parts of programs over points and links, of which each function over links goes with each main procedure, with 12 turns: 400
programs, for whose answers reference.py stands alone.  `programs` is called by build.py."""
from collections import Counter

TURNS = 12
# how many of them end with each status: with tables, in traps, without turns that are left
ENDINGS = {0: 281, 5: 93, 6: 26}

# four points, and six links, one from a point to itself and two between the same two
TABLES = [
    ("ps", """x,y,v.0,v.1,m.0.0,m.0.1,m.1.0,m.1.1
3,1.50,1,0,1,0,2,1
-1,-0.25,2,5,2,1,0,-1
0,0.00,-3,1,0,3,-1,1
7,0.99,0,-2,-1,2,1,0
"""),
    ("ls", """p0,p1,k,w.0,w.1,h
0,1,2,1,2,1.25
1,2,-3,0,1,-2.50
2,0,4,-1,1,0.00
1,1,5,2,0,3.33
3,0,0,3,-2,0.05
0,1,1,1,1,-0.01
"""),
]

# points with blocks, and links between points
DECLARATIONS = """element P x : int(0); y : int(2); v : vector[2](int(0)); m : matrix[2,2](int(0)); end
element L k : int(0); w : vector[2](int(0)); h : int(2); end
extern ps : set{P};
extern ls : set{L}(ps, ps);
"""
# the heading of a function over points
OVER_POINTS = """func u(a : int(2), q : P) -> (g : vector[ps](int(0)), c : vector[ps](vector[2](int(0))))
"""
# the heading of a function over links, which may write a vector of blocks, numbers at the links, a matrix of blocks, and a matrix of
# numbers whose sides are two sets
OVER_LINKS = """func f(a : int(0), s : L, p : (P*2)) -> (b : vector[ps](vector[2](int(0))),
    e : vector[ls](int(0)), K : matrix[ps,ps](matrix[2,2](int(0))), M : matrix[ls,ps](int(0)))
"""

POINT_BODIES = [
    """g(q) = q.x + 1;
c(q) = rescale(a, 0)*q.v;
""",
    """var d = dot(q.v, q.v);
g(q) = d - q.m(0,1);
c(q) = q.m*q.v + d*[1, 0];
""",
    """g(q) = rescale(a*q.y, 0);
for i in 0:2
for j in 0:2
g(q) = q.m(i,j)*q.v(j);
c(q) = [i, q.m(j,i)];
end
end
""",
    """if q.x > 2
g(q) = quot(q.y, 0.50, 0);
else
c(q) = q.m'*q.v;
assert a >= 0.25 or q.x != 0;
end
""",
    """g(q) = isqrt(q.x*q.x, 0) - rescale(isqrt(a, 1), 0);
c(q) = q.v.*q.v;
""",
]

LINK_BODIES = [
    # places: at the link and at its points, blocks too
    """e(s) = s.k*a;
b(p(0)) = s.w;
b(p(1)) = -s.w;
""",
    """K(p(0),p(0)) = [s.k, 0; 0, s.k];
K(p(0),p(1)) = -p(1).m;
K(p(1),p(1)) = p(0).m;
""",
    """M(s,p(0)) = 1;
M(s,p(1)) = -1;
e(s) = p(1).x - p(0).x;
""",
    "",
    # loops
    """for i in 0:2
b(p(i)) = s.w(i)*p(i).v;
M(s,p(i)) = i + 1;
end
""",
    """var n = 0;
for i in 1:4
for j in 0:2
n = n + i*j;
M(s,p(j)) = n;
end
end
e(s) = n;
""",
    # branches
    """if s.k > 2
e(s) = s.k;
else
b(p(1)) = [a, 1];
end
""",
    """for i in 0:4
if i < s.k or i == 3 and not a == i
e(s) = i;
else
if i > 1
b(p(0)) = i*s.w;
end
end
end
""",
    # asserts
    """e(s) = 1;
assert s.k != 4;
e(s) = quot(100, s.k, 0);
""",
    """assert p(0).x <= p(1).x or s.k >= 2 or a > 1;
M(s,p(1)) = p(1).x;
""",
    # quotients, roots and other scales
    """e(s) = quot(7, s.k - 4, 0);
""",
    """e(s) = quot(-1000, s.k*s.k + 1, 0) - rescale(quot(s.h, 0.07, 3), 0);
K(p(1),p(1)) = s.k*[1, 2; 3, 4];
""",
    """e(s) = isqrt(s.k, 0);
b(p(0)) = s.w;
""",
    """e(s) = rescale(s.h, 0) + rescale(p(0).y*p(1).y, 0) - rescale(s.h*s.h*s.h, 0);
M(s,p(0)) = rescale(isqrt(s.h*s.h, 2), 0);
""",
    # scalar products, products and transposes of blocks
    """var d = dot(s.w, p(0).v);
e(s) = d*d;
b(p(1)) = d*p(1).v - s.w.*s.w;
""",
    """var c = p(0).m*p(1).m';
K(p(0),p(1)) = c;
K(p(1),p(0)) = c' - 2*c;
b(p(0)) = c*s.w;
""",
    """var t = [1, 2; 3, a];
t = t*t - t';
K(p(1),p(0)) = t;
b(p(0)) = t'*[1, s.k];
""",
    """b(p(0)) = s.w.*p(1).v;
b(p(1)) = (s.w + p(0).v).*s.w;
M(s,p(1)) = p(0).m(0,1)*s.w(1);
""",
    # variables that change, and words that wrap round
    """var n = s.k;
if n < 0
n = -n;
end
for i in 0:3
n = n + n;
end
e(s) = n;
M(s,p(0)) = n;
""",
    """e(s) = 9223372036854775807*s.k;
M(s,p(0)) = 4611686018427387904*s.w(0);
K(p(0),p(1)) = 6148914691236517205*p(1).m;
""",
]

MAINS = [
    """var b, e, K, M = map f(3) to ls reduce +;
ps.v = b;
ls.k = e;
""",
    # matrices times vectors
    """var b, e, K, M = map f(2) to ls reduce +;
ps.v = K*ps.v;
ls.k = M*ps.x;
""",
    """var b, e, K, M = map f(1) to ls reduce +;
ps.x = M'*e;
ps.v = K'*b;
""",
    """var b, e, K, M = map f(0) to ls reduce +;
ps.v = (K + 2*K')*b - b;
ls.k = -e;
""",
    # products of matrices, and of both signs
    """var b, e, K, M = map f(-1) to ls reduce +;
ps.v = K*K'*ps.v;
var Q = M'*M;
ps.x = Q*ps.x - M'*ls.k;
""",
    """var b, e, K, M = map f(4) to ls reduce +;
ps.v = -(K - K'*K)*(ps.v + b);
ls.k = M*(M'*ls.k);
""",
    # fields that are assigned together, and read after
    """ps.x, ps.v = map u(1.50) to ps reduce +;
ps.x, ps.v = map u(-2.00) to ps reduce +;
var b, e, K, M = map f(1) to ls reduce +;
ls.k = e;
""",
    """var g, c = map u(0.25) to ps reduce +;
var b, e, K, M = map f(3) to ls reduce +;
ps.x = g + M'*e;
ps.v = c.*b;
""",
    # loops
    """for i in 0:3
var b, e, K, M = map f(i) to ls reduce +;
ls.k = ls.k + e;
ps.v = ps.v + K*b;
end
""",
    """var n = 0;
while n < 3
var b, e, K, M = map f(n) to ls reduce +;
ps.x = M'*ls.k;
n = n + 1;
if n == 2
ps.v = b;
end
end
""",
    """for i in -2:2
for j in i:1
ps.x = ps.x + i*ps.x;
end
ls.k = i*ls.k - ls.k;
end
""",
    # branches
    """var b, e, K, M = map f(2) to ls reduce +;
if dot(e, e) > 100 and dot(b, b) >= 0 or 1 == 2
ps.v = b;
else
ls.k = e + e;
end
""",
    # asserts and other traps
    """var b, e, K, M = map f(3) to ls reduce +;
ps.v = b;
assert dot(b, b) < 50;
ls.k = e;
""",
    """var b, e, K, M = map f(1) to ls reduce +;
ls.k = quot(1000, dot(e, e), 0)*ls.k;
""",
    """var b, e, K, M = map f(1) to ls reduce +;
var t = dot(b, ps.v);
if isqrt(t, 0) >= 3
ps.v = -b;
end
""",
    """var g, c = map u(-0.50) to ps reduce +;
var b, e, K, M = map f(dot(g, ps.x) - 5) to ls reduce +;
ls.k = M*g;
""",
    # turns
    """var n = 0;
while dot(ps.v, ps.v) >= 0 or n >= 0
var b, e, K, M = map f(n) to ls reduce +;
ps.v = b;
n = n + 1;
end
""",
    """var b, e, K, M = map f(2) to ls reduce +;
for i in 0:dot(e, e)
ls.k = ls.k + e;
end
""",
    # scales
    """var b, e, K, M = map f(5) to ls reduce +;
ps.y = rescale(2.5*ps.y, 2);
ls.h = rescale(rescale(e, 4), 2) - 3*ls.h;
ps.x = rescale(dot(ps.y, ps.y), 0)*ps.x;
""",
    """var b, e, K, M = map f(6) to ls reduce +;
var d = quot(dot(e, ls.k), 3.00, 1);
ps.y = rescale(d*rescale(M'*e, 1), 2);
ps.v = rescale(K, 0)*b;
""",
]


def programs(case):
    endings = Counter()
    for i, link_body in enumerate(LINK_BODIES):
        for j, main_body in enumerate(MAINS):
            point_body = POINT_BODIES[(i + j) % len(POINT_BODIES)]
            text = DECLARATIONS + OVER_POINTS + point_body + "end\n" + OVER_LINKS + link_body + "end\nproc main\n" + main_body + "end\n"
            endings[case("combined", "combined_%02d_%02d" % (i, j), text, TABLES, turns=TURNS, status="any")] += 1
    assert endings == ENDINGS, endings
