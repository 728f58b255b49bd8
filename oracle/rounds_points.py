#!/usr/bin/env python3
"""oracle/rounds_points.py [COUNT [SEED]]: the rounds that `sm_rounds` gives, against a count of its own by docs/STEPS.md.
COUNT points each of ellippi, ellipeinc and ellipf (4,000), over the comparison box, the whole range of exponents, the ends and the corners, and a few of the functions that ask no recipe.
The first asks the compiled library over faces/python (examples/prove shuttlemint && faces/python/build), and prints how many points each refusal has, the largest count and every point that differs.
oracle/rounds_points.py --list N prints N of the points, for crates/vectors: function, arguments and the count made here, as words of 16 hex digits.

Rounds do not depend on a recipe's value, so none is worked out here: a recipe is its arguments and its stop test. All is Python's f64, with the C library's sine, cosine and root. Its sine may
differ from the library's in the last bit, and that bit decide a round, or 3; no such point was met."""
import ctypes
import math
import os
import random
import struct
import sys

INF, NAN, MAX = math.inf, math.nan, sys.float_info.max
PI, HALF_PI, EPS = math.pi, math.pi / 2, 2.0**-52
MOST = 64
ELLIPPI, ELLIPEINC, ELLIPF = 4, 5, 6


def pattern(x):
    return struct.unpack('<Q', struct.pack('<d', x))[0]


# ---- f64 where Python raises instead


def quotient(a, b):
    if b != 0:
        return a / b
    return NAN if a == 0 or a != a else math.copysign(INF, a) * math.copysign(1.0, b)


def root(x):
    return math.sqrt(x) if x > 0 else x if x == 0 else NAN


# ---- the recipes: how many rounds until the stop test is first met, MOST where it never is


def farthest(mean, arguments):
    """The largest distance; a NaN among them, which no order places, is kept: the test then fails either way, as the mean is NaN or infinite too."""
    far = [abs(mean - x) for x in arguments]
    return NAN if any(d != d for d in far) else max(far)


def spread(x, y, z):
    a, b, c = root(x), root(y), root(z)
    return a * b + b * c + c * a


def count(arguments, mean, share, spread_of, each_round=lambda arguments, spread: 0):
    """(rounds, rounds inside)."""
    arguments, distance, inside = list(arguments), farthest(mean, arguments), 0
    for k in range(MOST):
        if distance < mean / share:
            return k, inside
        l = spread_of(*arguments)
        inside += each_round(arguments, l)
        arguments = [(x + l) / 4 for x in arguments]
        mean, distance = (mean + l) / 4, distance / 4
    return MOST, inside


def rc(x, y):
    return count((x, y), (x + y + y) / 3, 128, lambda x, y: 2 * root(x) * root(y) + y)[0]


def rf(x, y, z):
    return count((x, y, z), (x + y + z) / 3, 512, spread)[0]


def rd(x, y, z):
    return count((x, y, z), (x + y + 3 * z) / 5, 1024, spread)[0]


def inner(arguments, l):
    """The RC of one round of RJ."""
    x, y, z, p = arguments
    rp = root(p)
    d = (rp + root(x)) * (rp + root(y)) * (rp + root(z))
    return rc(1.0, quotient(2 * rp * (p + l), d))


def rj(x, y, z, p):
    """RJ's own, and those of RC inside it."""
    return sum(count((x, y, z, p), (x + y + z + 2 * p) / 5, 1024, lambda x, y, z, p: spread(x, y, z), inner))


# ---- the functions: which recipes they ask


def ellippi(n, m):
    if n != n or m != m or m > 1 or n == 1 or m == 1 or n == -INF or m == -INF:
        return 0
    below = 1 - m
    if n > 1:
        return rj(0.0, below, 1.0, 1 - m / n)
    if n == 0 or m == n:
        return 0
    if n < 0 and m < 0:
        return rj(0.0, below, 1.0, below / (1 - n))
    return rf(0.0, below, 1.0) + rj(0.0, below, 1.0, below / (1 - n) if n < 0 else 1 - n)


def folded(size):
    """The angle of the reduction, which is all that the recipes see of it."""
    rest = math.fmod(size, HALF_PI)
    turns = (size - rest) / HALF_PI
    mm = math.floor(turns) + (1.0 if turns - math.floor(turns) >= 0.5 else 0.0)
    return HALF_PI - rest if math.fmod(mm, 2.0) > 0.5 else rest


def large(m, c):
    return c > 2.0**200 or abs(m) > 2.0**200


def ellipeinc(phi, m):
    size = abs(phi)
    if phi == 0 or m == 0 or phi != phi or m != m or m == -INF or size > 2.0**52 or m == 1:
        return 0
    angle = folded(size)
    if angle == 0 or abs(m) * angle * angle < EPS:
        return 0
    s, t = math.sin(angle), math.cos(angle)
    s2, c2 = s * s, t * t
    if m * s2 >= 1:
        return 0
    c, c1 = quotient(1.0, s2), quotient(c2, s2)
    if m < 0 or m > 4096:
        if large(m, c) or m > 4096:
            m, c, c1 = m / 2.0**512, c / 2.0**512, c1 / 2.0**512
        asked = c1, c - m, c
    else:
        asked = c1, c, c - m
    return rf(*asked) + rd(*asked)


def ellipf(phi, m):
    size = abs(phi)
    if phi != phi or m != m or m == 0 or m >= 1 and size >= HALF_PI:
        return 0
    if m >= 1 and m * (math.sin(phi) * math.sin(phi)) >= 1 or size > 2.0**52:
        return 0
    angle = folded(size)
    s, t = math.sin(angle), math.cos(angle)
    s2, c2 = s * s, t * t
    if m * s2 >= 1:
        return 0
    c, c1 = quotient(1.0, s2), quotient(c2, s2)
    if c == INF:
        return rf(c2, 1 - m * s * s, 1.0)
    y = c1 + 1 - m if 0.9 < abs(c / m) < 1.1 else c - m
    return rf(*(v / 2.0**512 for v in (c1, y, c))) if large(m, c) else rf(c1, y, c)


COUNTS = {ELLIPPI: ellippi, ELLIPEINC: ellipeinc, ELLIPF: ellipf}


def counted(function, a, b):
    return COUNTS[function](a, b) if function in COUNTS else 0


# ---- the points

CORNERS = (0.0, -0.0, 1.0, -1.0, 0.5, -0.5, 2.0, -2.0, HALF_PI, -HALF_PI, PI, 3.3, 5e-324, -5e-324, 2.0**-1000, -(2.0**-900), -(2.0**682), -(2.0**700), 2.0**52, 2.0**52 + 1, 2.0**700, 2.0**1023,
           MAX, -MAX, INF, -INF, NAN)


def signed(r, x):
    return math.copysign(x, r.random() - 0.5)


def by_size(r, least, most):
    return 2.0 ** r.uniform(least, most)


def parameter(r):
    kind = r.randrange(6)
    if kind == 0:
        return r.uniform(-1000, 0.99)
    if kind == 1:
        return r.uniform(0, 1)
    if kind == 2:
        return -by_size(r, -60, 60)
    if kind == 3:
        return -by_size(r, -1074, 1023.9)
    if kind == 4:
        return 1 - by_size(r, -53, -1)
    return by_size(r, -20, 40)


def with_characteristic(r):
    m = parameter(r) if r.random() < 0.8 else r.uniform(-10, 0.99)
    kind = r.randrange(6)
    if kind == 0:
        return r.uniform(-1000, 1000), m
    if kind == 1:
        return -by_size(r, -1074, 1023.9), m
    if kind == 2:
        return 1 + signed(r, by_size(r, -52, 0)), m
    if kind == 3:
        return by_size(r, 0, 1023.9), m
    if kind == 4:
        return m, m
    return r.uniform(0, 1), m


def with_amplitude(r):
    kind = r.randrange(6)
    if kind == 0:
        phi = r.uniform(0, HALF_PI)
    elif kind == 1:
        phi = r.uniform(0, 1000)
    elif kind == 2:
        phi = by_size(r, -1074, 0.65)
    elif kind == 3:
        phi = r.randrange(1, 600) * HALF_PI * (1 + r.choice((0, 1, -1, 8, 1000)) * EPS)
    elif kind == 4:
        phi = by_size(r, 0, 53)
    else:
        phi = by_size(r, -520, 0.65)
    m = parameter(r)
    if r.random() < 0.3:  # m sin² of any size below 1, and near 1
        m = signed(r, 2.0 ** min(1023.0, max(-1074.0, -2 * math.log2(phi) - r.choice((r.uniform(0, 60), r.uniform(0, 0.2), -r.uniform(0, 60))))))
    return signed(r, phi), m


def points(each, seed):
    """Each function's in turn, so that a part of the list has all of them."""
    r = random.Random(seed)
    corners = [(function, a, b) for a in CORNERS for b in CORNERS for function in range(4, 7)]
    plain = [(function, r.uniform(-2, 2), r.uniform(-2, 2)) for function in (0, 1, 2, 3, 7, 9, 255) for _ in range(20)]
    drawn = []
    for _ in range(each):
        drawn += [(ELLIPPI, *with_characteristic(r)), (ELLIPEINC, *with_amplitude(r)), (ELLIPF, *with_amplitude(r))]
    known = [(ELLIPPI, -(2.0**-900), -(2.0**682)), (ELLIPF, 1.0, -INF), (ELLIPEINC, 3.3, 2.0)]
    return known, corners, plain, drawn


def compare(each, seed):
    sys.path.insert(0, os.path.join(os.path.dirname(os.path.abspath(__file__)), '..', 'faces', 'python'))
    import shuttlemint
    from shuttlemint._library import library

    differ, refusals, largest = 0, {}, {}
    all_points = sum(points(each, seed), [])
    for function, a, b in all_points:
        mine, given = counted(function, a, b), shuttlemint.rounds(function, pattern(a), pattern(b))
        refusal = library.sm_evaluate(function, pattern(a), pattern(b), 0, (ctypes.c_uint64 * 2)(), 2)
        refusals[refusal] = refusals.get(refusal, 0) + 1
        largest[function] = max(largest.get(function, (0,)), (given, a, b))
        if mine != given:
            differ += 1
            print('function %d at (%r, %r): %d rounds, and should be %d' % (function, a, b, given, mine))
    for function in sorted(COUNTS):
        print('function %d: at most %d rounds, at (%r, %r)' % (function, *largest[function]))
    print('%d points, %s; %d differ' % (len(all_points), ', '.join('%d refused %d' % (n, k) if k else '%d answered' % n for k, n in sorted(refusals.items())), differ))
    return differ


def main():
    if sys.argv[1:2] == ['--list']:
        known, corners, plain, drawn = points(4000, 19)
        wanted = int(sys.argv[2])
        counts = [counted(*point) for point in drawn]
        unmet = [point for point, k in zip(drawn, counts) if k >= MOST][:100]
        some = [point for point, k in zip(drawn, counts) if 0 < k < MOST]
        chosen = known + corners[::11] + plain[::7] + unmet + some
        for function, a, b in chosen[:wanted]:
            print('%016x %016x %016x %016x' % (function, pattern(a), pattern(b), counted(function, a, b)))
        return
    each = int(sys.argv[1]) if len(sys.argv) > 1 else 4000
    seed = int(sys.argv[2]) if len(sys.argv) > 2 else 19
    sys.exit(compare(each, seed) > 0)


main()
