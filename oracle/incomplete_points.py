#!/usr/bin/env python3
"""Points of 01's comparison box for ellippi, ellipeinc and ellipf, with references from mpmath, and how far docs/STEPS.md is from them.

    oracle/incomplete_points.py OUT [POINTS] [--store]

writes OUT/ellippi.txt, OUT/ellipeinc.txt and OUT/ellipf.txt, POINTS lines each (5,000): two argument patterns and the pattern of the reference (40 digits, rounded once to
f64), 16 hex digits each, in the order of the function's arguments. With --store the first 1,000 lines of each also go to crates/vectors/data, the lists that are replayed:
an answer passes if it is within 2^-36 of the reference, relative; a zero passes for a zero of either sign.
The steps are run here in f64, with the C library's sine, cosine and root, and with K and E rounded from mpmath (ellipf's K by its own mean). How many rounds each recipe makes is shown too.
Boost's answers at the same points: oracle/boost_points.cpp.
"""
import math
import os
import random
import struct
import sys

import mpmath
from mpmath import mpf

SEED = 20250511
POINTS = 5000
STORED = 1000
RECIPES = ("rf", "rc", "rd", "rj")
PI, HALF_PI, EPS = math.pi, math.pi / 2, 2.0**-52
INF, NAN = math.inf, math.nan


def pattern(x):
    return struct.unpack("<Q", struct.pack("<d", x))[0]


# ---- docs/STEPS.md in f64. An outcome is (value, met, rounds, rounds inside); an answer is a float or a refusal ("refused", number).


def div(a, b):
    try:
        return a / b
    except ZeroDivisionError:
        return NAN if a == 0 or a != a else math.copysign(INF, a) * math.copysign(1.0, b)


def root(x):
    return math.sqrt(x) if x >= 0 else x if x == 0 else NAN


def larger(a, b):
    return b if a < b else a


def duplicated(state, stops, turn, closed):
    for k in range(64):
        if stops(state):
            return closed(state, k)
        state = turn(state)
    return closed(state, 64)


def quarter(v, l):
    return (v + l) / 4


def roots(*xs):
    r = [root(x) for x in xs]
    return r, r[0] * r[1] + r[1] * r[2] + r[2] * r[0]


def rc(x, y):
    a = (x + y + y) / 3
    stops = lambda s: s[3] < s[2] / 128

    def turn(s):
        l = 2 * root(s[0]) * root(s[1]) + s[1]
        return quarter(s[0], l), quarter(s[1], l), quarter(s[2], l), s[3] / 4

    def closed(s, k):
        t = div(s[1] - s[2], s[2])
        high = 9 / 22 + t * (159 / 208 + t * (9 / 8))
        series = 1 + t * t * (3 / 10 + t * (1 / 7 + t * (3 / 8 + t * high)))
        return div(series, root(s[2])), stops(s), k, 0

    return duplicated((x, y, a, larger(abs(a - x), abs(a - y))), stops, turn, closed)


def rf(x, y, z):
    a = 4 * ((x / 4 + y / 4 + z / 4) / 3)
    stops = lambda s: s[4] < s[3] / 512

    def turn(s):
        _, l = roots(*s[:3])
        return *(quarter(v, l) for v in s[:4]), s[4] / 4

    def closed(s, k):
        x, y = div(s[3] - s[0], s[3]), div(s[3] - s[1], s[3])
        z = -(x + y)
        e2, e3 = x * y - z * z, x * y * z
        return div(1 - e2 / 10 + e3 / 14 + e2 * e2 / 24 - 3 * e2 * e3 / 44, root(s[3])), stops(s), k, 0

    return duplicated((x, y, z, a, larger(larger(abs(a - x), abs(a - y)), abs(a - z))), stops, turn, closed)


def fifth(e2, e3, e4, e5):
    return 1 - 3 * e2 / 14 + e3 / 6 + 9 * e2 * e2 / 88 - 3 * e4 / 22 - 9 * e2 * e3 / 52 + 3 * e5 / 26


def rd(x, y, z):
    a = (x + y + 3 * z) / 5
    stops = lambda s: s[4] < s[3] / 1024

    def turn(s):
        r, l = roots(*s[:3])
        return *(quarter(v, l) for v in s[:4]), s[4] / 4, s[5] / 4, s[6] + div(s[5], r[2] * (s[2] + l))

    def closed(s, k):
        x, y = div(s[3] - s[0], s[3]), div(s[3] - s[1], s[3])
        z = -(x + y) / 3
        xy, zz = x * y, z * z
        series = fifth(xy - 6 * zz, (3 * xy - 8 * zz) * z, 3 * (xy - zz) * zz, xy * zz * z)
        return div(s[5] * series, s[3] * root(s[3])) + 3 * s[6], stops(s), k, 0

    return duplicated((x, y, z, a, larger(larger(abs(a - x), abs(a - y)), abs(a - z)), 1.0, 0.0), stops, turn, closed)


def rj(x, y, z, p):
    a = (x + y + z + 2 * p) / 5
    stops = lambda s: s[5] < s[4] / 1024

    def turn(s):
        (rx, ry, rz), l = roots(*s[:3])
        rp = root(s[3])
        d = (rp + rx) * (rp + ry) * (rp + rz)
        c = rc(1.0, div(2 * rp * (s[3] + l), d))
        return *(quarter(v, l) for v in s[:5]), s[5] / 4, s[6] / 4, s[7] + div(s[6], d) * c[0], s[8] and c[1], s[9] + c[2]

    def closed(s, k):
        x, y, z = (div(s[4] - v, s[4]) for v in s[:3])
        p = -(x + y + z) / 2
        xyz, pp = x * y * z, p * p
        e2 = x * y + x * z + y * z - 3 * pp
        e3 = xyz + 2 * e2 * p + 4 * pp * p
        e4 = (2 * xyz + e2 * p + 3 * pp * p) * p
        value = div(s[6] * fifth(e2, e3, e4, xyz * pp), s[4] * root(s[4])) + 6 * s[7]
        return value, stops(s) and s[8], k, s[9]

    q = larger(larger(abs(a - x), abs(a - y)), larger(abs(a - z), abs(a - p)))
    return duplicated((x, y, z, p, a, q, 1.0, 0.0, True, 0), stops, turn, closed)


def refused(n):
    return "refused", n


def complete(f, m):
    if m == -INF:
        return 0.0 if f is mpmath.ellipk else INF
    return float(f(mpf(m))) if m < 1 else NAN if m != 1 else INF if f is mpmath.ellipk else 1.0


def settled(met, v):
    return refused(5) if not met else v if math.isfinite(v) else refused(6)


def third_kind(n, m, rest):
    f, j = rf(0.0, 1 - m, 1.0), rj(0.0, 1 - m, 1.0, rest)
    return f[0] + n * j[0] / 3, f[1] and j[1]


def ellippi(n, m):
    if n != n or m != m:
        return refused(1)
    if m > 1:
        return refused(2)
    if n == 1:
        return refused(4)
    if m == 1:
        return -INF if 1 - n < 0 else INF
    if n == -INF or m == -INF:
        return 0.0
    if n > 1:
        j = rj(0.0, 1 - m, 1.0, 1 - m / n)
        return settled(j[1], -(1 / 3) * m / n * j[0])
    if n < 0 and m < 0:
        if m == n:
            return settled(True, complete(mpmath.ellipe, m) / (1 - m))
        rn, rm = 1 - n, 1 - m
        j = rj(0.0, rm, 1.0, rm / rn)
        return settled(j[1], complete(mpmath.ellipk, m) / rn + div((-n) * rm, 3 * rn * rn) * j[0])
    if n < 0:
        v, met = third_kind((m - n) / (1 - n), m, (1 - m) / (1 - n))
        b = v * -n / (1 - n) * (1 - m) / (m - n)
        return settled(met, b + complete(mpmath.ellipk, m) * m / (m - n))
    if n == 0:
        return HALF_PI if m == 0 else settled(True, complete(mpmath.ellipk, m))
    if m == n:
        return settled(True, 1 / (1 - m) * complete(mpmath.ellipe, m))
    v, met = third_kind(n, m, 1 - n)
    return settled(met, v)


def away(x):
    return math.copysign(math.floor(abs(x) + 0.5) if abs(x) < 2.0**52 else abs(x), x)


def handed(v):
    return refused(6) if v != v else v


def folded(size):
    rest = math.fmod(size, HALF_PI)
    mm = away((size - rest) / HALF_PI)
    return (HALF_PI - rest, mm + 1, -1.0) if math.fmod(mm, 2.0) > 0.5 else (rest, mm, 1.0)


def ellipeinc(phi, m):
    sign, size = -1.0 if phi < 0 else 1.0, abs(phi)
    if phi == 0:
        return 0.0
    if m == 0:
        return refused(1) if phi != phi else phi
    if size >= sys.float_info.max:
        return -INF if phi < 0 else INF
    if phi != phi:
        return refused(2) if m > 1 else refused(1)
    if m != m:
        return refused(1)
    if size > 2.0**52:
        return refused(2) if m > 1 else handed(sign * 2 * size * complete(mpmath.ellipe, m) / PI)
    if m <= -sys.float_info.max:
        h = math.sin(math.fmod(size, PI) / 2)
        return handed(sign * (2 * (math.floor(size / PI) + h * h)) * root(-m))
    if m == 1:
        mm = away(size / PI)
        return handed(sign * (2 * mm + math.sin(size - mm * PI)))
    angle, mm, s = folded(size)
    met = True
    if angle == 0 or abs(m) * angle * angle < EPS:
        v = s * angle
    else:
        sine, cosine = math.sin(angle), math.cos(angle)
        s2, c2 = sine * sine, cosine * cosine
        if m * s2 >= 1:
            return refused(3)
        c, c1 = div(1.0, s2), div(c2, s2)
        if m < 0:
            f, d = rf(c1, c - m, c), rd(c1, c - m, c)
            v = f[0] - m * d[0] / 3
        else:
            f, d = rf(c1, c, c - m), rd(c1, c, c - m)
            v = (1 - m) * f[0] + m * (1 - m) * d[0] / 3 + m * root(div(c1, c * (c - m)))
        met, v = f[1] and d[1], s * v
    if mm != 0 and m > 1:
        return refused(2)
    if not met:
        return refused(5)
    return handed(sign * (v + mm * complete(mpmath.ellipe, m) if mm != 0 else v))


def mean_k(m):
    """ellipk.rs's `ellipk_precise_unchecked`."""
    x, y = 1.0, root(1 - m)
    for _ in range(32):
        if not abs(x - y) >= 1e-7 * abs(x):
            break
        x, y = (x + y) / 2, root(x * y)
    diff, total = x - y, x + y
    return div(PI, total * (1 - div(diff * diff, 4 * total * total)))


def ellipf(phi, m):
    if phi != phi or m != m:
        return refused(1)
    if m == 0:
        return phi
    sign, size = math.copysign(1.0, phi), abs(phi)
    if m >= 1 and (size >= HALF_PI or m * (math.sin(phi) * math.sin(phi)) >= 1):
        return refused(3)
    if size > 2.0**52:
        return handed(sign * INF if size == INF else sign * size * (mean_k(m) / HALF_PI))
    angle, mm, s = folded(size)
    sine, cosine = math.sin(angle), math.cos(angle)
    s2, c2 = sine * sine, cosine * cosine
    if m * s2 >= 1:
        return refused(3)
    c, c1 = div(1.0, s2), div(c2, s2)
    if c == INF:
        f = rf(c2, 1 - m * sine * sine, 1.0)
        v = s * sine * f[0]
    else:
        cross = abs(c / m)
        f = rf(c1, c1 + 1 - m if 0.9 < cross < 1.1 else c - m, c)
        v = s * f[0]
    if mm != 0:
        v += mm * mean_k(m)
    v *= sign
    if m == -INF and not (f[1] and math.isfinite(v)):
        return 0.0
    return settled(f[1], v)


# ---- references: definitions that use none of the steps above


def ellippi_reference(n, m):
    n, m = mpf(n), mpf(m)
    if n < 1 or m == 0:
        return mpmath.ellippi(n, m) if n < 1 else mpf(0)
    # the principal value, from Π(n, m) + Π(m/n, m) = K(m) (DLMF 19.7.8 at the complete integral); the difference loses the digits of m/n
    with mpmath.workdps(60 + max(0, -int(mpmath.log10(abs(m / n))))):
        return mpmath.ellipk(m) - mpmath.ellippi(m / n, m)


def ellipeinc_reference(phi, m):
    return mpmath.ellipe(mpf(phi), mpf(m))


def ellipf_reference(phi, m):
    return mpmath.ellipf(mpf(phi), mpf(m))


# ---- points of 01's box


def spread(rng, least, most):
    """A size between the two, evenly or by its exponent."""
    if rng.random() < 0.5:
        return rng.uniform(0, most)
    return min(most, math.exp(rng.uniform(math.log(least), math.log(most))))


def parameter(rng):
    kind = rng.random()
    if kind < 0.03:
        return 0.0
    if kind < 0.5:
        return -spread(rng, 2.0 ** (-900 if kind < 0.06 else -20), 1000.0)
    return min(0.99, spread(rng, 2.0 ** (-900 if kind < 0.53 else -20), 0.99))


def characteristic(rng, m):
    kind = rng.random()
    if kind < 0.03:
        return 0.0
    if kind < 0.08:
        return m
    if kind < 0.35:
        return -spread(rng, 2.0 ** (-900 if kind < 0.1 else -20), 1000.0)
    if kind < 0.65:
        return min(0.99, spread(rng, 2.0 ** (-900 if kind < 0.38 else -20), 0.99))
    return max(1.01, min(1000.0, 1 + spread(rng, 0.01, 999.0)))


def amplitude(rng):
    kind = rng.random()
    if kind < 0.2:  # close to a multiple of π/2
        x = rng.randrange(1, 600) * HALF_PI * (1 + rng.choice((0, 1, -1, 8, 1000)) * EPS)
    elif kind < 0.6:
        x = rng.uniform(0, 1000)
    else:
        x = spread(rng, 2.0**-30, 4.0)
    return math.copysign(x, rng.random() - 0.3)


def any_amplitude(rng):
    """As above, and down to the smallest: the box has no lower end, and in ellipf no small angle stands for its own integral."""
    return math.copysign(2.0 ** rng.uniform(-1070, -30), rng.random() - 0.5) if rng.random() < 0.1 else amplitude(rng)


def counted(made):
    """From here on every call of a recipe leaves its rounds in `made`."""

    def counting(name, recipe):
        def call(*args):
            outcome = recipe(*args)
            made.setdefault(name, []).append(outcome[2])
            return outcome

        return call

    for name in RECIPES:
        globals()[name] = counting(name, globals()[name])


def points(name, known, draw, steps, reference, out, count, store, made):
    rng = random.Random(f"{SEED} {name}")
    made.clear()
    lines, worst, where, refusals = [], mpf(0), None, 0
    while len(lines) < count:
        args = known.pop() if known else draw(rng)
        exact = reference(*args)
        got = steps(*args)
        if isinstance(got, tuple):
            refusals += 1
        elif exact == 0 or got == 0:
            assert exact == 0 and got == 0, (args, exact, got)
        elif (off := abs(mpf(got) - exact) / abs(exact)) > worst:
            worst, where = off, args
        lines.append(" ".join(f"{pattern(v):016x}" for v in (*args, float(exact))))
    with open(os.path.join(out, name + ".txt"), "w") as f:
        f.write("\n".join(lines) + "\n")
    if store:
        with open(os.path.join(os.path.dirname(os.path.abspath(__file__)), "..", "crates", "vectors", "data", name + ".txt"), "w") as f:
            f.write("\n".join(lines[:STORED]) + "\n")
    print(f"{name}: {len(lines)} points, {refusals} refused, largest relative difference 2^{float(mpmath.log(worst, 2)):.2f} at {where}")
    for recipe in sorted(made):
        print(f"{name}: {recipe} makes {sum(made[recipe]) / len(made[recipe]):.1f} rounds on average, {max(made[recipe])} at most")


def main():
    mpmath.mp.dps = 60
    words = [word for word in sys.argv[1:] if word != "--store"]
    made = {}
    counted(made)
    how = words[0], int(words[1]) if len(words) > 1 else POINTS, "--store" in sys.argv, made

    def pi_point(rng):
        m = parameter(rng)
        return characteristic(rng, m), m

    points("ellippi", [(0.5, 0.5)], pi_point, ellippi, ellippi_reference, *how)
    points("ellipeinc", [(PI / 4, 0.5)], lambda rng: (amplitude(rng), parameter(rng)), ellipeinc, ellipeinc_reference, *how)
    # the stretch where c = 1/sin² is finite and three times it is not, and both its ends
    narrow = [(2.0**-512 * (1 + k / 16), m) for k in range(16) for m in (-1000.0, 0.99)]
    points("ellipf", narrow + [(PI / 4, 0.5)], lambda rng: (any_amplitude(rng), parameter(rng)), ellipf, ellipf_reference, *how)


if __name__ == "__main__":
    main()
