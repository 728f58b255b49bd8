#!/usr/bin/env python3
"""The steps of sine, cosine, logarithm and arc tangent (docs/STEPS.md) over whole numbers, and how far they lie from the exact sums of document 01, module 2, and for the arc tangent of
02, [6]. Run it to see the largest part of each proved bound that was met.

    oracle/kernel_model.py [MANY]      MANY random angles of each kind, half as many numbers (8,000)
"""
import math
import random
import struct
import sys
from fractions import Fraction

# ---- the steps

CUT = 2**59        # 1 in x, x² and the factors of the sum
ONE = 2**60        # 1 in the sum itself
THIRD = 3196577161300663914    # S(1/3) * 2^62, cut


def fits(n):
    assert 0 <= n < 2**64, n
    return n


def alternating(degree, t):
    """1 - t/d (1 - t/d' (..)) to the given degree: what is added and what is taken away."""
    added, taken = ONE, 0
    for n in range(degree, 1, -2):
        g = t // (n * (n - 1))
        added, taken = fits(ONE + g * taken // CUT), fits(g * added // CUT)
    return added, taken


def square(x):
    big = fits(int(abs(Fraction(x)) * CUT))
    return fits(big * big // CUT)


def nearest(negative, n):
    """n, a fraction, to the nearest f64 (Python's own division of whole numbers rounds once, ties to even)."""
    r = n.numerator / n.denominator
    return -r if negative else r


def sine(x):
    added, taken = alternating(41, square(x))
    negative = (math.copysign(1, x) < 0) != (added < taken)
    return nearest(negative, abs(Fraction(x)) * abs(added - taken) / ONE)


def cosine(x):
    added, taken = alternating(42, square(x))
    return nearest(added < taken, Fraction(abs(added - taken), ONE))


def split(x):
    """x = 2^k * f with 3/4 <= f < 3/2."""
    f, k = math.frexp(x)               # 1/2 <= f < 1
    return (k, Fraction(f)) if f >= 0.75 else (k - 1, 2 * Fraction(f))


def log_part(n, d):
    """2 (t + t³/3 + .. + t^41/41) of t = n / d, in units of 2^-62."""
    z = fits(n * 2**64 // d)
    w = z * z // 2**64
    h = 0
    for k in range(20, -1, -1):
        h = fits(2**63 // (2 * k + 1) + w * h // 2**64)
    return z * h // 2**64


def logarithm(x):
    k, f = split(x)
    n = int(f * 2**53)
    over = max(k, 0) * THIRD + log_part(max(n - 2**53, 0), n + 2**53)
    under = max(-k, 0) * THIRD + log_part(max(2**53 - n, 0), n + 2**53)
    return nearest(over < under, Fraction(abs(over - under), 2**62))


HALF = 4399835472195684314, 123441080383072520       # the sides of A(1/3) + A(1/7), times 2^63, cut
QUARTER = 7481936585978271796, 237917127901148953    # and of A(1/3) more
RIGHT = 2 * QUARTER[0], 2 * QUARTER[1]
TWO = RIGHT[0] + HALF[1], RIGHT[1] + HALF[0]


def run(u, n, k):
    """1/n + u/(n + 4) + .., k terms, in units of 2^-63."""
    h = 0
    for i in range(k - 1, -1, -1):
        h = fits(2**63 // (n + 4 * i) + u * h // 2**64)
    return h


def factor(t):
    w = t * t // 2**64
    u = w * w // 2**64
    return run(u, 1, 11), w * run(u, 3, 10) // 2**64


def next_to(sides, fraction):
    t = int(abs(fraction) * 2**64)
    added, taken = (t * side // 2**64 for side in factor(t))
    if fraction < 0: added, taken = taken, added
    return fits(sides[0] + added), fits(sides[1] + taken)


def place(x):
    """Of x >= 1/4: the sides of arctan c, and the fraction that is left."""
    if x < Fraction(3, 4): return HALF, (2 * x - 1) / (x + 2)
    if x < Fraction(3, 2): return QUARTER, (x - 1) / (x + 1)
    if x < 4: return TWO, (x - 2) / (2 * x + 1)
    return RIGHT, -1 / x


def arctangent(x):
    if math.isinf(x):
        return nearest(x < 0, Fraction(RIGHT[0] - RIGHT[1], 2**63))
    negative, size = math.copysign(1, x) < 0, abs(Fraction(x))
    if size < Fraction(1, 4):
        added, taken = factor(int(size * 2**64))
        return nearest(negative, size * (added - taken) / 2**63)
    added, taken = next_to(*place(size))
    return nearest(negative, Fraction(added - taken, 2**63))


# ---- the exact sums

def taylor(x, first, terms):
    x = Fraction(x)
    total, term = Fraction(0), x**first / math.factorial(first)
    for i in range(terms):
        total += term
        n = first + 2 * i
        term *= -x * x / ((n + 1) * (n + 2))
    return total


def s(t):
    t = Fraction(t)
    return 2 * sum(t ** (2 * i + 1) / (2 * i + 1) for i in range(21))


S_THIRD = s(Fraction(1, 3))
assert THIRD == int(S_THIRD * 2**62)


def sides(t):
    """t + t^5/5 + .. + t^41/41 and t^3/3 + t^7/7 + .. + t^39/39."""
    return [sum(Fraction(t) ** n / n for n in range(first, last, 4)) for first, last in ((1, 42), (3, 40))]


def a(t):
    added, taken = sides(t)
    return added - taken


for cut, terms in ((HALF, (3, 7)), (QUARTER, (3, 3, 7))):
    assert cut == tuple(int(sum(sides(Fraction(1, n))[i] for n in terms) * 2**63) for i in (0, 1))
A_HALF, A_QUARTER = a(Fraction(1, 3)) + a(Fraction(1, 7)), 2 * a(Fraction(1, 3)) + a(Fraction(1, 7))
CENTERS = {HALF: A_HALF, QUARTER: A_QUARTER, TWO: 2 * A_QUARTER - A_HALF, RIGHT: 2 * A_QUARTER}


def arctangent_sum(x):
    """The exact sum at x, and its bound."""
    if math.isinf(x):
        return (1 if x > 0 else -1) * 2 * A_QUARTER, Fraction(1, 2**52)
    size, sign = abs(Fraction(x)), 1 if x > 0 else -1
    if size < Fraction(1, 4): return sign * a(size), size / 2**52
    center, t = place(size)
    return sign * (CENTERS[center] + a(t)), Fraction(1, 2**52)


def sine_part(x):
    return abs(Fraction(sine(x)) - taylor(x, 1, 21)) * 2**52 / abs(Fraction(x))


def cosine_part(x):
    return abs(Fraction(cosine(x)) - taylor(x, 0, 22)) * 2**52


def logarithm_part(x):
    k, f = split(x)
    return abs(Fraction(logarithm(x)) - k * S_THIRD - s((f - 1) / (f + 1))) * 2**53 / (abs(k) + 1)


def arctangent_part(x):
    exact, bound = arctangent_sum(x)
    return abs(Fraction(arctangent(x)) - exact) / bound


# ---- points

def about(x, steps=40):
    """x and its neighbours on both sides."""
    bits = struct.unpack("<Q", struct.pack("<d", x))[0]
    return [struct.unpack("<d", struct.pack("<Q", bits + i))[0] for i in range(-steps, steps + 1) if 0 < bits + i]


def angles(rng, many):
    points = [y for c in (math.pi / 2, math.pi, math.pi / 4, 1.0, 2.0, 3.0) for y in about(c)]
    points += [y for y in about(4.0) if y <= 4]
    points += [2.0**-k for k in range(0, 1075)] + [1.5 * 2.0**-k for k in range(0, 1073)]
    points += [5e-324 * rng.randrange(1, 2**52) for _ in range(50)]
    points += [rng.uniform(0, 4) for _ in range(many)] + [rng.uniform(3.9, 4) for _ in range(many // 4)]
    points += [rng.uniform(1, 2) * 2.0 ** rng.randint(-40, 1) for _ in range(many // 2)]
    points += [c + rng.uniform(-1, 1) * 2.0 ** -rng.randint(1, 50) for c in (math.pi / 2, math.pi) for _ in range(many // 8)]
    return [x * rng.choice((1, -1)) for x in points if abs(x) <= 4]


def positives(rng, many):
    points = [y * 2.0**k for y in about(0.75) + about(1.5) + about(1.0) for k in (-1000, -2, -1, 0, 1, 2, 1000)]
    points += [2.0**k for k in range(-1074, 1024)]
    points += [5e-324 * rng.randrange(1, 2**52) for _ in range(50)] + [1.7976931348623157e308, 2.2250738585072014e-308]
    points += [rng.uniform(0.5, 2) for _ in range(many)]
    points += [rng.uniform(1, 2) * 2.0 ** rng.randint(-1074, 1022) for _ in range(many)]
    return points


def tangents(rng, many):
    points = [y for c in (0.25, 0.5, 0.75, 1.0, 1.5, 2.0, 4.0, 2.0**-32) for y in about(c)]
    points += [2.0**k for k in range(-1074, 1024, 25)]
    points += [5e-324 * rng.randrange(1, 2**52) for _ in range(10)] + [1.7976931348623157e308, 2.2250738585072014e-308]
    points += [rng.uniform(0, 5) for _ in range(many)]
    points += [rng.uniform(1, 2) * 2.0 ** rng.randint(-40, 70) for _ in range(many)]
    return [x * rng.choice((1, -1)) for x in points]


def largest(part, points):
    value, at = max((part(x), x) for x in points)
    return "%.4f of the bound, at %r" % (value, at)


if __name__ == "__main__":
    rng, many = random.Random(20), int(sys.argv[1]) if len(sys.argv) > 1 else 8000
    xs, ys = angles(rng, many), positives(rng, many // 2)
    print(len(xs), "angles,", len(ys), "positive numbers")
    print("sine      |x| 2^-52      ", largest(sine_part, xs))
    print("cosine    2^-52          ", largest(cosine_part, xs))
    print("logarithm (|k|+1) 2^-53  ", largest(logarithm_part, ys))
    zs = tangents(rng, many // 2)
    print(len(zs), "tangents")
    print("arctangent |x| 2^-52 or 2^-52  ", largest(arctangent_part, zs))
    assert all(abs(sine(x)) <= 1 and abs(cosine(x)) <= 1 for x in xs)
    assert all(sine(-x) == -sine(x) and cosine(-x) == cosine(x) for x in xs)
    assert all(arctangent(-x) == -arctangent(x) for x in zs)
