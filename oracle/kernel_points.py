"""Points for sine, cosine, logarithm and arc tangent with references to more than 30 digits, for a Rattle program to replay.

    python3 oracle/kernel_points.py DIRECTORY     writes sine.txt, cosine.txt, logarithm.txt, arctangent.txt

A line has four f64 patterns, 16 hexadecimal digits each, one space apart: x, high, low, bound. The reference is high + low: high the f64 nearest to the exact sum of document 01,
module 2, for the arc tangent that of 02, [6], and low the f64 nearest to what is left. bound is the proved bound at x. So for an answer r the part of the bound that it uses is |(r - high) - low| / bound, in f64 arithmetic
(r - high is exact), and 0 where the numerator is 0. Each exact sum was held against mpmath at 60 digits. The seed is fixed: the files are the same each time.
"""
import math
import random
import struct
import sys
from fractions import Fraction

import mpmath

import kernel_model as model

mpmath.mp.dps = 60


def pattern(x):
    return "%016x" % struct.unpack("<Q", struct.pack("<d", x))[0]


def nearest(fraction):
    return fraction.numerator / fraction.denominator


def line(x, reference, bound):
    high = nearest(reference)
    low = nearest(reference - Fraction(high))
    return " ".join(map(pattern, (x, high, low, nearest(bound))))


def held(x, reference, true, slack):
    """The exact sum is the function itself, up to the terms that it leaves out."""
    assert abs(mpmath.mpf(reference.numerator) / reference.denominator - true) <= slack, x


def sine(x):
    reference = model.taylor(x, 1, 21)
    held(x, reference, mpmath.sin(mpmath.mpf(x)), mpmath.mpf(4) ** 43 / mpmath.factorial(43))
    return line(x, reference, abs(Fraction(x)) / 2**52)


def cosine(x):
    reference = model.taylor(x, 0, 22)
    held(x, reference, mpmath.cos(mpmath.mpf(x)), mpmath.mpf(4) ** 44 / mpmath.factorial(44))
    return line(x, reference, Fraction(1, 2**52))


def logarithm(x):
    k, f = model.split(x)
    reference = k * model.S_THIRD + model.s((f - 1) / (f + 1))
    held(x, reference, mpmath.log(mpmath.mpf(x)), (abs(k) + 1) * mpmath.mpf(3) ** -42)
    return line(x, reference, Fraction(abs(k) + 1, 2**53))


def arctangent(x):
    reference, bound = model.arctangent_sum(x)
    held(x, reference, mpmath.atan(mpmath.mpf(x)), mpmath.mpf(3) ** -42)
    return line(x, reference, bound)


def angles(rng):
    points = [y for c in (math.pi / 2, math.pi, math.pi / 4, 1.0, 3.0) for y in model.about(c, 20)] + [y for y in model.about(4.0, 20) if y <= 4]
    points += [0.0] + [2.0**-k for k in range(0, 64)] + [2.0**-k for k in range(64, 1075, 20)]
    points += [5e-324 * rng.randrange(1, 2**52) for _ in range(40)]
    points += [rng.uniform(0, 4) for _ in range(500)] + [rng.uniform(1, 2) * 2.0 ** rng.randint(-40, 1) for _ in range(250)]
    return [x * rng.choice((1, -1)) for x in points]


def positives(rng):
    points = [y * 2.0**k for y in model.about(0.75, 8) + model.about(1.5, 8) + model.about(1.0, 8) for k in (-1000, -1, 0, 1, 1000)]
    points += [2.0**k for k in range(-1074, 1024, 10)] + [1.7976931348623157e308, 5e-324, 2.2250738585072014e-308]
    points += [5e-324 * rng.randrange(1, 2**52) for _ in range(40)]
    points += [rng.uniform(0.5, 2) for _ in range(350)] + [rng.uniform(1, 2) * 2.0 ** rng.randint(-1074, 1022) for _ in range(350)]
    return points


def tangents(rng):
    points = [y for c in (0.25, 0.5, 0.75, 1.0, 1.5, 2.0, 4.0) for y in model.about(c, 12)]
    points += [0.0, math.inf] + [2.0**k for k in range(-70, 70)] + [2.0**k for k in range(-1074, 1024, 20)] + [1.7976931348623157e308, 5e-324, 2.2250738585072014e-308]
    points += [5e-324 * rng.randrange(1, 2**52) for _ in range(40)]
    points += [rng.uniform(0, 5) for _ in range(400)] + [rng.uniform(1, 2) * 2.0 ** rng.randint(-40, 70) for _ in range(300)]
    return [x * rng.choice((1, -1)) for x in points]


if __name__ == "__main__":
    xs, ys, zs = angles(random.Random(41)), positives(random.Random(42)), tangents(random.Random(43))
    for function, points in ((sine, xs), (cosine, xs), (logarithm, ys), (arctangent, zs)):
        assert len(points) >= 1000, function
        with open("%s/%s.txt" % (sys.argv[1], function.__name__), "w") as out:
            for x in points:
                out.write(function(x) + "\n")
        print(function.__name__, len(points))
