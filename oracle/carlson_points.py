#!/usr/bin/env python3
"""Points for Carlson's RF, RC, RD and RJ with references from mpmath, and how far docs/STEPS.md is from them.

    oracle/carlson_points.py [OUT [POINTS]]

writes rf.txt, rc.txt, rd.txt and rj.txt in OUT (crates/vectors/data), POINTS lines each (1,000): the arguments' patterns and the pattern of the reference (40 digits, rounded once to
f64), 16 hex digits each. An answer passes if the recipe's stop test is met and the value is within 2^-48 of the reference, relative.
Half of the points are arguments of sizes from 2^-100 to 2^100, one of them 0 where that is allowed, some equal; the other half are those that ellippi, ellipeinc and
ellipf ask for at points of 01's box (RC's are what RJ asks for). RJ's p is at most 2^100 times the largest other argument: a round only quarters p against the others,
so far above them 64 rounds do not meet the stop test.
mpmath's own way to the four is duplication too, so every tenth reference is held against the integral itself, summed by the trapezoidal rule (DLMF 19.16.1, 19.16.2, 19.16.5, 19.2.17).
The seed is fixed: the files are the same each time.
"""
import math
import os
import random
import sys

import mpmath
from mpmath import mpf

import incomplete_points as steps

SEED = 20261115
POINTS = int(sys.argv[2]) if len(sys.argv) > 2 else 1000
DATA = sys.argv[1] if len(sys.argv) > 1 else os.path.join(os.path.dirname(os.path.abspath(__file__)), "..", "crates", "vectors", "data")

# the steps, the reference, the integral's factor and how often each argument's root divides, and how many of the first arguments one 0 is drawn among
RECIPES = {
    "rf": (steps.rf, mpmath.elliprf, mpf(1) / 2, (1, 1, 1), 3),
    "rc": (steps.rc, mpmath.elliprc, mpf(1) / 2, (1, 2), 1),
    "rd": (steps.rd, mpmath.elliprd, mpf(3) / 2, (1, 1, 3), 2),
    "rj": (steps.rj, mpmath.elliprj, mpf(3) / 2, (1, 1, 1, 2), 3),
}


def integral(factor, powers, args):
    """factor · ∫ dt / ∏ √(t + a)^power from 0 to ∞, with t = e^u: the integrand is analytic within π of the real line, so a step of 1/5 gives 42 digits."""
    sizes = [mpmath.log(a) for a in args if a]
    lowest, highest = float(min(sizes)), float(max(sizes))
    falls = sum(powers) / 2 - 1
    rises = 1 - sum(p for p, a in zip(powers, args) if not a) / 2
    first, last = int(5 * (lowest - 95 / rises)) - 1, int(5 * (highest + 95 / falls)) + 1
    total, t, step = mpf(0), mpmath.exp(mpf(first) / 5), mpmath.exp(mpf(1) / 5)
    for _ in range(first, last + 1):
        below = mpf(1)
        for p, a in zip(powers, args):
            below *= (t + a) ** p
        total += t / mpmath.sqrt(below)
        t *= step
    return factor * total / 5


def reached(args):
    return len(args) < 4 or args[3] <= 2.0**100 * max(args[:3])


def drawn(rng, count, zeros):
    args = [rng.uniform(1, 2) * 2.0 ** rng.randint(-100, 99) for _ in range(count)]
    kind = rng.random()
    if kind < 0.3:  # of about one size
        size = 2.0 ** rng.randint(-95, 95)
        args = [size * 2.0 ** rng.uniform(-4, 4) for _ in args]
    if kind < 0.1:
        args[rng.randrange(count)] = args[rng.randrange(count)]
    if rng.random() < 0.15:
        args[rng.randrange(zeros)] = 0.0
    return tuple(args) if reached(args) else drawn(rng, count, zeros)


def asked(rng):
    """The arguments that the recipes are given while the three functions work points of the box out."""
    calls = {name: set() for name in RECIPES}

    def recorded(name, recipe):
        def call(*args):
            calls[name].add(args)
            return recipe(*args)

        return call

    for name in RECIPES:
        setattr(steps, name, recorded(name, RECIPES[name][0]))
    while min(map(len, calls.values())) < POINTS:
        m = steps.parameter(rng)
        steps.ellippi(steps.characteristic(rng, m), m)
        steps.ellipeinc(steps.amplitude(rng), m)
        steps.ellipf(steps.any_amplitude(rng), m)
    for name in RECIPES:
        setattr(steps, name, RECIPES[name][0])
    return {name: rng.sample(sorted(c), POINTS // 2) for name, c in calls.items()}


def written(name, points):
    recipe, reference, factor, powers, _ = RECIPES[name]
    lines, worst, where, most = [], mpf(0), None, 0
    for k, args in enumerate(points):
        exact = reference(*map(mpf, args))
        if k % 10 == 0:
            assert abs(integral(factor, powers, args) / exact - 1) < mpf(10) ** -38, (name, args)
        value, met, rounds, _ = recipe(*args)
        assert met, (name, args)
        off, most = abs(mpf(value) / exact - 1), max(most, rounds)
        if off > worst:
            worst, where = off, args
        lines.append(" ".join(f"{steps.pattern(v):016x}" for v in (*args, float(exact))))
    with open(os.path.join(DATA, name + ".txt"), "w") as f:
        f.write("\n".join(lines) + "\n")
    print(f"{name}: {len(lines)} points, largest relative difference 2^{float(mpmath.log(worst, 2)):.2f} at {where}, at most {most} rounds")


def main():
    mpmath.mp.dps = 50
    rng = random.Random(SEED)
    ranges = asked(rng)
    for name, (_, _, _, powers, zeros) in RECIPES.items():
        points = [drawn(rng, len(powers), zeros) for _ in range(POINTS - len(ranges[name]))]
        written(name, points + ranges[name])


if __name__ == "__main__":
    main()
