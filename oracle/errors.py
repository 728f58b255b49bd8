#!/usr/bin/env python3
"""The error of each function over its domain, in units of the last place, for docs/pictures/errors.svg.

    oracle/errors.py [POINTS [CSV]]      POINTS a function, 6,000 by default; writes docs/pictures/errors.csv, or the file that is named

Needs mpmath, rustc, g++, Boost.Math (Debian: libboost-math-dev) and the static library (`examples/prove shuttlemint`). Each answer is held against mpmath's
at 40 digits or more; the unit is 2^(e-52) where 2^e is the power of two at or below the reference's size. The answers are those of oracle/error_answers.rs.

Boost takes the modulus k and not m = k²: above 0 every m is the square of a k of 26 bits, so both are exact and no contestant has a rounded argument.
A line of the CSV: function, answer (1 or 2), the argument that runs (or `all`), the ends of the stretch, contestant, how many points, the middle and the largest error of them.
Stretches run evenly in log10(1 - m), in log10|n - 1| on either side of 1, and in log10|φ|. The seed is fixed: the file is the same each time.
"""
import csv
import math
import os
import random
import statistics
import subprocess
import sys

import mpmath
from mpmath import mpf

import incomplete_points as reference
from incomplete_points import pattern

HERE = os.path.dirname(os.path.abspath(__file__))
CSV = sys.argv[2] if len(sys.argv) > 2 else os.path.join(HERE, "..", "docs", "pictures", "errors.csv")
SEED = 20261115
CONTESTANTS = ("proved", "ellip", "boost", "boost double")
COMPLETE, BOX = (-6.0, 6.0), (-3.0, 2.0)  # of -log10(1 - m): m from -999,999 to 0.999999, and from -999 to 0.99
NEAR, FAR = -2.0, 3.0  # of log10|n - 1|
SMALL, LARGE = -3.0, 3.0  # of log10|φ|
STRETCHES = 60


def parameter(u):
    """m with -log10(1 - m) near u, and its modulus if it has one."""
    if u <= 0:
        return 1 - 10.0**-u, None
    k = math.floor(math.sqrt(1 - 10.0**-u) * 2.0**26) / 2.0**26
    return k * k, k


def place_of_m(m):
    return -math.log10(1 - m)


def place_of_n(n):
    """From FAR on the left of 1, which is n = -999, by way of 1 to FAR on the right; the two halves meet in 0."""
    size = math.log10(abs(n - 1)) - NEAR
    return size if n > 1 else -size


def place_of_phi(phi):
    return math.log10(abs(phi))


def complete(rng):
    m, k = parameter(rng.uniform(*COMPLETE))
    return (m, 0.0), k


def third(rng):
    m, k = parameter(rng.uniform(*BOX))
    return (1 + rng.choice((-1, 1)) * 10.0 ** rng.uniform(NEAR, FAR), m), k


def incomplete(rng):
    m, k = parameter(rng.uniform(*BOX))
    return (rng.choice((-1, 1)) * 10.0 ** rng.uniform(SMALL, LARGE), m), k


# what runs: its place among the arguments, the ends, its place on the axis
OVER_M = {"m": (0, COMPLETE, place_of_m)}
OVER_PHI = {"m": (1, BOX, place_of_m), "phi": (0, (SMALL, LARGE), place_of_phi)}
# number, the draw of a point, what runs, the reference of each answer
FUNCTIONS = {
    "ellipk": (1, complete, OVER_M, [lambda m, _: mpmath.ellipk(mpf(m))]),
    "ellipe": (2, complete, OVER_M, [lambda m, _: mpmath.ellipe(mpf(m))]),
    "ellipke": (3, complete, OVER_M, [lambda m, _: mpmath.ellipk(mpf(m)), lambda m, _: mpmath.ellipe(mpf(m))]),
    "ellippi": (4, third, {"m": (1, BOX, place_of_m), "n": (0, (NEAR - FAR, FAR - NEAR), place_of_n)}, [reference.ellippi_reference]),
    "ellipeinc": (5, incomplete, OVER_PHI, [reference.ellipeinc_reference]),
    "ellipf": (6, incomplete, OVER_PHI, [reference.ellipf_reference]),
}


def unit(exact):
    """A unit of the last place of the exact number."""
    _, exponent = mpmath.frexp(exact)  # the size is at least 2^(exponent - 1)
    return mpf(2) ** (int(exponent) - 53)


def units(answer, exact):
    return float(abs(mpf(answer) - exact) / unit(exact))


def answers(number, points):
    text = "".join(f"{number} {pattern(a):016x} {pattern(b):016x} {'-' if k is None else format(pattern(k), '016x')}\n" for (a, b), k in points)
    out = subprocess.run([os.path.join(HERE, "run"), "error_answers"], input=text, capture_output=True, text=True, check=True).stdout
    for line in out.splitlines():
        yield [None if word == "-" else reference.struct.unpack("<d", int(word, 16).to_bytes(8, "little"))[0] for word in line.split()]


def stretches(name, points, errors, rows):
    """One line for each stretch, answer and contestant. `errors` has, for each point, those of answer 1, then of answer 2."""
    _, _, runs, references = FUNCTIONS[name]
    for variable, (which, (low, high), place) in runs.items():
        width = (high - low) / STRETCHES
        of = [min(STRETCHES - 1, max(0, math.floor((place(args[which]) - low) / width))) for args, _ in points]
        for answer in range(len(references)):
            for c, contestant in enumerate(CONTESTANTS):
                for stretch in range(STRETCHES):
                    met = [errors[i][answer][c] for i in range(len(points)) if of[i] == stretch and errors[i][answer][c] is not None]
                    if met:
                        ends = (f"{low + stretch * width:.6g}", f"{low + (stretch + 1) * width:.6g}")
                        rows.append([name, answer + 1, variable, *ends, contestant, len(met), f"{statistics.median(met):.3g}", f"{max(met):.4g}"])


def main():
    mpmath.mp.dps = 60
    count = int(sys.argv[1]) if len(sys.argv) > 1 else 6000
    rows = []
    for name, (number, draw, _, references) in FUNCTIONS.items():
        rng = random.Random(f"{SEED} {name}")
        points = [draw(rng) for _ in range(count)]
        exact = [[f(*args) for f in references] for args, _ in points]
        errors = []
        for numbers, got in zip(exact, answers(number, points)):
            errors.append([[None if got[2 * c + j] is None else units(got[2 * c + j], numbers[j]) for c in range(4)] for j in range(len(numbers))])
        assert len(errors) == count and all(e[0][0] is not None for e in errors), "the library refused a point"
        stretches(name, points, errors, rows)
        for j in range(len(references)):
            for c, contestant in enumerate(CONTESTANTS):
                met = [e[j][c] for e in errors if e[j][c] is not None]
                if met:
                    rows.append([name, j + 1, "all", "", "", contestant, len(met), f"{statistics.median(met):.3g}", f"{max(met):.4g}"])
                    worst = next(i for i, e in enumerate(errors) if e[j][c] == max(met))
                    relative = mpmath.log(max(met) * unit(exact[worst][j]) / abs(exact[worst][j]), 2)
                    where = ", ".join(repr(x) for x in points[worst][0])
                    print(f"{name} {j + 1} {contestant}: {len(met)} points, middle {statistics.median(met):.3f}, largest {max(met):.3f} at ({where}), 2^{float(relative):.2f} relative", flush=True)
    with open(CSV, "w", newline="") as file:
        out = csv.writer(file, lineterminator="\n")
        out.writerow(["function", "answer", "over", "from", "to", "contestant", "points", "middle", "largest"])
        out.writerows(rows)


if __name__ == "__main__":
    main()
