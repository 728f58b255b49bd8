#!/usr/bin/env python3
"""oracle/wide_points.py [COUNT [SEED]]: ellipeinc, ellipf and ellippi over the whole range of exponents, against mpmath: each answer is within 2^-30 or refused, and none is silently wrong.
COUNT points each of ellipeinc and ellipf (5,000), phi from 2^-1060 to pi/2 and m from -2^1022 up, above 1 too where m sin^2(phi) < 1; 300 of ellippi.
It asks the compiled library over faces/python (examples/prove shuttlemint && faces/python/build) and prints what was refused, the largest difference and every answer that is off.
oracle/wide_points.py --list FUNCTION N SEED prints N points that are answered, for crates/vectors: arguments and reference as patterns."""
import math, os, random, struct, sys

import mpmath as mp

sys.path.insert(0, os.path.join(os.path.dirname(os.path.abspath(__file__)), '..', 'faces', 'python'))
import shuttlemint

mp.mp.prec = 300


def pattern(x):
    return '%016x' % struct.unpack('<Q', struct.pack('<d', x))[0]


def second(phi, m):
    """E by Carlson's forms at 300 bits."""
    s, c, m = mp.sin(mp.mpf(phi)), mp.cos(mp.mpf(phi)), mp.mpf(m)
    return s * mp.elliprf(c * c, 1 - m * s * s, 1) - m / 3 * s ** 3 * mp.elliprd(c * c, 1 - m * s * s, 1)


def first(phi, m):
    s, c, m = mp.sin(mp.mpf(phi)), mp.cos(mp.mpf(phi)), mp.mpf(m)
    return s * mp.elliprf(c * c, 1 - m * s * s, 1)


def third(n, m):
    """Pi(n, m) for n < 1 in t = tan(theta), on a logarithmic scale: nothing cancels. For n > 1 the principal value by RJ."""
    n, m = mp.mpf(n), mp.mpf(m)
    if n > 1:
        return -m / (3 * n) * mp.elliprj(0, 1 - m, 1, 1 - m / n)

    def term(u):
        t = mp.exp(2 * u)
        return mp.exp(u) * mp.sqrt(1 + t) / ((1 + (1 - n) * t) * mp.sqrt(1 + (1 - m) * t))

    # the trapezoidal rule, whose error here is e^(-pi^2 / h) of the sum: the nearest singular point lies pi/2 off the line, and the ends fall off as e^-|u|
    bends = [mp.mpf(0), -mp.log(1 - n) / 2, -mp.log(1 - m) / 2]
    h, low, high = mp.mpf(1) / 8, min(bends) - 60, max(bends) + 60
    return h * mp.fsum(term(low + h * k) for k in range(int((high - low) / h) + 1))


def angle_and_parameter(r, i):
    phi = 2.0 ** r.uniform(-1060, 0.65) if i % 2 else r.uniform(0, 1.5707963)
    if i % 4 == 1:
        phi = 2.0 ** r.uniform(-520, 0.65)
    kind = r.randrange(5)
    if kind == 0:
        m = -2.0 ** r.uniform(-1000, 1022)
    elif kind == 1:
        m = -2.0 ** r.uniform(-60, 60)
    elif kind == 2:
        m = -2.0 ** min(1022.0, -2 * math.log2(phi) + r.uniform(-60, 60))
    elif kind == 3:
        m = r.uniform(0, 0.98)
    else:
        m = 2.0 ** min(1022.0, -2 * math.log2(phi) - r.uniform(0.02, 30))
    return phi, m


def characteristic_and_parameter(r, i):
    n = -2.0 ** r.uniform(-900, 1022) if i % 3 else 2.0 ** r.uniform(0.1, 1000)
    if i % 7 == 0:
        n = r.uniform(0, 0.99)
    m = -2.0 ** r.uniform(-900, 1022) if i % 2 else r.uniform(0, 0.99)
    return n, m


FUNCTIONS = {
    'ellipeinc': (shuttlemint.ellipeinc, second, angle_and_parameter),
    'ellipf': (shuttlemint.ellipf, first, angle_and_parameter),
    'ellippi': (shuttlemint.ellippi, third, characteristic_and_parameter),
}


def asked(name, count, seed):
    call, reference, make = FUNCTIONS[name]
    r = random.Random(seed)
    for i in range(count):
        a, b = make(r, i)
        try:
            yield a, b, call(a, b), None
        except shuttlemint.Refused as refusal:
            yield a, b, None, refusal.number


def compare(name, count, seed):
    reference = FUNCTIONS[name][1]
    refused, wrong, worst, at = {}, 0, mp.mpf(0), None
    for a, b, answer, number in asked(name, count, seed):
        if answer is None:
            refused[number] = refused.get(number, 0) + 1
            continue
        true = reference(a, b)
        if true != 0 and abs(true) < mp.mpf(2) ** -1022:
            off = abs(mp.mpf(answer) - true) / mp.mpf(2) ** -1022
        else:
            off = abs(mp.mpf(answer) / true - 1) if true != 0 and not math.isinf(answer) else mp.mpf(0 if answer == true else 1)
        if off > worst:
            worst, at = off, (a, b)
        if off > mp.mpf(2) ** -30:
            wrong += 1
            print('%s(%r, %r) is %r, and should be %s' % (name, a, b, answer, mp.nstr(true, 17)))
    print('%s: %d points, refused %s, largest difference 2^%s at %r, %d wrong' % (name, count, refused or 'none', mp.nstr(mp.log(worst, 2), 5) if worst else '-', at, wrong))
    return wrong


def main():
    if sys.argv[1:2] == ['--list']:
        name, count, seed = sys.argv[2], int(sys.argv[3]), int(sys.argv[4])
        left = count
        for a, b, answer, number in asked(name, 50 * count, seed):
            if left and answer is not None and not math.isinf(answer) and abs(answer) > 2.0 ** -960:
                print(pattern(a), pattern(b), pattern(float(FUNCTIONS[name][1](a, b))))
                left -= 1
        return
    count = int(sys.argv[1]) if len(sys.argv) > 1 else 5000
    seed = int(sys.argv[2]) if len(sys.argv) > 2 else 17
    sys.exit(compare('ellipeinc', count, seed) + compare('ellipf', count, seed) + compare('ellippi', min(count, 300), seed) > 0)


main()
