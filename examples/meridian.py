#!/usr/bin/env python3
"""Meridian arcs on WGS84 through the program legsheet, from latitudes to metres.

The arc from the equator to a place is b·E(β, -e'²), β being the place's parametric latitude, tan β = (b/a)·tan φ (DLMF 19.30(i);
e' is the second eccentricity). E is odd in β, so a leg from φ1 to φ2 is two rows, E(β2) and E(-β1), and the sheet's exact total
is the length of all legs together in units of b.

  meridian.py lines LEGS             the program's input
  meridian.py metres LEGS < output   legs and total in metres, from the program's output for these legs
  meridian.py check LEGS < output    the same, held to a second method: mpmath's quadrature of a(1-e²)/(1-e²·sin²φ)^(3/2) dφ

LEGS is a file of legs: a line has two latitudes in degrees, north positive, how often the leg was driven if not once, as in x3, and a name; lines that begin with #
are passed over. So:

  examples/meridian.py lines examples/legs.txt | examples/legsheet | examples/meridian.py metres examples/legs.txt

The exit status is 0 only if all of it went well.
"""
import math, re, struct, sys

A, B = 6378137.0, 6356752.314245179  # WGS84's half axes in metres
M = -0.006739496742276434            # -e'² = 1 - (a/b)²
MOST = 512                           # legs in a sheet: two rows each

def pattern(x):
    return '%016x' % struct.unpack('<Q', struct.pack('<d', x))[0]

def value(digits):
    return struct.unpack('<d', struct.pack('<Q', int(digits, 16)))[0]

def parametric(latitude):
    """β of a geodetic latitude in degrees."""
    if abs(latitude) == 90:
        return math.copysign(math.pi / 2, latitude)
    return math.atan(B / A * math.tan(math.radians(latitude)))

def legs(name):
    """The legs of a file: start, end, times and name of each."""
    found = []
    with open(name) as lines:
        for number, line in enumerate(lines, 1):
            if not line.strip() or line.startswith('#'):
                continue
            try:
                start, end, leg = line.split(None, 2)
                start, end = float(start), float(end)
            except ValueError:
                sys.exit('%s, line %d: two latitudes in degrees and a name are wanted' % (name, number))
            if not (abs(start) <= 90 and abs(end) <= 90):
                sys.exit('%s, line %d: a latitude lies between -90 and 90' % (name, number))
            driven = re.match(r'x([0-9]+) +', leg)
            times = int(driven[1]) if driven else 1
            if times > 65535:
                sys.exit('%s, line %d: a row keeps at most 65535 times' % (name, number))
            found.append((start, end, times, leg[driven.end() if driven else 0:].strip()))
    if len(found) > MOST:
        sys.exit('%s has %d legs and a sheet holds %d; split the file' % (name, len(found), MOST))
    return found

def write_lines(given):
    print(2 * len(given))
    for k, (start, end, times, _) in enumerate(given):
        print(2 * k, 5, pattern(parametric(end)), pattern(M), pattern(0.0), times)
        print(2 * k + 1, 5, pattern(-parametric(start)), pattern(M), pattern(0.0), times)

def read_output(text, given):
    """Each leg's length and their total, in metres."""
    lines = text.split('\n')
    if not lines[-2:-1] or not lines[-2].startswith('total '):
        sys.exit('legsheet printed no sheet: ' + (lines[0] or 'nothing at all'))
    if len(lines) != 2 * len(given) + 3:
        sys.exit('this output has %d rows, and the file has %d legs, of two rows each' % (len(lines) - 3, len(given)))
    rows = [line.split() for line in lines[:2 * len(given)]]
    for row in rows:
        if row[2] != '0':
            sys.exit('row %s was refused with %s' % (row[0], row[2]))
    first = [value(row[3]) for row in rows]
    return [B * math.fsum(first[2 * k:2 * k + 2]) for k in range(len(given))], B * value(lines[-2].split()[1])

def quadrature(start, end):
    """The second method: the meridian's radius of curvature, integrated over the geodetic latitude."""
    import mpmath as mp
    mp.mp.dps = 40
    a, e2 = mp.mpf(A), 1 - (mp.mpf(B) / mp.mpf(A)) ** 2
    ends = [mp.radians(mp.mpf(start)), mp.radians(mp.mpf(end))]
    return mp.quad(lambda x: a * (1 - e2) / (1 - e2 * mp.sin(x) ** 2) ** mp.mpf('1.5'), mp.linspace(ends[0], ends[1], 9))

def main():
    if len(sys.argv) != 3 or sys.argv[1] not in ('lines', 'metres', 'check'):
        sys.exit(__doc__)
    what, given = sys.argv[1], legs(sys.argv[2])
    if what == 'lines':
        return write_lines(given)
    lengths, total = read_output(sys.stdin.read(), given)
    worst = 0
    for (start, end, times, name), metres in zip(given, lengths):
        print('%15.3f m  %s%s' % (metres, name, '' if times == 1 else ', driven %d times' % times))
        if what == 'check':
            worst = max(worst, abs(metres - quadrature(start, end)))
    print('%15.3f m  in all' % total)
    if what == 'check':
        whole = abs(total - sum(times * quadrature(start, end) for start, end, times, _ in given))
        print('the second method differs by at most %.1e m a leg, and by %.1e m in all' % (worst, whole))
        sys.exit(worst > 1e-6 or whole > 1e-6)

if __name__ == '__main__':
    main()
