#!/usr/bin/env python3
"""oracle/legs_compare.py [LEGS [MANY [RUNS]]]: legs from a file to metres against a quadrature, and how long a large file takes.

LEGS random legs of WGS84's meridian (300) by `legs --csv`, each against examples/meridian.py's quadrature at 40 digits; then the processor time and the memory of RUNS runs (5) over MANY
legs (500,000). Wanted first: cd faces/rust && cargo build --offline --release; mpmath and GNU time (README)."""
import csv, os, random, re, subprocess, sys, tempfile

ROOT = os.path.normpath(os.path.join(os.path.dirname(os.path.abspath(__file__)), '..'))
LEGS = os.path.join(ROOT, 'faces', 'rust', 'target', 'release', 'legs')
MOST = 1e-6  # metres, as examples/meridian.py asks
sys.path.insert(0, os.path.join(ROOT, 'examples'))
import meridian


def made(path, count, seed):
    """A file of random legs, and their latitudes."""
    rng = random.Random(seed)
    ends = [(rng.uniform(-90, 90), rng.uniform(-90, 90)) for _ in range(count)]
    with open(path, 'w') as out:
        out.write('name,from,to\n')
        out.writelines(f'leg {k},{a!r},{b!r}\n' for k, (a, b) in enumerate(ends))
    return ends


def farthest(path, ends):
    said = subprocess.run([LEGS, '--csv', path], capture_output=True, text=True, check=True).stdout
    metres = [float(row['metres']) for row in csv.DictReader(said.splitlines()) if row['what'] == 'leg']
    assert len(metres) == len(ends), 'a leg is missing'
    return max(abs(x - abs(meridian.quadrature(a, b))) for x, (a, b) in zip(metres, ends))


def timed(path):
    """Seconds of the processor, the most megabytes held, and the line that counts the rows."""
    with tempfile.TemporaryFile('w+') as out:
        told = subprocess.run(['/usr/bin/time', '-f', '%U %S %M', LEGS, path], stdout=out, stderr=subprocess.PIPE, text=True, check=True).stderr.split()[-3:]
        out.seek(0)
        rows = next(line for line in out if line.startswith('rows: '))
    return float(told[0]) + float(told[1]), int(told[2]) / 1000, rows


def main():
    count, many, runs = (int(sys.argv[k]) if len(sys.argv) > k else otherwise for k, otherwise in ((1, 300), (2, 500_000), (3, 5)))
    with tempfile.TemporaryDirectory() as folder:
        path = os.path.join(folder, 'legs.csv')
        worst = farthest(path, made(path, count, 1))
        print('%d legs: at most %.1e m from the quadrature' % (count, worst))
        made(path, many, 2)
        every = [timed(path) for _ in range(runs)]
        seconds, (finite, sheets) = [one[0] for one in every], re.search(r'(\d+) finite, .* 0 refused, in (\d+) sheet', every[0][2]).groups()
        print('%d legs, %s rows in %s sheets: %.2f to %.2f s of processor time in %d runs, at most %.0f MB' % (many, finite, sheets, min(seconds), max(seconds), runs, max(one[1] for one in every)))
    sys.exit(worst > MOST)


main()
