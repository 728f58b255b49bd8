#!/usr/bin/env python3
"""oracle/compare.py [--write] [--quick] [--before LIBRARY.a --before-name WHICH]..: every comparison in docs/MEASURED.md, from one machine and one run, one command after the other.

--write puts them into docs/MEASURED.md, between its two marks, and docs/pictures/errors.csv with its picture; without it they are printed. --quick takes small sizes, to try this script.
--before names the static library of another commit and --before-name says which one; both may be given several times. Without them the rows on other libraries stay as they were, with their day.
A result that is not what it must be ends the run, and nothing is written. Each command's time is told.

Wanted: the kit, by which it proves and builds what target/ lacks; README's packages; root, for a disk that is full; a quiet machine. On two cores it takes some ten minutes, and each library of --before two more."""
import argparse, datetime, math, os, re, shutil, subprocess, sys, tempfile, time

sys.dont_write_bytecode = True
import measured
from files_model import PROGRAMS

MARKS = ('<!-- compared: oracle/compare.py -->', '<!-- compared ends -->')
ARCHIVE = 'target/staticlib/libshuttlemint.a'
FUNCTIONS = ('ellippi', 'ellipeinc', 'ellipf')
RECIPES = ('rf', 'rc', 'rd', 'rj')
FUZZ = 'cargo test --offline --release -- --ignored --nocapture fuzz'
NONE_OF_THESE = "import sys, unittest; sys.modules['numpy'] = sys.modules['scipy'] = None; unittest.main(None, argv=['tests', 'discover', '-t', '.', '-s', 'tests'])"
took = []  # command and seconds


# ---- commands and what they print


def stop(why):
    sys.exit(f'compare: {why}\ncompare: nothing was written')


def run(*words, at='.', fed=None, **settings):
    """What a command prints; it must end well."""
    plain = words[1:] if words[0] == PYTHON and not words[1].startswith('-') else words
    shown = ' '.join([f'{name}={value}' for name, value in settings.items()] + list(plain)).replace(PYTHON, 'python3').replace(OUT, 'OUT')
    environment = {name: value for name, value in os.environ.items() if not name.startswith('SHUTTLEMINT')}  # no other library than this tree's
    began = time.monotonic()
    done = subprocess.run(words, cwd=os.path.join(measured.ROOT, at), input=fed, stdout=subprocess.PIPE, stderr=subprocess.STDOUT, text=True, env={**environment, **settings})
    took.append((shown, time.monotonic() - began))
    print(f'{took[-1][1]:7.1f} s  {shown[:200]}', file=sys.stderr, flush=True)
    if done.returncode: stop(f'`{shown}` ended with {done.returncode}:\n{done.stdout[-3000:]}')
    return done.stdout


def read(pattern, said):
    """The figures of the one line that has this form."""
    found = re.findall(pattern, said, re.M)
    if len(found) != 1: stop(f'not one line, but {len(found)}, of the form {pattern!r} in what {took[-1][0]!r} printed:\n{said[-3000:]}')
    return found[0]


def must(holds, what):
    if not holds: stop(f'{took[-1][0]}: {what}')


def shows(holds, what):
    """A sentence of the page, held to this run. Few points may not show it."""
    if QUICK and not holds: print(f'compare: with so few points this does not show: {what}', file=sys.stderr)
    else: must(holds, f'the page says what this run does not show: {what}')


def none(count):
    must(int(count) == 0, f'{count} differ, and none may')
    return '0 differ'


def size(full, quick): return str(quick if QUICK else full)


# ---- how it is said


def number(n): return f'{int(n):,}'


def listed(words):
    words = list(words)
    return ' and '.join(filter(None, [', '.join(words[:-1]), words[-1]]))


def powers(exponents, most):
    """Relative differences, none above its bound."""
    must(all(float(e) <= most for e in exponents), f'2^{max(exponents, key=float)} is above 2^{most}')
    return listed(f'2^{float(e):.2f}' for e in exponents)


def each(counts):
    must(len(set(counts)) == 1, f'the counts {counts} should be the same')
    return number(counts[0])


# ---- the sections


def bits():
    """Rows of what is compared bit by bit: the float floor and the complete integrals."""
    n = size(10, 1)
    said = run('oracle/run', 'floor_compare', n)
    yield (f"root, multiply-add, magnitude, trunc, floor, round against the hardware and Rust's own, {n} million arguments each: random patterns, subnormals, near-ties, near-overflow, cancellation",
           f'oracle/run floor_compare {n}', none(read(r'^\d+ million arguments of each of 6 functions, (\d+) differ$', said)))
    corners, differ = read(r'^(\d+) corner pairs and \d+ million others, (\d+) differ$', run('oracle/run', 'remainder_compare', n))
    yield (f"remainder against glibc's fmod: every two of {math.isqrt(int(corners))} corner patterns, and {n} million other pairs: near a multiple, equal or nearly, exponents as far apart as they go, subnormals, angles by π/2, π and 2",
           f'oracle/run remainder_compare {n}', none(differ))
    said = run('oracle/run', 'complete_compare', n)
    zero = none(read(r'ellipk, ellipe and ellipke: (\d+) differ in bits on exact paths', said))
    off, most = read(r'^by way of the logarithm (\d+) differ, by at most (\S+) relative$', said)
    near = f' on exact paths; by way of the logarithm {number(off)} differ, by at most {most} relative' if int(off) else ', the paths by way of the logarithm included'
    yield (f'ellipk, ellipe, ellipke against the f64 reading of the given Rust, {n} million arguments each: all pieces and both sides of each boundary, the three routes of negative m, powers of two, subnormals, huge negatives, 1 - k·2^-53, random patterns',
           f'oracle/run complete_compare {n}', f'{zero} in bits{near}')


def box(points, model):
    """Rows of the points of the comparison box, at which the model has been run, and of the recipes' points."""
    parts = [read(rf'^{name}: {points} points, (\d+) refused, largest relative difference 2\^(\S+) at', model) for name in FUNCTIONS]
    must(all(refused == '0' for refused, _ in parts), 'a point was refused')
    same_list(FUNCTIONS, 1000)
    yield (f"ellippi, ellipeinc and ellipf, {number(points)} points of [the box](ORDER.md#the-box) each, a model of the steps in Python (the C library's sine and cosine; K and E rounded from mpmath, but ellipf's K by its own mean) against mpmath's 40 digits",
           'oracle/incomplete_points.py OUT', f'none refused; largest relative difference {powers([part[1] for part in parts], -36)}')
    said = run('oracle/run', 'points_compare', OUT)
    parts = [read(rf'^{name}: {points} points, 0 refused, largest relative difference 2\^(\S+) at \((\S+), (\S+)\), the next 2\^(\S+)$', said) for name in FUNCTIONS]
    m, following = float(parts[0][2]), parts[0][3]
    shows(0.85 <= m < 0.9, "ellippi's largest difference is in K_17's piece")
    yield ('the compiled library at the same points', 'oracle/run points_compare OUT',
           f"none refused; {powers([part[0] for part in parts], -36)}. The first is at m = {m:.7f}, where `ellipk` has K_17's coefficient (docs/DIFFERENCES.md); all other points of `ellippi` are within 2^{following}")
    run('g++', '-O2', '-std=c++17', 'oracle/boost_points.cpp', '-o', f'{OUT}/boost_points')
    said = run(f'{OUT}/boost_points', OUT)
    parts = [read(rf"^{name}: {points} points, \d+ by Boost's own function, largest relative difference 2\^(\S+) at", said) for name in FUNCTIONS]
    yield f'Boost.Math {BOOST} (long double) at the same points', 'oracle/boost_points.cpp', f'{powers(parts, -52.9)}: it agrees with the references to their rounding'
    points = size(1000, 100)
    said = run(PYTHON, 'oracle/carlson_points.py', OUT, points)
    same_list(RECIPES, 1000)
    parts = [read(rf'^{name}: {points} points, largest relative difference 2\^(\S+) at', said) for name in RECIPES]
    yield (f"RF, RC, RD and RJ, {number(points)} points each: arguments from 2^-100 to 2^100, zeros, and those that ellippi, ellipeinc and ellipf ask for; the model's steps against mpmath's 40 digits, every tenth of which is held against the integral summed by itself",
           'oracle/carlson_points.py', f'all met; largest relative difference {powers(parts, -48)}')


def everywhere():
    """Rows of the incomplete integrals over all arguments, and of the rounds."""
    n = size(4, 1)
    exact, boxed, differ, most = read(r'^ellipf: (\d+) arguments on exact paths and (\d+) in the box, (\d+) differ; largest relative difference in the box 2\^(\S+) at', run('oracle/run', 'first_kind_compare', n))
    yield ("ellipf against the f64 reading of ellipf.rs (RF is this project's recipe): patterns of all kinds, \\|φ\\| > 2^52, near multiples of π/2, down to 2^-1074, and from 2^-512 to 2^-510",
           f'oracle/run first_kind_compare {n}', f'{number(exact)} arguments on exact paths: {none(differ)} in bits; {number(boxed)} in the box: none refused, largest relative difference {powers([most], -36)}')
    said = run(PYTHON, 'oracle/wide_points.py', size(5000, 100))
    parts = [read(rf'^{name}: (\d+) points, refused (none|{{.*}}), largest difference 2\^(\S+) at .*, 0 wrong$', said) for name in ('ellipeinc', 'ellipf', 'ellippi')]
    refused = [str(sum(map(int, re.findall(r': (\d+)', part[1])))) for part in parts]
    yield ('ellipeinc, ellipf and ellippi over the whole range of exponents, against mpmath at 300 bits', 'oracle/wide_points.py',
           f'{listed(number(part[0]) for part in parts)} points: {listed(refused)} refused; of the others the largest relative difference is {powers([part[2] for part in parts], -30)}, and none is wrong')
    found = []
    for words in ([size(4000, 100), '19'], [size(40000, 200), '7']):
        points, refused, differ = read(r'^(\d+) points, (.*); (\d+) differ$', run(PYTHON, 'oracle/rounds_points.py', *words))
        found.append((number(points), read(r'(\d+) refused 5\b', refused), none(differ)))
    yield ("the rounds of all recipes asked, against a count of its own by docs/STEPS.md in Python, with the C library's sine and cosine: the box, the whole range of exponents, corners, functions that ask no recipe",
           f'oracle/rounds_points.py`, `oracle/rounds_points.py {words[0]} 7', f'{listed(one[0] for one in found)} points, of which {listed(one[1] for one in found)} refused 5: {found[0][2]}')


def other_libraries():
    """Rows of the libraries that were given."""
    millions = size(60, 1)
    for library, which in zip(given.before, given.before_name):
        said = run('oracle/same_answers', os.path.abspath(library), ARCHIVE, millions)
        parts = [read(rf'^function {k}: (\d+) the same, (\d+) differ where it is said, 0 elsewhere$', said) for k in range(1, 7)]
        moved = [f'{number(part[1])} of `{name}`' for name, part in zip(('ellipk', 'ellipe', 'ellipke', *FUNCTIONS), parts) if int(part[1])]
        differ = f'none differs but where docs/changes/00-wide.md and 07-limits.md say so: there {listed(moved)}' if moved else 'none differs'
        yield f'the six functions against the library of {which}', f'oracle/same_answers BEFORE.a AFTER.a {millions}', f'{number(int(millions) * 1_000_000 // 6)} points each: {differ} ({datetime.date.today()})'


def faces():
    runs = []
    for seed, least in ('1', size(10_000_000, 200_000)), ('2', size(100_000_000, 300_000)):
        calls, sheets = read(r'(\d+) calls on (\d+) sheets, no difference; ', run(*FUZZ.split(), at='faces/rust', FUZZ_SEED=seed, FUZZ_CALLS=least))
        runs.append(f'{number(calls)} calls on {number(sheets)} sheets')
    yield ('the C and Rust faces against a model of the sheet: random patterns and times, damaged sheets, sheets that say 1, `forth` and `back`, rows of function 1 entered before, wrong lengths',
           f'cd faces/rust && {FUZZ}', f'{runs[0]}, and with `FUZZ_SEED={seed} FUZZ_CALLS={least}` {runs[1]}: 0 differ; all refusals 1 to 11, 17 and 22 met')


def rounds_made(model):
    out = []
    for name, recipes in (('ellippi', ('rf', 'rj', 'rc')), ('ellipeinc', ('rf', 'rd')), ('ellipf', ('rf',))):
        made = [(recipe, *read(rf'^{name}: {recipe} makes (\S+) rounds on average, (\d+) at most$', model)) for recipe in recipes]
        out.append(f'for {name} ' + ', '.join(f'{"the RC calls inside it" if recipe == "rc" else recipe.upper()} {mean} and {most}' for recipe, mean, most in made))
    return '; '.join(out)


def at_scale():
    replayed, points = stored_lists(), size(5000, 150)
    rows, coefficients = read(r'^(\d+) rows, (\d+) coefficients: source, code and definition agree in every digit$', run(PYTHON, 'oracle/check_tables.py', 'oracle/ellip/coeffs.rs'))
    model = run(PYTHON, 'oracle/incomplete_points.py', OUT, points)
    row = lambda cells: '| {} | `{}` | {} |'.format(*cells)
    before = map(row, other_libraries()) if given.before else [line for line in measured.parted(MARKS)[1].splitlines() if 'oracle/same_answers' in line]
    return ['## Compared at scale', '', '| what | command | result |', '|---|---|---|', *map(row, bits()), *map(row, box(points, model)), *map(row, everywhere()), *before, *map(row, faces()), '',
            f'At the {number(points)} points of each function the recipes make, in rounds on average and at most: {rounds_made(model)}.', '', replayed, '',
            f'`oracle/check_tables.py COEFFS_RS` holds every digit of the tables, {rows} rows and {coefficients} coefficients, against the given coeffs.rs, of which oracle/ellip/coeffs.rs has every digit.', '']


def same_list(names, count):
    """The lists that are replayed are the first lines of those that were made now."""
    for name in names:
        with open(f'{OUT}/{name}.txt') as now, open(os.path.join(measured.ROOT, 'crates/vectors/data', name + '.txt')) as stored:
            must(QUICK or now.readlines()[:count] == stored.readlines(), f'crates/vectors/data/{name}.txt is not the list that is made now')


def stored_lists():
    """What the gate replays, by the lists themselves and by what `vectors` must print of them."""
    lists, parts = {}, {}
    with open(os.path.join(measured.ROOT, 'crates/vectors/stdout')) as f:
        for line in f:
            line = re.fullmatch(r'(\w+)\.txt: (\d+) lines, 0 differ(?:, less than (\d+) millionths of a bound used)?\n', line) or stop(f'crates/vectors/stdout says: {line}')
            lists[line[1]], parts[line[1]] = int(line[2]), line[3] and f'{math.ceil(int(line[3]) / 10_000) / 100:.2f}'
    take = lambda *names: each([lists.pop(name) for name in names])
    used = listed(parts[name] for name in RECIPES)
    text = (f'In the gate `vectors` replays {take("root", "fused")} answers each of root and multiply-add, {take("magnitude", "trunc", "floor", "round")} each of the four others, '
            f'{take("remainder")} of the remainder (by fmod), {take("sine", "cosine")} each of sine and cosine and {take("logarithm")} of the logarithm (within the proved bounds of the exact sums), '
            f'{take("complete")} of ellipk, ellipe and ellipke (bits), {take(*FUNCTIONS)} each of ellippi, ellipeinc and ellipf in the box and {take(*(f"{name}_wide" for name in FUNCTIONS))} each far outside it '
            f'(within 2^-36 of mpmath), {take(*RECIPES)} each of RF, RC, RD and RJ (stop test met, within 2^-48 of mpmath; at most {used} of that is used), {take("rounds")} counts of rounds (equal)')
    text += ''.join(f', {number(lines)} of {name}' for name, lines in lists.items())
    with open(os.path.join(measured.ROOT, 'crates/replay/stdin')) as f: letters = [line[0] for line in f]
    with open(os.path.join(measured.ROOT, 'crates/cases/args')) as f: cases = f.read().split('\n')[:-1]
    files = len(os.listdir(os.path.join(measured.ROOT, 'crates/cases/data')))
    if len(cases) != files + 1: stop(f'crates/cases has {len(cases)} runs, and {files} files and a folder')
    return (text + f'; a line whose digits or separators do not read differs; `replay` the sheet model\'s script, {number(sum(k in "MECRKTN" for k in letters))} calls with their answers, '
            f'{letters.count("S")} checksums of all bytes and {letters.count("B")} comparisons of all bytes after a shuffle with those before it; `cases` {len(cases)} runs of the program, on {files} files and a folder.')


def kernel():
    said = run(PYTHON, 'oracle/kernel_model.py', size(8000, 100))
    angles, positives = read(r'^(\d+) angles, (\d+) positive numbers$', said)
    out = ['## Sine, cosine and logarithm against the exact sums', '',
           f'By `oracle/kernel_model.py`, on {number(angles)} angles and {number(positives)} positive numbers (near 0, π/4, π/2, π, 4, 3/4, 1, 3/2; powers of two; subnormals; random):', '',
           '| function | proved bound | largest part of it met |', '|---|---|---|']
    for name, bound in (('sine', '\\|x\\|·2^-52'), ('cosine', '2^-52'), ('logarithm', '(\\|k\\|+1)·2^-53')):
        part = float(read(rf'^{name}\s.*?(\d\.\d+) of the bound, at', said))
        must(part <= 1, f'{name} is outside its bound')
        out.append(f'| {name} | {bound} | {part:.3f} |')
    return out + ['']


def errors():
    count = size(6000, 60)
    said = run(PYTHON, 'oracle/errors.py', count, f'{OUT}/errors.csv')
    rows = [('ellipk', 1, '`ellipk`'), ('ellipe', 1, '`ellipe`'), ('ellipke', 1, '`ellipke`, K'), ('ellipke', 2, '`ellipke`, E')] + [(name, 1, f'`{name}`') for name in FUNCTIONS]
    met = {}
    for name, answer, contestant, *figures in re.findall(r'^(\w+) (\d) ([a-z ]+): \d+ points, middle (\S+), largest (\S+) at \((\S+), (\S+)\), 2\^(\S+) relative$', said, re.M):
        met[name, int(answer), contestant] = [float(x) for x in figures]
    out = []
    for name, answer, title in rows:
        middle, largest, _, _, relative = met[name, answer, 'proved']
        powers([relative], -36)
        files = f' {met[name, answer, "ellip"][1]:.1f}' if (name, answer, 'ellip') in met else ''
        out.append(f'| {title} | {middle:.2f}, {largest:.1f} |{files} | {met[name, answer, "boost double"][1]:.1f} | {met[name, answer, "boost"][1]:.2f} |')
    piece = lambda m: 0.85 <= m < 0.9
    shows(piece(met['ellipk', 1, 'proved'][2]) and piece(met['ellippi', 1, 'proved'][3]), "the largest errors of ellipk and ellippi are in K_17's piece")
    m = met['ellipke', 1, 'proved'][2]
    shows(piece(m) or -9 <= m <= -5.66, "the largest error of ellipke's K comes from K_17")
    (_, most, phi, m, relative), (_, as_far, *there, _) = met['ellipeinc', 1, 'proved'], met['ellipeinc', 1, 'boost double']
    shows(m > 0.9, 'the largest error of ellipeinc is where c - m cancels')
    shows(there == [phi, m] and abs(as_far / most - 1) < 0.05, 'Boost in double is as far off there')
    shows(BOOST == '1.74', "docs/pictures/errors.py names Boost.Math 1.74")
    return ["## The error over each function's domain", '', '![The largest error in each stretch of the argument](pictures/errors.svg)', '',
            f'In units of the last place, against mpmath at 60 digits, {number(count)} points a function (`oracle/errors.py`, which writes docs/pictures/errors.csv; `docs/pictures/make` draws it). Above 0 every m is the square of a modulus k of 26 bits, so that Boost, which takes k, has no rounded argument. '
            'm runs from -999,999 to 0.999999 for the complete integrals and over 01\'s box for the others, n from -999 to 0.99 and from 1.01 to 1001, |φ| from 0.001 to 1000. "Boost as it comes" works in long double and rounds; "in double" does not.', '',
            f"| | proved: middle, largest | ellip's files on hardware: largest | Boost {BOOST} in double: largest | Boost as it comes: largest |", '|---|---|---|---|---|', *out, '',
            "The largest of `ellipk`, of `ellipke`'s K and of `ellippi` come from K_17's coefficient (docs/DIFFERENCES.md); in `ellipke` it shows for m from -9 to -5.67 too, where m1 is in that piece. "
            f'The largest of `ellipeinc` is at ({phi!r}, {m!r}), where c - m cancels: 2^{relative:.2f} relative. Boost in double is as far off there. Boost was asked only where it has an answer: m ≥ 0, and n < 1 for `ellippi`.', '']


def metres():
    legs = 'examples/legs.txt'
    printed = run('examples/legsheet', fed=run(PYTHON, 'examples/meridian.py', 'lines', legs))
    by_hand = read(r'differs by at most (\S+) m a leg', run(PYTHON, 'examples/meridian.py', 'check', legs, fed=printed))
    said = run(PYTHON, 'oracle/legs_compare.py', *([] if not QUICK else ['20', '20000', '2']))
    count, off = read(r'^(\d+) legs: at most (\S+) m from the quadrature$', said)
    return ['## Metres', '', f"The meridian arcs of `{legs}` (`examples/meridian.py`, `check` for `metres`): at most {shorter(by_hand)} m a leg from the meridian's curvature integrated by mpmath. "
            f'{number(count)} random legs by `legs`, against the same quadrature at 40 digits: at most {shorter(off)} m (`oracle/legs_compare.py`).', ''], said


def shorter(x): return f'{float(x):.1e}'.replace('e-0', 'e-')


def legs_and_python(said):
    many, rows, sheets, least, most, runs, memory = read(r'^(\d+) legs, (\d+) rows in (\d+) sheets: (\S+) to (\S+) s of processor time in (\d+) runs, at most (\d+) MB$', said)
    costs = run(PYTHON, 'oracle/python_bench.py', size(60, 5))
    array, passes, elements = read(r'^from an array: (\S+) µs an element, the best of (\d+) passes over (\d+)$', costs)
    by_list, *_ = read(r'^from a list: (\S+) µs an element, the best of (\d+) passes over (\d+)$', costs)
    tests = read(r'^Ran (\d+) tests', run(PYTHON, '-B', '-m', 'unittest', 'discover', '-t', '.', '-s', 'tests', at='faces/python'))
    alone = run(PYTHON, '-B', '-c', NONE_OF_THESE, at='faces/python')
    must(read(r'^Ran (\d+) tests', alone) == tests, f'without NumPy there are not {tests} tests')
    skipped = read(r'^OK \(skipped=(\d+)\)$', alone)
    return ['## legs and the Python module', '', f'`legs` on {number(many)} legs, {number(rows)} rows in {sheets} sheets: {least} to {most} s of processor time in {runs} runs, {memory} MB (`oracle/legs_compare.py`).', '',
            f'From Python, `ellipe` for m from 0 to 0.9, the best of {passes} passes over {number(elements)} elements: {array} µs an element from an array, {by_list} from a list (`oracle/python_bench.py`). '
            f'{tests} tests of the module; {skipped} of them need NumPy or SciPy, and where a Python has none they are skipped and say so.', '']


def programs():
    passes = size(5, 1)
    said = run(PYTHON, 'oracle/month_bench.py', passes)
    month = lambda count: read(rf'^{count} sheets of 1024 rows, (\S+) MB: (\S+) ms, .*; at most (\d+) kB of memory; the report is the model\'s$', said)
    megabytes, all_of_them, most = month(400)
    _, one, least = month(1)
    form = r'^program: passed: (\d+) runs, (\d+) of them killed at a random moment'
    runs, _ = read(form, run('faces/program/test.py'))
    seconds = took[-1][1]
    kills, random, disk = size(500, 20), size(3000, 200), os.geteuid() == 0
    words = ['--kills', kills, '--compare', random] + ['--disk'] * disk
    more, hit = read(form, run('faces/program/test.py', *words))
    full = 'a disk that was really full, ' if disk else ''
    return ['## Programs with files', '', f'`legmonth` over 400 sheets of 1,024 rows, {megabytes} MB, each byte read once (`oracle/month_bench.py`, the best of {passes}): {all_of_them} ms, at most {number(most)} kB of memory held; over one sheet {one} ms and {number(least)} kB. '
            "The reports are the model's.", '',
            f'Whole runs beside the models, all {len(PROGRAMS)} programs (`faces/program/test.py`): {number(runs)} in the gate, in {seconds:.0f} s; {number(more)} with `{" ".join(words)}`: {number(random)} random ones, {full}and {kills} to be killed at a random moment, of which {hit} were hit before they ended. '
            'No run differs, and a file held the old bytes or the whole new ones in each.', '']


# ---- all of it


def python():
    """A Python that has what the scripts import: this one, or the system's."""
    for one in (sys.executable, '/usr/bin/python3'):
        if os.path.exists(one) and subprocess.run([one, '-c', 'import mpmath, numpy, scipy'], stderr=subprocess.DEVNULL).returncode == 0: return one
    stop('no Python here has mpmath, NumPy and SciPy: README names the packages')


def boost():
    """Its version."""
    said = subprocess.run(['g++', '-E', '-P', '-x', 'c++', '-'], input='#include <boost/math/special_functions/ellint_3.hpp>\n#include <boost/version.hpp>\nBOOST_VERSION\n', capture_output=True, text=True)
    if said.returncode: stop('Boost.Math is not here: README names the packages')
    version = int(said.stdout.split()[-1])
    return f'{version // 100000}.{version // 100 % 1000}'


def prepared():
    """What the commands need, before the first of them runs."""
    for tool in ('rt', 'rustc', 'cargo', 'g++', 'objcopy', '/usr/bin/time'):
        if not shutil.which(tool): stop(f'{tool} is not here: README names the packages')
    for library in given.before:
        if not os.path.exists(library): stop(f'{library} is not there')
    stale = subprocess.run(f'find crates.txt crates/*/src -newer {ARCHIVE} -print -quit', shell=True, cwd=measured.ROOT, capture_output=True)
    if stale.stdout or stale.returncode: run('examples/prove', 'shuttlemint')
    run('examples/prove', *PROGRAMS)
    run('faces/python/build')
    run('cargo', 'build', '--offline', '--release', at='faces/rust')


def main():
    prepared()
    began = time.monotonic()
    in_metres, legs = metres()
    page = at_scale() + kernel() + errors() + in_metres + programs() + legs_and_python(legs)
    minutes = (time.monotonic() - began) / 60
    print(f'{60 * minutes:7.1f} s  all of it', file=sys.stderr)
    first = [f'Made by `oracle/compare.py` on {datetime.date.today()}, all on one machine ({measured.machine()}), one command after the other, in {minutes:.0f} minutes; not edited by hand.', '']
    text = '\n'.join(first + page)
    if not given.write:
        print(text)
        return
    shutil.copy(f'{OUT}/errors.csv', os.path.join(measured.ROOT, 'docs/pictures/errors.csv'))
    run('docs/pictures/make')
    measured.write(MARKS, text)


options = argparse.ArgumentParser(description=__doc__, formatter_class=argparse.RawDescriptionHelpFormatter)
options.add_argument('--write', action='store_true')
options.add_argument('--quick', action='store_true')
options.add_argument('--before', action='append', default=[])
options.add_argument('--before-name', action='append', default=[])
given = options.parse_args()
if given.write and given.quick: options.error('--quick is to try the script: nothing of it is written')
if len(given.before) != len(given.before_name): options.error('each --before wants a --before-name that says which commit it is')
QUICK = given.quick
PYTHON = python()
BOOST = boost()
with tempfile.TemporaryDirectory() as OUT: main()
