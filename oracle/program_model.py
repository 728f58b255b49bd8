#!/usr/bin/env python3
"""A model of the program legsheet, from the input's bytes to the output's, and the maker of its stored cases.

It shares nothing with the Rattle code: lines are matched by regular expressions, the total is a Python whole number,
and only such arguments are evaluated as documents 01 and 02 name the answer of, so no elliptic integral is needed.

  oracle/program_model.py                writes crates/cases/{args,data/,stdout}, crates/legsheet/{stdin,stdout} and examples/worked.txt
  oracle/program_model.py --runs         writes faces/program/runs: runs of the programs that read and write sheet files (program_cases.py and hextext_cases.py; their models are files_model.py)
  oracle/program_model.py --check        says whether both are as it would write them
  oracle/program_model.py --run          the model as a program: standard input to standard output
  oracle/program_model.py --compare N    N inputs, most of them damaged somewhere, through target/bin/legsheet (`examples/prove legsheet`) and through the model
  oracle/program_model.py --compare-files N [SEED [FOLDER [PROGRAM..]]]   N random runs of the programs, those in FOLDER (target/bin), most of them over damaged sheets
"""
import math, os, random, re, shutil, struct, subprocess, sys
import machine

ROOT = os.path.join(os.path.dirname(os.path.abspath(__file__)), '..')
PART = 4096  # bytes that the program reads at a time
MOST = 1024  # rows
LAST = 6     # the last function's number
WITHDRAWN = 1  # the function that no edit takes
OFTEN = 65535  # the most times

# ---- floats

def value(pattern):
    return struct.unpack('<d', struct.pack('<Q', pattern))[0]

def pattern(x):
    return struct.unpack('<Q', struct.pack('<d', x))[0]

INF, NAN = float('inf'), 0x7ff8000000000000
LARGEST = value(0x7fefffffffffffff)

def is_nan(x):
    return x != x

def units(x):
    """A finite f64 in units of 2^-1074."""
    bits = pattern(x)
    exponent, digits = bits >> 52 & 0x7ff, bits & (1 << 52) - 1
    n = digits if exponent == 0 else (digits | 1 << 52) << (exponent - 1)
    return -n if bits >> 63 else n

def rounded(n):
    """The pattern of n units of 2^-1074, rounded once, ties to even; zero is +0."""
    sign, n = (1 << 63 if n < 0 else 0), abs(n)
    shift = max(n.bit_length() - 53, 0)
    q, rest = n >> shift, n & (1 << shift) - 1
    half = 1 << shift >> 1
    if shift and (rest > half or rest == half and q & 1):
        q += 1
    bits = q + (shift << 52) if shift else q  # a carry runs on into the exponent by itself
    return sign | min(bits, 0x7ff0000000000000) if n else 0

# ---- the functions, where 01 names the answer: (refusal, first, second)

def refused(n):
    return n, 0.0, 0.0

def complete(f, m):
    if is_nan(m): return refused(1)
    if m > 1: return refused(2)
    if m == 1: return [(0, INF, 0.0), (0, 1.0, 0.0), (0, INF, 1.0)][f - 1]
    if m == -INF: return [(0, 0.0, 0.0), (0, INF, 0.0), (0, 0.0, INF)][f - 1]
    raise ValueError('an elliptic integral would be needed')

def third(n, m):
    if is_nan(n) or is_nan(m): return refused(1)
    if m > 1: return refused(2)
    if n == 1: return refused(4)
    if m == 1: return 0, INF if n < 1 else -INF, 0.0
    if n == -INF or m == -INF: return 0, 0.0, 0.0
    raise ValueError('an elliptic integral would be needed')

def incomplete(phi, m):
    if phi == 0: return 0, 0.0, 0.0
    if m == 0: return refused(1) if is_nan(phi) else (0, phi, 0.0)
    if abs(phi) == INF: return 0, phi, 0.0
    if is_nan(phi): return refused(2 if m > 1 else 1)
    if is_nan(m): return refused(1)
    if m == -INF: return 0, INF if phi > 0 else -INF, 0.0
    if abs(phi) > 2.0 ** 52 and m > 1: return refused(2)
    raise ValueError('an elliptic integral would be needed')

def incomplete_first(phi, m):
    if is_nan(phi) or is_nan(m): return refused(1)
    if m == 0 or phi == 0 and abs(m) != INF: return 0, phi, 0.0
    if m >= 1 and abs(phi) >= math.pi / 2: return refused(3)
    if m < 1 and abs(phi) == INF: return 0, phi, 0.0
    if m == -INF: return refused(6) if abs(phi) > 2.0 ** 52 else (0, 0.0, 0.0)
    raise ValueError('an elliptic integral would be needed')

def evaluate(f, a, b):
    if f <= 3: return complete(f, value(a))
    return {4: third, 5: incomplete, 6: incomplete_first}[f](value(a), value(b))

# ---- the run

NUMBER = re.compile(rb'(?:0|[1-9][0-9]*)', re.ASCII)
EDIT = re.compile(rb'(0|[1-9][0-9]*) (0|[1-9][0-9]*) ([0-9a-f]{16}) ([0-9a-f]{16}) ([0-9a-f]{16}) (0|[1-9][0-9]*)', re.ASCII)
BLANK = 0, 0, 0.0, 0.0, 0

def number(text):
    """A decimal number; one of more than 20 digits is too large for any field, and Python reads no text of any length."""
    return int(text) if len(text) <= 20 else 1 << 64

def run(data):
    lines = data.split(b'\n')
    if lines[-1] == b'':
        lines.pop()
    rows = None
    for k, line in enumerate(lines, 1):
        if rows is None:
            if not NUMBER.fullmatch(line) or number(line) > MOST:
                return b'bad line %d\n' % k
            rows = [BLANK] * int(line)
            continue
        m = EDIT.fullmatch(line)
        if not m:
            return b'bad line %d\n' % k
        row, f, times = number(m[1]), number(m[2]), number(m[6])
        if row >= len(rows) or f == WITHDRAWN or f > LAST or times > OFTEN:
            return b'bad line %d\n' % k
        rows[row] = BLANK if f == 0 else (f,) + evaluate(f, int(m[3], 16), int(m[4], 16)) + (times,)
    if rows is None:
        return b'bad line 1\n'
    counts, total, out = [0] * 5, 0, []
    for i, (f, q, x, y, times) in enumerate(rows):
        out.append(b'%d %d %d %016x %016x %d\n' % (i, f, q, pattern(x), pattern(y), times))
        kind = 0 if f == 0 else 4 if q else 2 if x == INF else 3 if x == -INF else 1
        counts[kind] += 1
        if kind == 1:
            total += times * units(x)
    out.append(b'counts %d %d %d %d %d\n' % tuple(counts))
    out.append(b'total %016x\n' % rounded(total))
    return b''.join(out)

# ---- the cases

EXAMPLE = b'''4
0 3 3ff0000000000000 0000000000000000 0000000000000000 1
1 5 0000000000000000 7ff8000000000000 0000000000000000 1
2 4 3ff0000000000000 3ff0000000000000 0000000000000000 1
3 5 4000000000000000 0000000000000000 0000000000000000 1
'''

def edit(row, f, a=0, b=0, c=0, times=1):
    return b'%d %d %016x %016x %016x %d\n' % (row, f, a, b, c, times)

def leg(row, x, times=1):
    """x itself as a row's first answer: function 5 with m = 0."""
    return edit(row, 5, pattern(x), times=times)

GOOD = edit(0, 5, 0x4000000000000000)
FIELDS = GOOD[:-1].split(b' ')

def with_field(i, text):
    return b' '.join(FIELDS[:i] + [text] + FIELDS[i + 1:]) + b'\n'

def random_edit(rng, rows):
    """An edit that 01 answers by itself, of any class."""
    row, kind, times = rng.randrange(rows), rng.randrange(12), rng.choice([0, 1, 1, 2, rng.randrange(100), rng.randrange(OFTEN), OFTEN])
    if kind < 6:
        p = rng.getrandbits(64) if kind < 3 else rng.getrandbits(52) | rng.randrange(900, 1150) << 52 | rng.getrandbits(1) << 63
        return edit(row, 5, p, rng.choice([0, 1 << 63]), rng.getrandbits(64), times)
    special = [0x3ff0000000000000, 0xfff0000000000000, 0x7ff8000000000000, 0x7ff0000000000000, 0x4008000000000000, 0xfff8000000000001]
    if kind < 8:
        return edit(row, rng.choice([2, 3, 3]), rng.choice(special), rng.getrandbits(64), rng.getrandbits(64), times)
    if kind < 10:
        n = rng.choice(special[:1] + special[2:3]) if rng.random() < .4 else rng.getrandbits(64)
        return edit(row, 4, n, rng.choice(special), rng.getrandbits(64), times)
    return edit(row, 0, rng.getrandbits(64), rng.getrandbits(64), rng.getrandbits(64), times)

def many(seed, rows, lines):
    rng = random.Random(seed)
    return b'%d\n' % rows + b''.join(random_edit(rng, rows) for _ in range(lines))

def split_everywhere():
    """The ends of the parts that are read fall on every place of a line of 60 bytes, its line end among them."""
    rng = random.Random(4096)
    text = b'1024\n'
    for place in range(60):
        edge = (len(text) // PART + 2) * PART
        text += filled(rng, edge - place - len(text)) + filled(rng, 60)
    places = {k - (text.rfind(b'\n', 0, k) + 1) for k in range(PART, len(text), PART)}
    assert places >= set(range(60))
    return text

def filled(rng, size):
    """So many bytes of lines that are 57 to 60 bytes long, by the digits of the row."""
    lines = -(-size // 60)
    assert 57 * lines <= size
    text = b''
    for i in range(lines):
        digits = size // lines + (i < size % lines) - 56
        text += leg(rng.randrange(10 ** (digits - 1) if digits > 1 else 0, min(10 ** digits, MOST)), rng.uniform(-1e6, 1e6), rng.randrange(10))
    return text

def cases():
    one = b'1\n'
    yield 'example', EXAMPLE
    yield 'no_rows', b'0\n'
    yield 'no_rows_no_end', b'0'
    yield 'blank_rows', b'3\n'
    yield 'last_line_no_end', EXAMPLE[:-1]
    yield 'most_rows', many(1, 1024, 2500)
    yield 'cleared', b'2\n' + leg(0, 1.5) + leg(1, 2.5) + edit(0, 0, 1, 2, 3)
    yield 'unused_arguments', b'1\n' + edit(0, 3, pattern(1.0), NAN, NAN)
    yield 'minus_zero', b'2\n' + leg(0, -0.0) + leg(1, -0.0)
    yield 'infinities', b'5\n' + leg(0, INF) + leg(1, -INF) + edit(2, 4, pattern(2.0), pattern(1.0)) + leg(3, LARGEST) + leg(4, -1.0)
    yield 'total_overflows', b'2\n' + leg(0, LARGEST) + leg(1, LARGEST)
    yield 'total_tie_up', b'2\n' + leg(0, LARGEST) + leg(1, 2.0 ** 970)
    yield 'total_below_tie', b'3\n' + leg(0, LARGEST) + leg(1, 2.0 ** 970) + leg(2, -2.0 ** -1074)
    yield 'total_any_order', b'4\n' + leg(3, 1e300) + leg(1, 1.0) + leg(2, -1e300) + leg(0, 2.0 ** -1074)
    yield 'refusals', b'6\n' + edit(0, 3, NAN) + edit(1, 2, pattern(2.0)) + edit(2, 4, pattern(1.0)) + edit(3, 5, NAN, pattern(2.0)) + edit(4, 5, pattern(1.0), NAN)
    yield 'first_kind', b'7\n' + edit(0, 6, pattern(1.5), 0, 7) + edit(1, 6, NAN) + edit(2, 6, pattern(2.0), pattern(1.0)) + edit(3, 6, pattern(-INF), pattern(0.5)) + edit(4, 6, pattern(1.0), pattern(-INF)) + edit(5, 6, pattern(-0.0), pattern(0.5)) + edit(6, 6, pattern(2.0 ** 53), pattern(-INF))
    yield 'times_0', b'2\n' + leg(0, 1.5, 0) + leg(1, 2.5)
    yield 'times_3', b'3\n' + leg(0, 2.0, 3) + leg(1, -0.5, 3) + leg(2, 2.5)
    yield 'times_65535', b'3\n' + leg(0, 1.0, OFTEN) + leg(1, LARGEST, OFTEN) + leg(2, -LARGEST, OFTEN)
    yield 'times_overflow', b'2\n' + leg(0, 2.0 ** 1008, OFTEN) + leg(1, 2.0 ** 1009, OFTEN)
    yield 'times_replaced', b'2\n' + leg(0, 1.5, 7) + leg(0, 2.5, 4) + leg(1, 3.0, 5) + leg(1, 3.0, 2)
    yield 'times_of_a_blank_row', b'3\n' + edit(0, 0, 1, 2, 3, 9) + leg(1, 1.5, 8) + edit(1, 0, times=OFTEN)
    yield 'times_of_other_classes', b'4\n' + leg(0, INF, 2) + leg(1, -INF, OFTEN) + edit(2, 5, NAN, times=3) + leg(3, -0.0, 4)
    yield 'times_at_every_shift', b'64\n' + b''.join(leg(i, math.ldexp(2.0 ** 53 - 1, i - 60), OFTEN) for i in range(64))
    yield 'long_input', many(2, 1024, 9000)
    yield 'split_everywhere', split_everywhere()
    # line 1
    yield 'empty', b''
    yield 'count_empty_line', b'\n'
    yield 'count_two_line_ends', b'\n\n'
    for name, text in [('space_before', b' 4'), ('space_after', b'4 '), ('plus', b'+4'), ('minus', b'-1'), ('leading_zero', b'04'), ('two_zeros', b'00'),
                       ('hex', b'0x4'), ('letter', b'a'), ('word', b'four'), ('point', b'4.0'), ('cr', b'4\r'), ('tab', b'4\t'), ('nul', b'4\0'), ('not_ascii', b'\xd9\xa4'),
                       ('two_numbers', b'4 4'), ('1025', b'1025'), ('wraps_32', b'4294967297'), ('wraps_64', b'18446744073709551617'), ('eleven_digits', b'10000000000'),
                       ('long', b'1' * 100), ('byte_order_mark', b'\xef\xbb\xbf4')]:
        yield 'count_' + name, text + b'\n' + GOOD
    # a later line: line 2 of three, of which line 3 is never read
    for name, line in [('empty', b'\n'), ('space_before', b' ' + GOOD), ('space_after', GOOD[:-1] + b' \n'), ('two_spaces', GOOD.replace(b' ', b'  ', 1)),
                       ('tab', GOOD.replace(b' ', b'\t', 1)), ('cr', GOOD[:-1] + b'\r\n'), ('upper_case', with_field(2, b'400000000000000A')),
                       ('letter_g', with_field(2, b'400000000000000g')), ('digits_15', with_field(2, b'400000000000000')), ('digits_17', with_field(4, b'00000000000000000')),
                       ('hex_prefix', with_field(2, b'0x40000000000000')), ('minus_row', with_field(0, b'-0')), ('plus_row', with_field(0, b'+0')),
                       ('zero_before_row', with_field(0, b'00')), ('zero_before_function', with_field(1, b'05')), ('hex_row', with_field(0, b'a')), ('hex_function', with_field(1, b'a')),
                       ('no_row', with_field(0, b'')), ('no_function', with_field(1, b'')), ('no_argument', with_field(3, b'')), ('one_field', b'0\n'), ('four_fields', b' '.join(FIELDS[:4]) + b'\n'),
                       ('five_fields', b' '.join(FIELDS[:5]) + b'\n'), ('clear_five_fields', b' '.join(with_field(1, b'0').split(b' ')[:5]) + b'\n'), ('seven_fields', GOOD[:-1] + b' 0\n'), ('nul', with_field(0, b'\0')), ('nul_at_end', GOOD[:-1] + b'\0\n'), ('not_ascii', with_field(0, b'\xc3\xa9')),
                       ('row_8', with_field(0, b'1')), ('row_wraps_32', with_field(0, b'4294967296')), ('row_wraps_64', with_field(0, b'18446744073709551616')),
                       ('row_ten_digits', with_field(0, b'4294967295')), ('row_eleven_digits', with_field(0, b'10000000000')),
                       ('function_1', with_field(1, b'1')), ('function_1_no_such_row', with_field(0, b'1').replace(b' 5 ', b' 1 ')), ('function_1_nan', edit(0, 1, NAN)), ('function_1_never_driven', edit(0, 1, times=0)),
                       ('function_past_the_last', with_field(1, b'%d' % (LAST + 1))), ('function_255', with_field(1, b'255')), ('function_256', with_field(1, b'256')), ('function_261', with_field(1, b'261')),
                       ('function_wraps_32', with_field(1, b'4294967301')), ('times_65536', with_field(5, b'65536')), ('times_65537', with_field(5, b'65537')), ('times_007', with_field(5, b'007')),
                       ('times_two_zeros', with_field(5, b'00')), ('no_times', with_field(5, b'')), ('times_hex', with_field(5, b'a')), ('times_minus', with_field(5, b'-1')), ('times_plus', with_field(5, b'+1')),
                       ('times_point', with_field(5, b'1.0')), ('times_wraps_32', with_field(5, b'4294967297')), ('times_wraps_64', with_field(5, b'18446744073709551617')),
                       ('times_eleven_digits', with_field(5, b'10000000001')), ('clear_times_65536', b' '.join([b'0', b'0'] + FIELDS[2:5] + [b'65536']) + b'\n'), ('spaces', b'     \n'), ('83_bytes', b' '.join([b'4294967295'] * 2 + FIELDS[2:5] + [b'4294967295']) + b'\n'), ('84_bytes', GOOD[:-1] + b' ' * 28 + b'\n'), ('long', GOOD[:-1] + b'0' * 10000 + b'\n'),
                       ('long_spaces', b' ' * 5000 + b'\n'), ('sentence', b'bad line 7\n')]:
        yield 'line_' + name, one + line + GOOD
    yield 'function_1_after_the_rest', b'2\n' + leg(0, 1.5) + edit(1, 3, pattern(1.0)) + edit(1, 1, pattern(1.0)) + edit(1, 0)
    yield 'line_after_the_last', one + GOOD + b'\n'
    yield 'line_bad_no_end', one + GOOD + GOOD[:-2]
    yield 'line_far_on', many(3, 7, 500) + b'7' + GOOD[1:] + GOOD

# a folder opens, but can't be read: not the end of the input, so no sheet and no line is named bad
FAILED = '.', b'input failed after line 0\n'

def wanted():
    """Every file that is stored, by its path."""
    data = list(cases())
    files = {'crates/cases/data/' + name: text for name, text in data}
    printed = [(name, run(text)) for name, text in data] + [FAILED]
    files['crates/cases/args'] = ''.join(name + '\n' for name, _ in printed).encode()
    files['crates/cases/stdout'] = b''.join(b'== %s\n' % name.encode() + text for name, text in printed)
    files['crates/legsheet/stdin'], files['crates/legsheet/stdout'] = EXAMPLE, run(EXAMPLE)
    files['examples/worked.txt'] = EXAMPLE
    return files

# ---- the program beside the model

def program():
    """The command that runs target/bin/legsheet."""
    return machine.command(os.path.join(ROOT, 'target/bin/legsheet'))

def damaged(rng):
    """A good input with up to three bytes changed, put in, taken out or repeated, and at times a line to function 1."""
    rows = rng.choice([0, 1, 2, 3, 9, 10, 11, 100, 1024])
    text = bytearray(many(rng.random(), rows, rng.randrange(12) if rows else 0))
    edits = [m.start(1) for m in re.finditer(rb'(?m)^[0-9]+ ([0-9]) ', text)]
    if edits and rng.randrange(20) == 0:
        text[rng.choice(edits)] = b'1'[0]
    for _ in range(rng.randrange(4)):
        at, byte = rng.randrange(len(text) + 1), rng.choice(b'0123456789abcdefg \n\r\t\0A+-x') if rng.random() < .9 else rng.randrange(256)
        what = rng.randrange(4)
        text[at:at + (what != 0)] = bytes([byte]) * (what != 2) if what < 3 else text[at:at + 1] * rng.choice([2, 3, 80])
    return bytes(text)

def compare(n):
    """How many of n inputs the program and the model print differently."""
    rng, command, off, good = random.Random(n), program(), 0, 0
    for _ in range(n):
        text = damaged(rng)
        try:
            want = run(text)
        except ValueError:
            continue  # the damage made an argument that 01 does not answer by itself
        good += not want.startswith(b'bad')
        if subprocess.run(command, input=text, stdout=subprocess.PIPE).stdout != want:
            off += 1
            print('differs: %r' % text)
    print('%d inputs, %d of them good: %d differ' % (n, good, off))
    return off

def main():
    if sys.argv[1:] == ['--run']:
        sys.stdout.buffer.write(run(sys.stdin.buffer.read()))
        return
    if sys.argv[1:2] == ['--compare']:
        sys.exit(bool(compare(int(sys.argv[2]))))
    if sys.argv[1:2] == ['--compare-files']:
        import program_runs
        folder = sys.argv[4] if len(sys.argv) > 4 else os.path.join(ROOT, 'target/bin')
        there = sys.argv[5:] or [p for p in program_runs.files_model.PROGRAMS if os.path.exists(os.path.join(folder, p))]
        off, tried, good = program_runs.compare(int(sys.argv[2]), int(sys.argv[3]) if len(sys.argv) > 3 else 1, folder, there)
        print('%d runs of %s, %d of them good: %d differ' % (tried, ', '.join(there), good, off))
        sys.exit(bool(off))
    if sys.argv[1:] == ['--runs']:
        import program_runs
        print('%d runs, %d bytes' % program_runs.write_stored())
        return
    files = wanted()
    if sys.argv[1:] == ['--check']:
        here = 'crates/cases/data'
        stored = {here + '/' + n for n in os.listdir(os.path.join(ROOT, here))}
        off = sorted(stored - set(files)) + [p for p, text in files.items() if not os.path.exists(os.path.join(ROOT, p)) or open(os.path.join(ROOT, p), 'rb').read() != text]
        import program_runs
        runs, stored_runs = program_runs.check_stored()
        off += ['faces/program/runs/' + name for name in runs]
        print('\n'.join(off) or '%d files and %d runs are as the model makes them' % (len(files), stored_runs))
        sys.exit(bool(off))
    shutil.rmtree(os.path.join(ROOT, 'crates/cases/data'), ignore_errors=True)
    for path, text in files.items():
        os.makedirs(os.path.dirname(os.path.join(ROOT, path)), exist_ok=True)
        with open(os.path.join(ROOT, path), 'wb') as f:
            f.write(text)
    print('%d cases, %d bytes of input' % (len(files) - 5, sum(len(t) for p, t in files.items() if '/data/' in p)))

if __name__ == '__main__':
    main()
