#!/usr/bin/env python3
"""A model of hex text (02, [10] and [13]): a sheet's bytes written as lines of C's hexadecimal floats, and such lines read into a sheet.

Written from 02 and the page of programs alone, over the sheet of sheet_model.py, the decimal numbers of program_model.py and the spellings of hexfloat_points.py. What a function answers
is asked of a callback, evaluate(function, a, b, c) -> (refusal, first, second), floats as bit patterns. `known` is one: what the documents name, and else the stored answers.

  oracle/hextext_model.py                        the model's own test
  oracle/hextext_model.py --answers [FOLDER]     writes oracle/hextext_answers.txt: function, two arguments, refusal and two answers where the recipes are asked, as legsheet of FOLDER
                                                 (target/bin) works them out"""
import collections, itertools, os, random, struct, subprocess, sys
import hexfloat_points as floats, machine, program_model as lines, sheet_model as sheets

MOST_DIGITS = 10  # of function, times and refusal; the row count may have any number
ANSWERS_FILE = os.path.join(lines.ROOT, 'oracle/hextext_answers.txt')


class Refused(collections.namedtuple('Refused', 'number line column sheet', defaults=(None, None, None))):
    """A refusal with the line and the column that it names, and the sheet as it stands then: blank with the edits of the lines before. No sheet where line 1 made none."""
    def told(self): return b'%d' % self.number + (b' line %d' % self.line if self.line else b'') + (b' column %d' % self.column if self.column else b'')


# ---- answers

def lists(name):
    """The lines of a stored list, as numbers."""
    with open(os.path.join(lines.ROOT, 'crates/vectors/data', name + '.txt')) as listed: return [[int(x, 16) for x in line.split()] for line in listed]


def stored_answers():
    """By function and two arguments: the complete integrals' list, which is compared by bits, and what --answers wrote."""
    found = {(head >> 8, a, 0): (head & 255, first, second) for head, a, _, _, first, second in lists('complete')}
    if os.path.exists(ANSWERS_FILE):
        with open(ANSWERS_FILE) as listed:
            for f, a, b, q, first, second in map(str.split, listed): found[int(f), int(a, 16), int(b, 16)] = int(q), int(first, 16), int(second, 16)
    return found


ANSWERS = stored_answers()


def known(f, a, b, c):
    """A function's answer, where it is known."""
    answer = sheets.evaluate(f, a, b) or ANSWERS.get((f, a, b))
    if answer is None: raise ValueError('an elliptic integral would be needed')
    return answer


def points():
    """Where the recipes are asked: points of the stored lists, legs of the meridian, and refusals 3 and 5."""
    for f, name in ((4, 'ellippi'), (5, 'ellipeinc'), (6, 'ellipf')):
        for a, b, _ in lists(name)[:24] + lists(name + '_wide')[:8]: yield f, a, b
    at = lines.pattern
    yield from [(5, 0x3ff921fb54442d18, 0xbf7b9adfe197dcd2), (5, 0x3ff3b7cd97137d15, 0xbf7b9adfe197dcd2), (6, at(1.0), at(0.5)), (6, at(-1.0), at(0.5)), (4, at(0.25), at(0.5)), (4, at(2.0), at(0.5)), (4, 0, at(0.5))]
    yield from [(5, at(1.5), at(2.0)), (6, at(1.0), at(2.0)), (4, at(2.0), at(-2.0 ** 683)), (5, at(2.0 ** -512), at(-2.0 ** 972)), (6, 0, sheets.PLUS), (6, sheets.SIGN, sheets.PLUS)]


def asked(folder):
    """The stored answers' text, by the legsheet of a folder."""
    every = list(points())
    given = b'%d\n' % len(every) + b''.join(lines.edit(i, *point) for i, point in enumerate(every))
    printed = subprocess.run(machine.command(os.path.abspath(os.path.join(folder, 'legsheet'))), input=given, stdout=subprocess.PIPE, check=True).stdout.decode().splitlines()
    rows = [line.split() for line in printed[:len(every)]]
    return ''.join('%d %016x %016x %s %s %s\n' % (*point, *row[2:5]) for point, row in zip(every, rows))


# ---- writing

def line_of(f, a, b, c, times, q, first, second):
    """A row's line, in the one spelling that is written."""
    return ','.join(['%d' % f, *map(floats.written, (a, b, c)), '%d' % times, '%d' % q, *map(floats.written, (first, second))]).encode()


def write(data):
    """The text of a sheet, damage as it stands: function and refusal as their bytes say, times as the sheet's first word lets them be read, every pattern as it is."""
    sheet = sheets.Sheet(0, 0)
    sheet.b = bytearray(data)
    if sheet.rows() is None: return Refused(7)
    out = [b'%d\n' % sheet.rows()]
    for i in range(sheet.rows()):
        f, q, _, _, a, b, c, first, second = struct.unpack('<BBHI5Q', sheet.row(i))
        out.append(line_of(f, a, b, c, sheet.times(i), q, first, second) + b'\n')
    return b''.join(out)


# ---- reading

def decimal(most):
    """What reads a decimal field; above `most` it does not read."""
    return lambda field: int(field) if lines.NUMBER.fullmatch(field) and len(field) <= MOST_DIGITS and int(field) <= most else None


def number(field): return floats.said(field.decode('latin-1'))


FIELDS = decimal(sheets.LAST), number, number, number, decimal(sheets.MOST_TIMES), decimal(10 ** MOST_DIGITS), number, number


def placed(line):
    """Each field with the column where it begins."""
    fields = line.split(b',')
    return list(zip(itertools.accumulate([1] + [len(field) + 1 for field in fields]), fields))


class Reading:
    """A text that comes line by line. `one` lets rows of function 1 in, as a report does."""
    def __init__(self, one=False, evaluate=known): self.sheet, self.line, self.one, self.evaluate = None, 0, one, evaluate

    def refused(self, number, column=None): return Refused(number, self.line, column, self.sheet and bytes(self.sheet.b))

    def take(self, line):
        """The refusal of the next line, or None where it was taken."""
        self.line += 1
        if self.sheet is None: return self.blank(line)
        if self.line > self.sheet.rows() + 1: return self.refused(18, 1)
        return self.row(line)

    def blank(self, line):
        if not lines.NUMBER.fullmatch(line): return self.refused(18, 1)
        rows = lines.number(line)
        if rows > sheets.MOST_ROWS: return Refused(11)
        self.sheet = sheets.Sheet(328 + 48 * rows, 0)
        self.sheet.make(rows)

    def row(self, line):
        """From the left; then the number of fields, function 1, and what is worked out."""
        fields, said = placed(line), []
        for (column, field), reads in zip(fields, FIELDS):
            said.append(reads(field))
            if said[-1] is None: return self.refused(18, column)
        if len(fields) < len(FIELDS): return self.refused(18, len(line) + 1)
        if len(fields) > len(FIELDS): return self.refused(18, fields[len(FIELDS)][0] - 1)
        f, *arguments, times, q, first, second = said
        if f == sheets.WITHDRAWN and not self.one: return self.refused(22)
        arguments = [x if k < sheets.USED[f] else 0 for k, x in enumerate(arguments)]
        answer = self.evaluate(f, *arguments)
        for (column, _), given, own in zip(fields[5:], (q, first, second), answer):
            if given != own: return self.refused(18, column)
        self.sheet.put(self.line - 2, sheets.new_row(f, arguments, answer, times))

    def end(self):
        """No line is left: the sheet's bytes, or the refusal of a line that is missing."""
        self.line += 1
        return self.refused(18, 1) if self.sheet is None or self.line <= self.sheet.rows() + 1 else bytes(self.sheet.b)


def read(text, one=False, evaluate=known):
    """The bytes of the sheet that a text says, or a refusal."""
    every, reading = text.split(b'\n'), Reading(one, evaluate)
    for line in every[:-1] if every[-1] == b'' else every:
        wrong = reading.take(line)
        if wrong: return wrong
    return reading.end()


# ---- random sheets and texts

POINTS = sorted(ANSWERS)


def some_row(rng):
    """Function, three arguments, times, refusal and two answers of a row that is worked out; what its function does not read may be anything."""
    kind, a, b = rng.randrange(8), sheets.value(rng), sheets.value(rng)
    if kind == 0: f = 0
    elif kind < 3: f, a, b = rng.choice(sheets.CORNERS)
    elif kind < 5: f, b = rng.choice([5, 6]), rng.choice([0, sheets.SIGN])
    else: f, a, b = rng.choice(POINTS)
    if f == sheets.WITHDRAWN: f = 3
    return (f, a, b if sheets.USED[f] > 1 else rng.choice([0, sheets.value(rng)]), rng.choice([0, sheets.value(rng)]), sheets.often(rng), *known(f, a, b if sheets.USED[f] > 1 else 0, 0))


def stored_row(f, a, b, c, times, *answer): return sheets.new_row(f, [x if k < sheets.USED[f] else 0 for k, x in enumerate((a, b, c))], answer, times)


def worked(seed, rows):
    """A sheet of so many rows, each worked out."""
    rng = random.Random(seed)
    return sheets.worked_out([stored_row(*some_row(rng)) for _ in range(rows)])


def text(seed, rows): return write(worked(seed, rows))
def text_cut(seed, rows): return text(seed, rows).rsplit(b'\n', 2)[0] + b'\n'  # without its last line


def other_text(seed, rows):
    """A text in many spellings, of so many rows."""
    rng = random.Random(seed)
    return b''.join(b','.join(fields) + b'\n' for fields in [[b'%d' % rows]] + [spelt(rng, some_row(rng)) for _ in range(rows)])


ZERO = b'+0x' + b'0' * 20 + b'.' + b'0' * 20 + b'p+000000'  # the longest spelling that reads
LONGEST = b','.join([b'0', ZERO, ZERO, ZERO, b'65535', b'0', ZERO, ZERO])  # and the longest line that is taken


def longest_text(rows): return b'%d\n' % rows + (LONGEST + b'\n') * rows
def spelt(rng, row): return [b'%d' % x if k in (0, 4, 5) else other(rng, x) for k, x in enumerate(row)]


def other(rng, p):
    """Some spelling of a pattern: with zeros in front or behind, the point elsewhere, an exponent to match, more digits than an f64 holds, either case."""
    size, sign = p % sheets.SIGN, '-' if p >= sheets.SIGN else rng.choice(['', '', '+'])
    if size == sheets.PLUS and rng.randrange(2): return (sign + rng.choice(['0x1p+1024', '0x1.fffffffffffff8p+1023', '0XFp999999'])).encode()
    if size >= sheets.PLUS or rng.randrange(3) == 0: return floats.written(p).encode()
    field = size >> 52
    n, e = size % (1 << 52) + (1 << 52 if field else 0), max(field, 1) - 1075
    if size == 0: e = rng.choice([0, rng.randrange(-900000, 900000)])
    elif rng.randrange(3) == 0: # digits that the rounding takes away again
        places = rng.randrange(1, 20)
        n, e = (n << 4 * places) + rng.randrange((1 << 4 * places - 1) + (n + 1) % 2), e - 4 * places
    move = rng.randrange(4)
    digits, e = '%x' % (n << move), e - move
    if size and rng.randrange(2): # as short as can be
        e += 4 * (len(digits) - len(digits.rstrip('0')))
        digits = digits.rstrip('0')
    digits = '0' * min(rng.choice([0, 0, 1, 3, 40]), 40 - len(digits)) + digits
    behind = rng.choice([0, rng.randrange(len(digits) + 1), len(digits)])
    e += 4 * behind
    point = '.' if behind or rng.randrange(4) == 0 else ''
    power = '' if e == 0 and rng.randrange(2) else rng.choice('pP') + ('-' if e < 0 else rng.choice(['', '+'])) + rng.choice(['%d', '%06d']) % abs(e)
    whole = digits[:len(digits) - behind] + point + digits[len(digits) - behind:]
    made = sign + rng.choice(['0x', '0x', '0X']) + rng.choice([whole, whole, whole.upper()]) + power
    assert floats.said(made) == p, made
    return made.encode()


ODD = [b'', b' ', b'0x', b'0x.', b'0x1p', b'1', b'01', b'-0', b'-1', b'+1', b'1.5', b'inf', b'INF', b'+inf', b'-inf', b'nan', b'nan:7ff0000000000000', b'nan:7FF8000000000000', b'nan:fff8000000000001', b'6', b'7', b'22',
       b'65535', b'65536', b'9999999999', b'99999999999', b'0x' + b'0' * 40, b'0x' + b'0' * 41, b'0x1p0000001', b'\xff', b'\0']


def fault(rng, every):
    """Something is changed in a text, given as the fields of its lines."""
    kind, rows = rng.randrange(12), [fields for fields in every[1:] if len(fields) == len(FIELDS)]
    if kind == 0 or not rows: every[0][0] = rng.choice([b'%d' % (len(every) - 1 + rng.choice([-1, 1])), b'1024', b'1025', b'9' * 30, b'0' + every[0][0], b'x', b''])
    elif kind == 1: every.pop(rng.randrange(1, len(every)))
    elif kind == 2: every.insert(rng.randrange(1, len(every) + 1), [b''])
    elif kind == 3: every.insert(rng.randrange(1, len(every) + 1), list(rng.choice(rows)))
    else:
        fields, k = rng.choice(rows), rng.randrange(len(FIELDS))
        if kind == 4: fields.pop(k)
        elif kind == 5: fields.insert(k, rng.choice([fields[k], *ODD]))
        elif kind == 6: fields[-1] += b'\r'
        elif kind == 7: fields[0] = rng.choice([b'1', b'1', b'7', b'0', b'%d' % rng.randrange(2, 7)])
        elif kind == 8: fields[5] = b'%d' % rng.choice([0, 1, 2, 3, 6, 7, 22, 10 ** 9])
        elif kind == 9: fields[k] = rng.choice([*ODD, floats.some_spelling(rng).encode()])
        else:
            p = number(fields[rng.choice([6, 7])]) or 0
            fields[rng.choice([6, 7])] = other(rng, p ^ rng.choice([1, 2, sheets.SIGN, 1 << rng.randrange(64)]))


def some_text(rng):
    """A text in many spellings, most often with something wrong."""
    every = [spelt(rng, some_row(rng)) for _ in range(rng.choice([0, 1, 1, 2, 3, 5, rng.randrange(30)]))]
    every.insert(0, [b'%d' % len(every)])
    for _ in range(rng.choice([0, 0, 1, 1, 1, 2])): fault(rng, every)
    made = bytearray(b'\n'.join(map(b','.join, every)) + b'\n' * rng.choice([1, 1, 1, 0, 2 if rng.randrange(5) == 0 else 1]))
    if made and rng.randrange(5) == 0:
        at = rng.randrange(len(made))
        made[at:at + rng.randrange(2)] = bytes([rng.choice(b'0123456789abcdefxXpP.+-,,:\n\r nif\0\xff')])
    return bytes(made)


# ---- the model's own test: the examples of the page of programs, and each corner of the notes on [10] and [13]

NAN, PLUS, MINUS, ONE, SIGN, TOP = sheets.NAN, sheets.PLUS, sheets.MINUS, sheets.ONE, sheets.SIGN, sheets.TOP
LEG = b'5,0x1.8p+1,0x0p+0,0x0p+0,2,0,0x1.8p+1,0x0p+0'  # E(3, 0), twice; columns 1, 3, 12, 19, 26, 28, 30 and 39
COLUMNS = [column for column, _ in placed(LEG)]


def with_field(k, field, line=LEG): return b','.join([*line.split(b',')[:k], field, *line.split(b',')[k + 1:]])
def of(*rows): return b''.join(one + b'\n' for one in (b'%d' % len(rows), *rows))
def sheet_of(*rows): return sheets.worked_out([stored_row(*row) for row in rows])
def at(line, column, *rows, blank=0): return Refused(18, line, column, sheet_of(*rows, *[(0,) * 8] * blank))


LEG_ROW = 5, lines.pattern(3.0), 0, 0, 2, 0, lines.pattern(3.0), 0


def field_at(k, field, line=LEG):
    """Whether field k, in the second of two rows, is where the text fails."""
    found = read(of(LEG, with_field(k, field, line)))
    return found == at(3, placed(line)[k][0], LEG_ROW, blank=1)


SPELLINGS = [(lines.pattern(3.0), '0x1.8p+1'), (0, '0x0p+0'), (SIGN, '-0x0p+0'), (1, '0x0.0000000000001p-1022'), (SIGN + (1 << 52) - 1, '-0x0.fffffffffffffp-1022'), (1 << 52, '0x1p-1022'),
             (TOP, '0x1.fffffffffffffp+1023'), (ONE, '0x1p+0'), (lines.pattern(0.1), '0x1.999999999999ap-4'), (1 << 51, '0x0.8p-1022'), (PLUS, 'inf'), (MINUS, '-inf'), (NAN, 'nan:7ff8000000000000'),
             (MINUS + 1, 'nan:fff0000000000001')]
THREES = ['0x1.8p1', '0x3', '0X3', '+0x3', '0x3.', '0x3p0', '0x.3p4', '0x0.3P+4', '0x18p-3', '0x00003.0000p+000000', '0x1.8P+01', '0x30p-4', '0xCp-2', '0xc0P-006']
HALF = lines.pattern(0.5)
LIMITS = [('0x' + '0' * 39 + '1', ONE), ('0x' + '0' * 40 + '1', None), ('0x' + '0' * 20 + '.' + '0' * 20, 0), ('0x1.' + '0' * 39, ONE), ('0x1.' + '0' * 40, None), ('0x1p000000', ONE), ('0x1p0000000', None),
          ('0x1p-000001', HALF), ('0x1p+0000001', None), ('0x.8', HALF), ('-0x.8', SIGN + HALF), ('0x1', ONE)]
ROUNDED = [('0x1p+1024', PLUS), ('0x1p+999999', PLUS), ('-0x1p999999', MINUS), ('0x1.fffffffffffff8p+1023', PLUS), ('0x1.fffffffffffff7ffp+1023', TOP), ('0x1p-1075', 0), ('-0x1p-1075', SIGN), ('0x1.8p-1075', 1),
           ('0x1.0000000000001p-1075', 1), ('0x1p-999999', 0), ('0x1.00000000000018p-1023', 0x8000000000001), ('0x1.00000000000008p+0', ONE), ('0x1.00000000000018p+0', ONE + 2),
           ('0x1.000000000000080000000000000000000000001p+0', ONE + 1), ('0x0p+999999', 0), ('-0x0p-999999', SIGN)]
NO_FLOATS = [b'', b'0x', b'0x.', b'0xp1', b'0x.p1', b'0x1p', b'0x1p+', b'0x1p-', b'0x1.8.0', b'0x1p1.0', b'0x1p0x1', b'1', b'1.5', b'3e0', b'0b1', b'x1', b' 0x1', b'0x1 ', b'0x 1', b'--0x1', b'+-0x1', b'- 0x1', b'0x-1',
             b'0x1g', b'0x1\r', b'0x1\0', b'\xef\xbc\x90x1', b'0x1L', b'0x1f0p']
NO_WORDS = [b'INF', b'+inf', b'Inf', b'infinity', b'-INF', b'-infinity', b'inf ', b'nan', b'nan:', b'NAN:7ff8000000000000', b'-nan:7ff8000000000000', b'nan:7ff0000000000000', b'nan:fff0000000000000', b'nan:3ff0000000000000',
            b'nan:7FF8000000000000', b'nan:7ff800000000000', b'nan:07ff8000000000000', b'nan(0x1)']


def numbers():
    """H1 to H7: one number, by itself and as an argument or an answer."""
    for p, s in SPELLINGS: assert floats.written(p) == s and number(s.encode()) == p, s
    for s, p in [*((s, lines.pattern(3.0)) for s in THREES), *LIMITS, *ROUNDED]: assert number(s.encode()) == p, s
    for s in NO_FLOATS + NO_WORDS:
        assert number(s) is None, s
        for k in (1, 2, 3, 6, 7): assert field_at(k, s), s
    # a spelling that rounds to an infinity is one, as argument and as answer
    infinite = sheet_of((5, PLUS, 0, 0, 2, 0, PLUS, 0))
    for s in (b'inf', b'0x1p+1024', b'0x1.fffffffffffff8p+1023'): assert read(of(with_field(6, b'inf', with_field(1, s)))) == read(of(with_field(6, s, with_field(1, b'inf')))) == infinite
    # a NaN keeps its bits; as an answer it reads, and differs
    for p in (NAN, PLUS + 1, MINUS + 1, 2 ** 64 - 1): assert read(of(b'3,nan:%016x,0x0p+0,0x0p+0,1,1,0x0p+0,0x0p+0' % p)) == sheet_of((3, p, 0, 0, 1, 1, 0, 0))
    assert field_at(6, b'nan:7ff8000000000000') and field_at(7, b'nan:fff8000000000000')
    assert read(of(LEG, with_field(7, b'0x', with_field(6, b'nan:7ff8000000000000')))) == at(3, 51, LEG_ROW, blank=1)


def longest():
    """H3: the longest line that is taken, and the longest that reads."""
    assert len(ZERO) == 52 and len(LONGEST) == 274 and read(of(LONGEST)) == read(longest_text(1)) == sheet_of((0,) * 8)
    assert field_at(5, b'22', LONGEST) and len(with_field(5, b'22', LONGEST)) == 275
    assert field_at(5, b'9999999999', LONGEST) and len(with_field(5, b'9999999999', LONGEST)) == 283


NO_WHOLES = {0: [b'', b'7', b'8', b'255', b'256', b'05', b'00', b'+5', b'-0', b' 5', b'5 ', b'a', b'0x5', b'4294967301', b'00000000005', b'10000000000'],
             4: [b'', b'65536', b'65537', b'007', b'00', b'+1', b'-1', b'1.0', b'0x1p+0', b'4294967297', b'10000000000'], 5: [b'', b'00', b'-0', b'0x0p+0', b'a', b'10000000000']}


def second(line):
    """Where a text of two rows fails that has this line for its second."""
    found = read(of(LEG, line))
    assert found == at(3, found.column, LEG_ROW, blank=1)
    return found.column


def one_line():
    """H8 to H10: what is stored, what differs, and the columns."""
    assert COLUMNS == [1, 3, 12, 19, 26, 28, 30, 39] and read(of(LEG)) == sheet_of(LEG_ROW)
    # what a function does not read, and times of a blank row, say anything that reads
    unused = of(b'0,inf,nan:fff8000000000001,-0x1p-1075,65535,0,0x0p+0,0x0p+0', b'3,0x1p+0,nan:7ff8000000000000,0x7,9,0,inf,0x1p+0', with_field(3, b'-inf'))
    assert read(unused) == sheet_of((0,) * 8, (3, ONE, 0, 0, 9, 0, PLUS, ONE), LEG_ROW)
    for k, field in [(1, b'1'), (2, b'nan:7ff0000000000000'), (3, b''), (4, b'65536')]: assert field_at(k, field, with_field(0, b'0'))
    # by bits: refusal, first, second; another spelling of the same bits is fine, the other zero is not
    assert read(of(with_field(6, b'0X30P-4'))) == read(of(LEG))
    assert field_at(5, b'1') and field_at(6, b'0x1.8000000000001p+1') and field_at(6, b'-0x1.8p+1') and field_at(7, b'-0x0p+0') and field_at(7, b'0x1p-1074')
    assert field_at(6, b'-0x0p+0', b'5,-0x0p+0,0x1p+0,0x0p+0,1,0,0x0p+0,0x0p+0') and field_at(6, b'0x0p+0', b'6,-0x0p+0,0x0p+0,0x0p+0,1,0,-0x0p+0,0x0p+0')
    fourth = b'4,0x1p+0,0x1p+0,0x0p+0,1,4,0x0p+0,0x0p+0'
    assert read(of(fourth)) == sheet_of((4, ONE, ONE, 0, 1, 4, 0, 0))
    for q in (b'0', b'2', b'3', b'22', b'255', b'260', b'9999999999'): assert field_at(5, q, fourth)
    assert second(b'4,0x1p+0,0x1p+0,0x0p+0,1,0,0x1p+0,0x1p+0') == 26 and second(b'2,0x1p+0,0x0p+0,0x0p+0,1,0,0x1p+1,0x1p+0') == 28
    # a field that does not read is told before one that differs, and the leftmost of several; a refusal of more than ten digits does not read
    assert second(with_field(7, b'0x', with_field(5, b'9999999999'))) == 48 and second(with_field(7, b'0x', with_field(5, b'99999999999'))) == 28
    assert second(b'x,x,x,x,x,x,x,x') == 1 and second(b',,,,,,,') == 1 and second(LEG.replace(b',', b';')) == 1
    for k, fields in NO_WHOLES.items():
        for field in fields: assert field_at(k, field), field
    for k in range(8): assert field_at(k, b'') and field_at(k, b'\xc3\xa9') and field_at(k, LEG.split(b',')[k] + b' ')
    # too few: one past the end; too many: the comma after the eighth; an unreadable field before either
    for k in range(1, 8): assert second(b','.join(LEG.split(b',')[:k])) == len(b','.join(LEG.split(b',')[:k])) + 1 == COLUMNS[k] - 1
    for more in (b',', b',0', b',x', b',,,', b',0x0p+0\r'): assert second(LEG + more) == 45 == len(LEG) + 1
    assert second(b'') == 1 and second(b'5,0x') == 3 and second(with_field(2, b'0x') + b',0') == 12 and second(with_field(5, b'3') + b',0') == 45
    assert second(LEG + b'\r') == 39 and second(b'5,0x1\r') == 3 and second(b'\r') == 1


NO_COUNTS = [b'x', b'00', b'01', b'+1', b'-1', b' 1', b'1 ', b'1\r', b'1,', b'0x1', b'1.0', b'\xd9\xa1', b'1025x', b'01025', b'9' * 5000 + b'x']


def whole_texts():
    """H9 to H11: line 1, lines that are missing or too many, and what stands in the sheet then."""
    assert read(b'') == read(b'\n') == read(b'\n\n') == read(b'\n0\n') == Refused(18, 1, 1)
    for s in NO_COUNTS: assert read(s + b'\n' + LEG) == Refused(18, 1, 1), s
    for s in (b'1025', b'4294967297', b'18446744073709551617', b'9' * 30, b'1' + b'0' * 4999): assert read(s) == read(s + b'\n' + LEG) == read(s + b'\n\n') == Refused(11)
    assert read(b'0') == read(b'0\n') == sheet_of() and read(b'1\n' + LEG) == read(b'1\n' + LEG + b'\n') == sheet_of(LEG_ROW)
    assert read(b'0\n\n') == read(b'0\n' + LEG) == at(2, 1)
    assert read(of(LEG) + b'\n') == read(of(LEG) + LEG) == read(of(LEG) + b'x\n' + LEG) == at(3, 1, LEG_ROW)
    assert read(b'3\n') == read(b'3') == at(2, 1, blank=3) and read(b'1024\n' + LEG) == at(3, 1, LEG_ROW, blank=1023)
    assert read(b'3\n' + LEG + b'\n' + LEG) == read(b'3\n' + LEG + b'\n' + LEG + b'\n') == at(4, 1, LEG_ROW, LEG_ROW, blank=1)
    assert read(b'3\n' + LEG + b'\n\n' + LEG) == at(3, 1, LEG_ROW, blank=2)
    assert read(of(LEG).replace(b'\n', b'\r\n')) == Refused(18, 1, 1) and read(b'1\n' + LEG + b'\r\n') == at(2, 39, blank=1)


def function_1():
    """H9, O1 and O4: a line that reads and has function 1 is 22, before its answers are looked at; one that does not read is 18. A report takes it, worked out and compared."""
    line, its = b'1,0x1p-1,0x0p+0,0x0p+0,3,0,0x1.daa4a35759e4cp+0,0x0p+0', (1, HALF, 0, 0, 3, 0, 0x3ffdaa4a35759e4c, 0)
    gone = Refused(22, 3, None, sheet_of(LEG_ROW, (0,) * 8))
    assert read(of(LEG, line)) == read(of(LEG, with_field(5, b'6', line))) == read(of(LEG, with_field(6, b'nan:7ff8000000000000', line))) == gone and gone.told() == b'22 line 3'
    for k in range(1, 8): assert field_at(k, b'x', line)
    assert second(line + b',') == len(line) + 1 and second(line[:-7]) == len(line) - 6
    assert read(of(LEG, line), True) == sheet_of(LEG_ROW, its) and write(sheet_of(LEG_ROW, its)) == of(LEG, line)
    assert read(of(LEG, with_field(6, b'0x1.daa4a35759e4dp+0', line)), True) == at(3, placed(line)[6][0], LEG_ROW, blank=1)
    assert read(of(LEG, with_field(0, b'7', line)), True) == at(3, 1, LEG_ROW, blank=1)


def written_then_read():
    """H12, and what is written of a sheet as it stands."""
    assert write(sheet_of(LEG_ROW, (0,) * 8)) == b'2\n' + LEG + b'\n0,0x0p+0,0x0p+0,0x0p+0,0,0,0x0p+0,0x0p+0\n' and write(sheet_of()) == b'0\n'
    for seed in range(30):
        data = worked(seed, seed % 7)
        assert read(write(data)) == data and isinstance(read(other_text(seed, seed % 7)), bytes)
    rng, taken = random.Random(1), 0
    for _ in range(2000):
        try: found = read(some_text(rng))
        except ValueError: continue  # an answer that is not known
        taken += isinstance(found, bytes)
        if isinstance(found, bytes): assert read(write(found)) == found
    assert taken > 300
    # a sheet that says 1 comes back as its way forth, whatever its bytes 2 and 3 hold
    new = sheet_of((*LEG_ROW[:4], 1, *LEG_ROW[5:]), (0,) * 8)
    old = bytearray(new)
    old[0], old[34:36], old[82:84] = 1, b'\7\7', b'\7\7'
    assert write(bytes(old)) == write(new) and read(write(bytes(old))) == new
    # damage as it stands: function 255, refusal 255, a NaN for an answer, a blank row with times; bytes 4 to 7, counts and total are not written
    rows = struct.pack('<BBHI5Q', 255, 255, 258, 0xffffffff, 1, 2, 3, NAN + 1, MINUS) + struct.pack('<BBHI5Q', 0, 6, 9, 5, SIGN, 0, PLUS, ONE, NAN)
    said = b'2\n255,0x0.0000000000001p-1022,0x0.0000000000002p-1022,0x0.0000000000003p-1022,258,255,nan:7ff8000000000001,-inf\n0,-0x0p+0,0x0p+0,inf,9,6,0x1p+0,nan:7ff8000000000000\n'
    data = sheets.contents(2) + rows + bytes(range(24)) + b'\xff' * 272
    assert write(data) == said and write(sheets.contents(2, 1) + data[32:]) == said.replace(b',258,', b',1,').replace(b',9,', b',0,')
    for bad in (b'', data[:-1], data + b'\0', b'\2' + data[1:], of(LEG)): assert write(bad) == Refused(7)


def callback():
    """The functions are asked of what is given, with what is not read as zero."""
    heard = []
    def own(*given): return heard.append(given) or (0, TOP, SIGN)
    line = b'3,0x1p-1,0x1p+0,0x1p+0,7,0,0x1.fffffffffffffp+1023,-0x0p+0'
    assert read(of(line), evaluate=own) == sheet_of((3, HALF, 0, 0, 7, 0, TOP, SIGN)) and heard == [(3, HALF, 0, 0)]
    assert Refused(11).told() == b'11' and Refused(18, 2, 7).told() == b'18 line 2 column 7' and Refused(7).told() == b'7'


TESTS = numbers, longest, one_line, whole_texts, function_1, written_then_read, callback


def main():
    if sys.argv[1:2] == ['--answers']:
        made = asked(sys.argv[2] if len(sys.argv) > 2 else os.path.join(lines.ROOT, 'target/bin'))
        with open(ANSWERS_FILE, 'w') as file: file.write(made)
        print('%d answers' % made.count('\n'))
        return
    for test in TESTS: test()
    print('hex text: the model holds to its examples (%s)' % ', '.join(test.__name__ for test in TESTS))


if __name__ == '__main__': main()
