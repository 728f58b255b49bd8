#!/usr/bin/env python3
"""sheet_model.py [SEED]: a model of the leg sheet in whole numbers, read from 01 and 02 alone, and a script of calls with the answers that it works out.

The script goes to standard output, one call a line, fields one space apart, numbers in lower-case hex:

  L length fill                      the buffer is now so many bytes, all equal to fill (8 and 2 digits)
  M rows answer                      make_blank (8, 2)
  E row function a b c times answer  edit (8, 2, 16, 16, 16, 4, 2)
  C row answer                       clear (8, 2)
  P place byte                       the byte at this place is set: damage, or its repair (8, 2)
  R row answer bytes                 row_refusal, and read_row's bytes in hex, or - for an empty part (8, 2, 96 or 1)
  K row times                        row_times (8, 4)
  T answer pattern                   total_refusal, and total as a bit pattern (2, 16)
  N class count                      count (2, 8)
  S sum                              the whole buffer as one number, first byte highest, modulo 2^55 - 55 (16)
  D                                  the buffer is kept aside
  B                                  the buffer is, byte by byte, the one kept aside

Whoever replays it compares each answer, and each S with the bytes of its own buffer. The functions are used only where 01 or 02 names the answer (ellipeinc and ellipf at
m = 0, at an angle of 0 or far out, at m = -∞, the others at their ends and refusals), so the model holds no elliptic integral."""
import math, random, struct, sys

MOST_ROWS, ROW, TOTALS, LAST = 1024, 48, 296, 6
WITHDRAWN = 1                                               # no new row has it; rows that stand are as any other
NAN, PLUS, MINUS = 0x7ff8000000000000, 0x7ff0000000000000, 0xfff0000000000000
ONE, TOP, SIGN = 0x3ff0000000000000, 0x7fefffffffffffff, 1 << 63
HALF_PI, FAR = 0x3ff921fb54442d18, 0x4330000000000000       # π/2 and 2^52
MODULUS = 1 << 2176
OLD, NEW = 1, 3                                             # the first word: without times, which is only read; with times
MOST_TIMES = 65535


# ---- bit patterns

def is_nan(p): return p % SIGN > PLUS
def is_infinite(p): return p % SIGN == PLUS
def key(p): return -(p % SIGN) if p >= SIGN else p          # orders the patterns that are no NaN as their values; both zeros are 0


def by_floats(p, f):
    return struct.unpack('<Q', struct.pack('<d', f(struct.unpack('<d', struct.pack('<Q', p))[0])))[0]


def units(p):
    """A finite value in units of 2^-1074."""
    field, digits = p >> 52 & 0x7ff, p % (1 << 52)
    size = digits if field == 0 else (digits + (1 << 52)) << field - 1
    return -size if p >= SIGN else size


def rounded(n):
    """n units of 2^-1074 as the nearest f64's pattern: ties to even, too large is infinite, zero is +0."""
    sign, n = (SIGN, -n) if n < 0 else (0, n)
    drop = max(n.bit_length() - 53, 0)
    digits, rest = n >> drop, n & (1 << drop) - 1
    if drop and (2 * rest > 1 << drop or 2 * rest == 1 << drop and digits & 1): digits += 1
    pattern = (drop << 52) + digits                             # a carry into the exponent's field falls into place
    return sign + min(pattern, PLUS)


# ---- the answers that 01 and 02 name: (refusal, first, second), or None where they leave them to the recipes

USED = {0: 0, 1: 1, 2: 1, 3: 1, 4: 2, 5: 2, 6: 2}


def evaluate(f, a, b):
    if f == 0: return 0, 0, 0
    if f in (1, 2, 3):
        if is_nan(a): return 1, 0, 0
        if key(a) > key(ONE): return 2, 0, 0
        if a == ONE: return {1: (0, PLUS, 0), 2: (0, ONE, 0), 3: (0, PLUS, ONE)}[f]
        if a == MINUS: return {1: (0, 0, 0), 2: (0, PLUS, 0), 3: (0, 0, PLUS)}[f]
        return None
    if f == 4:
        n, m = a, b
        if is_nan(n) or is_nan(m): return 1, 0, 0
        if key(m) > key(ONE): return 2, 0, 0
        if n == ONE: return 4, 0, 0
        if m == ONE: return 0, MINUS if key(n) > key(ONE) else PLUS, 0
        if n == MINUS or m == MINUS: return 0, 0, 0
        return None
    phi, m = a, b
    if f == 6:
        if is_nan(phi) or is_nan(m): return 1, 0, 0
        if m % SIGN == 0 or phi % SIGN == 0 and not is_infinite(m): return 0, phi, 0
        if key(m) >= key(ONE): return (3, 0, 0) if phi % SIGN >= HALF_PI else None
        if is_infinite(phi): return 0, phi, 0
        if m == MINUS: return (6, 0, 0) if phi % SIGN > FAR else (0, 0, 0)
        return None
    if phi % SIGN == 0: return 0, 0, 0
    if m % SIGN == 0: return (1, 0, 0) if is_nan(phi) else (0, phi, 0)
    if is_infinite(phi): return 0, phi, 0
    if is_nan(phi): return (2 if not is_nan(m) and key(m) > key(ONE) else 1), 0, 0
    if is_nan(m): return 1, 0, 0
    if m == MINUS: return 0, MINUS if phi >= SIGN else PLUS, 0
    if phi % SIGN > FAR and key(m) > key(ONE): return 2, 0, 0
    if phi % SIGN > FAR and m == ONE: return 0, by_floats(phi, lambda x: x * (2.0 * 1.0 / math.pi)), 0     # E(1) is 1
    return None


# ---- the sheet

def u32(*xs): return struct.pack('<%dI' % len(xs), *xs)
def contents(r, says=NEW): return u32(says, 32, 48 * r, r, 2, 32 + 48 * r, 296, 1)
def times_in(row): return row[2] + 256 * row[3]


def new_row(f, args, answers, times): return struct.pack('<BBHI5Q', f, answers[0], times if f else 0, 0, *args, *answers[1:])


def share(row):
    """A row's class (0 blank, 1 finite, 2 +∞, 3 -∞, 4 refused, None) and what it brings to the total: its times multiplied by its first answer."""
    first, = struct.unpack_from('<Q', row, 32)
    if row[0] == 0: return 0, 0
    if row[1] != 0: return 4, 0
    if is_nan(first): return None, 0
    if is_infinite(first): return 2 + (first >= SIGN), 0
    return 1, times_in(row) * units(first)


def worked_out(rows):
    """The sheet of these rows, counted and added up afresh."""
    shares = [share(row) for row in rows]
    counts = [sum(k == c for k, _ in shares) for c in range(5)]
    return contents(len(rows)) + b''.join(rows) + u32(*counts, 0) + (sum(x for _, x in shares) % MODULUS).to_bytes(272, 'little')


class Sheet:
    def __init__(self, length, fill): self.b = bytearray([fill]) * length

    def rows(self):
        """How many rows, or None where the bytes are no sheet."""
        r, rest = divmod(len(self.b) - 328, 48)
        if rest or not 0 <= r <= MOST_ROWS or self.b[:32] not in (contents(r, OLD), contents(r, NEW)): return None
        return r

    def may_be_edited(self): return self.rows() is not None and self.b[0] == NEW

    def make(self, r):
        if r > MOST_ROWS: return 11
        if len(self.b) != 328 + 48 * r: return 7
        self.b[:] = contents(r) + bytes(48 * r) + u32(r) + bytes(292)
        return 0

    def row(self, i): return self.b[32 + 48 * i:80 + 48 * i]
    def counts(self, r): return list(struct.unpack_from('<5I', self.b, 32 + 48 * r))
    def number(self, r): return int.from_bytes(self.b[56 + 48 * r:328 + 48 * r], 'little')

    def edit(self, i, f, a, b, c, times):
        if not self.may_be_edited(): return 7
        r = self.rows()
        if i >= r: return 8
        if f == WITHDRAWN: return 22
        if f > LAST: return 9
        row, counts = self.row(i), self.counts(r)
        first, = struct.unpack_from('<Q', row, 32)
        if row[0] > LAST or row[1] > 6 or is_nan(first) or sum(counts) != r or counts[share(row)[0]] == 0: return 10
        args = [x if k < USED[f] else 0 for k, x in enumerate((a, b, c))]
        self.put(i, new_row(f, args, evaluate(f, args[0], args[1]), times))
        return 0

    def put(self, i, row):
        """This row in place of another, and the totals with it."""
        r = self.rows()
        counts = self.counts(r)
        (old, taken), (new, added) = share(self.row(i)), share(row)
        counts[old] -= 1
        counts[new] += 1
        total = (self.number(r) - taken + added) % MODULUS
        self.b[32 + 48 * i:80 + 48 * i] = row
        self.b[32 + 48 * r:] = u32(*counts, 0) + total.to_bytes(272, 'little')

    def read(self, i):
        r = self.rows()
        if r is None: return 7, b''
        if i >= r: return 8, b''
        return 0, bytes(self.row(i))

    def times(self, i):
        """How often the row was driven; in a sheet without times once, and a blank row never."""
        q, row = self.read(i)
        if q: return 0
        return times_in(row) if self.b[0] == NEW else int(row[0] != 0)

    def total(self):
        r = self.rows()
        if r is None: return 7, 0
        n = self.number(r)
        return 0, rounded(n - MODULUS if n >= MODULUS >> 1 else n)

    def count(self, k):
        r = self.rows()
        return 0 if r is None or k > 4 else self.counts(r)[k]

    def sum(self): return int.from_bytes(self.b, 'big') % ((1 << 55) - 55)


# ---- the script

out = []
sheet = None
aside = None


def new(length, fill=0):
    global sheet
    sheet = Sheet(length, fill)
    out.append('L %08x %02x' % (length, fill))


def make(r): out.append('M %08x %02x' % (r, sheet.make(r)))


def edit(i, f, a=0, b=0, c=0, times=1):
    if f <= LAST and f != WITHDRAWN and evaluate(f, a, b) is None: raise ValueError('no rule names this answer: %d %x %x' % (f, a, b))
    number = sheet.edit(i, f, a, b, c, times)
    out.append('E %08x %02x %016x %016x %016x %04x %02x' % (i, f, a, b, c, times, number))
    return number


def clear(i):
    number = sheet.edit(i, 0, 0, 0, 0, 0)
    out.append('C %08x %02x' % (i, number))
    return number


def poke(p, x):
    sheet.b[p] = x
    out.append('P %08x %02x' % (p, x))


def stand(i, a, answers, times=1):
    """A row of function 1 in the sheet's row i, and the totals with it, byte by byte: as it stands there, entered before."""
    before = bytes(sheet.b)
    sheet.put(i, new_row(WITHDRAWN, [a, 0, 0], answers, times))
    for p, (x, y) in enumerate(zip(before, bytes(sheet.b))):
        if x != y: poke(p, y)


def read(i):
    q, w = sheet.read(i)
    out.append('R %08x %02x %s' % (i, q, w.hex() or '-'))
    out.append('K %08x %04x' % (i, sheet.times(i)))


def total(): out.append('T %02x %016x' % sheet.total())
def count(k): out.append('N %02x %08x' % (k, sheet.count(k)))
def check(): out.append('S %016x' % sheet.sum())


def keep():
    global aside
    aside = bytes(sheet.b)
    out.append('D')


def same():
    assert aside == sheet.b
    out.append('B')


def afresh():
    """A sheet that was only edited is that of its rows worked out afresh: the model's own check."""
    assert sheet.b == worked_out([sheet.row(i) for i in range(sheet.rows())])


def make_old():
    """The sheet as it was before rows kept times: made with times 1, it says 1 and has zeros in place of the times."""
    poke(0, OLD)
    for i in range(sheet.rows()):
        if sheet.b[34 + 48 * i]: poke(34 + 48 * i, 0)


def all_reads(rows):
    total()
    for k in range(6): count(k)
    for i in rows: read(i)
    check()


def value(rng):
    """A double, of any size; ends and ties are common."""
    kind = rng.randrange(8)
    if kind == 0: return rng.choice([0, SIGN, 1, SIGN + 1, TOP, SIGN + TOP, PLUS, MINUS, NAN, ONE, SIGN + ONE, 0x7cb0000000000000])
    if kind == 1: return rng.randrange(1 << 52) + SIGN * rng.randrange(2)
    if kind < 5: return (rng.randrange(1, 2047) << 52) + rng.randrange(1 << 52) + SIGN * rng.randrange(2)
    return (rng.randrange(1000, 1050) << 52) + (rng.randrange(16) << 48) + SIGN * rng.randrange(2)


def often(rng): return rng.choice([0, 1, 1, 2, 3, 255, 256, 257, 0x8000, MOST_TIMES - 1, MOST_TIMES, rng.randrange(1 << 16)])


CORNERS = [(1, ONE, 0), (1, MINUS, 0), (1, NAN, 0), (1, ONE + 1, 0), (2, ONE, 0), (2, MINUS, 0), (2, NAN, 0), (2, PLUS, 0), (3, ONE, 0), (3, MINUS, 0), (3, NAN, 0), (3, ONE + 1, 0),
           (4, ONE, ONE), (4, 0x4000000000000000, ONE), (4, 0x3fe0000000000000, ONE), (4, NAN, 0), (4, 0, NAN), (4, ONE, 0x3ff8000000000000), (4, MINUS, 0), (4, 0, MINUS), (4, MINUS, ONE), (4, PLUS, ONE),
           (5, 0, NAN), (5, SIGN, PLUS), (5, TOP, NAN), (5, SIGN + TOP, ONE), (5, MINUS, MINUS), (5, NAN, PLUS), (5, NAN, NAN), (5, NAN, 0), (5, ONE, NAN), (5, MINUS, 0), (5, TOP, SIGN),
           (5, 1, MINUS), (5, SIGN + ONE, MINUS), (5, NAN, MINUS), (5, 0, MINUS), (5, PLUS, NAN), (5, TOP, ONE), (5, 0x7fe0000000000000, ONE), (5, TOP, ONE + 1),
           (6, NAN, 0), (6, 0, NAN), (6, SIGN, 0), (6, MINUS, SIGN), (6, HALF_PI, ONE), (6, SIGN + HALF_PI, PLUS), (6, PLUS, ONE), (6, PLUS, 0x3fe0000000000000), (6, MINUS, MINUS), (6, ONE, MINUS), (6, FAR, MINUS),
           (6, FAR + 1, MINUS), (6, SIGN + TOP, MINUS), (6, 0, TOP - (1 << 52)), (6, SIGN, 0x3fe0000000000000), (6, SIGN, SIGN + TOP)]


def any_edit(rng, rows):
    """What an edit is given; the row alone where it clears."""
    i = rng.choice([rng.randrange(rows) if rows else 0] * 9 + [rng.choice([rows, rows, rows + 1, 0xffffffff])])
    pick = rng.randrange(12)
    if pick == 0: return (i,)
    if pick == 1: return i, rng.choice([0, 1, 7, 8, 255]), value(rng), value(rng), value(rng), often(rng)
    if pick < 5: return (i, *rng.choice(CORNERS), value(rng), often(rng))
    return i, rng.choice([5, 6]), value(rng), rng.choice([0, SIGN]), value(rng), often(rng)


def do(given): return clear(*given) if len(given) == 1 else edit(*given)


def example():
    """01's example, and the sheet of docs/SHEET.md."""
    new(520); make(4)
    edit(0, 3, ONE); edit(1, 5, 0, NAN); edit(2, 4, ONE, ONE); edit(3, 5, 0x4000000000000000, 0)
    all_reads(range(5))
    new(424); make(2)
    edit(0, 5, 0xbff8000000000000, 0, 7, 1000); edit(1, 4, ONE, ONE, 0, 2)
    all_reads(range(2))


def sizes(rng):
    for r in (0, 1, 1024, 1025, 1026, 0xffffffff):
        for length in (328 + 48 * r, 328 + 48 * r - 1, 328 + 48 * r + 1):
            if length > 328 + 48 * 1025 + 1: length = 328
            new(length, 0xa5); make(r); all_reads([0, 1])
            edit(0, 5, ONE, 0, 0, often(rng)); clear(0); check()
    for length in (0, 1, 31, 32, 327, 328 + 47, 328 + 49):
        new(length, 1); make(0); make(1); all_reads([0]); edit(0, 0); check()


def damage(rng):
    """Each byte of the contents and of the totals of a sheet of one row, one at a time; then the row's own."""
    for p in list(range(32)) + list(range(80, 376)) + list(range(32, 80)):
        new(376); make(1); edit(0, 5, value(rng) % SIGN % PLUS or 1, 0, 0, often(rng))
        poke(p, sheet.b[p] ^ rng.choice([1, 2, 0x80, 0xff]))
        total(); read(0); edit(0, 5, value(rng), 0, 0, often(rng)); total(); check()


OF_EACH_CLASS = [(0, 0, 0), (5, ONE, 0), (3, ONE, 0), (4, 0x4000000000000000, ONE), (4, ONE, ONE)]


def repaired(rng):
    """Counts that are moved about and still add up, a class that counts 0, and repairs."""
    for old in range(5):
        for k in range(5):
            new(376 + 48); make(2)
            edit(0, *OF_EACH_CLASS[old], 0, often(rng))
            at = 128
            for place in range(5): poke(at + 4 * place, 2 * (place == k))
            edit(0, 5, 0x4000000000000000, 0); check(); all_reads([0])


def orders(rng):
    """Twice the same edits, the second time in another order, with rows edited in between, or the same leg with other times: the bytes are the same."""
    for r in (3, 40):
        edits = [(i, value(rng), often(rng)) for i in range(r)]
        for turn in range(2):
            new(328 + 48 * r); make(r)
            for i, x, times in edits:
                if turn: edit(i, 5, rng.choice([x, value(rng)]), 0, 0, often(rng))
                edit(i, 5, x, 0, 0, times)
            all_reads([0, r - 1]); afresh(); rng.shuffle(edits)


def ties(rng):
    """Totals at the rounding's edges: halves, overflow, subnormals, signs."""
    half = 0x7c90000000000000                                   # 2^970, half of the last place of the largest
    for xs in ([TOP, half], [TOP, half - 1], [SIGN + TOP, SIGN + half], [TOP, TOP], [TOP, SIGN + TOP], [TOP, TOP, SIGN + TOP], [1, 1], [SIGN + 1, SIGN + 1], [1, SIGN + 1],
               [0x4340000000000000, ONE], [0x4340000000000000, ONE, 1], [0x4340000000000001, ONE], [0x4340000000000000, SIGN + ONE, 1], [TOP, half, SIGN + 1], [0x0010000000000000, SIGN + 1], [SIGN, SIGN]):
        new(328 + 48 * len(xs)); make(len(xs))
        for i, x in enumerate(xs): edit(i, 5, x, 0); total()
        for i in range(len(xs)): clear(i); total()
        check()
    # a leg driven so often is as good as so many legs: halves that only the times make
    for legs in ([(TOP, 1), (half - (1 << 52), 2)], [(TOP, 1), (half - (2 << 52), 3), (half - (2 << 52), 1)], [(TOP, 65535), (SIGN + TOP, 65534), (half - (8 << 52), 256)], [(1, 65535), (SIGN + 1, 65534)],
                 [(0x4340000000000000, 1), (ONE - (4 << 52), 15), (ONE - (4 << 52), 1), (1, 1)]):
        new(328 + 48 * len(legs)); make(len(legs))
        for i, (x, times) in enumerate(legs): edit(i, 5, x, 0, 0, times); total()
        check(); afresh()
    # as far out as a total goes, and back
    for sign, r in ((SIGN, 1024), (0, 200)):
        new(328 + 48 * r); make(r)
        for i in range(r):
            edit(i, 5, sign + TOP, 0, 0, MOST_TIMES)
            if i % 128 == 127: total()
        all_reads([0, r - 1, r]); afresh()
        assert sheet.number(r) == (-r if sign else r) * MOST_TIMES * units(TOP) % MODULUS
        for i in range(r): clear(i)
        all_reads([0]); afresh()


def times_driven(rng):
    """Each class with each times; the same leg with other times; a blank row has times 0 whatever it was given, and keeps none."""
    for f, a, b in OF_EACH_CLASS:
        new(376); make(1)
        for times in (MOST_TIMES, 0, 1, 255, 256, 0x0102):
            edit(0, f, a, b, 0, times); all_reads([0, 1])
        afresh(); edit(0, 0, a, b, 0, 7); read(0); total(); check(); afresh()
    new(376); make(1); edit(0, 5, 0x4000000000000000, 0, 0, 3); edit(1, 5, ONE, 0, 0, 9); edit(0, 7, ONE, 0, 0, 9); all_reads([0])
    # a blank row whose bytes hold times counts as blank, adds nothing, and is no damage; neither are bytes 4 to 7
    for p in (34, 35, 36, 39):
        new(376); make(1); poke(p, 5); all_reads([0]); edit(0, 5, ONE, 0, 0, 4); all_reads([0]); afresh()
    new(376); make(1); edit(0, 5, ONE, 0, 0, 4); poke(34, 5); all_reads([0]); clear(0); all_reads([0])     # taken away as the bytes say


def limbs(rng):
    """Times of a float with all its digits, up to 69 of them, shifted to where they touch three limbs of 64, or just do not."""
    for limb in (0, 1, 16, 31):
        new(424); make(2)
        for place in range(58, 67):
            field = 64 * limb + place + 1
            for digits in ((1 << 52) - 1, rng.randrange(1 << 52)):
                x = (field << 52) + digits
                if x > TOP: continue
                edit(0, 5, x, 0, 0, MOST_TIMES); total(); edit(1, 5, SIGN + x, 0, 0, 0x8001); total()
                edit(0, 5, x, 0, 0, 1); edit(1, 5, x, 0, 0, often(rng)); total(); check(); afresh()


def old_sheets(rng):
    """A sheet that says 1 is read and not edited; one that says anything else but 3 is none."""
    for r in (0, 1, 5, 7, 1024):
        new(328 + 48 * r); make(r)
        for i in range(min(r, 7)): edit(i, *OF_EACH_CLASS[(i + 1) % 5])
        make_old(); all_reads(range(min(r, 7) + 1))
        for i in range(min(r, 7) + 1): edit(i, 5, ONE, 0, 0, often(rng)); clear(i)
        edit(0, 255); edit(r, 0); check()
        if r:
            for p in (34, 35): poke(p, 0x55)                    # whatever stands there
            read(0); total()
        for says in (0, 2, 4, 0x81, 0xff): poke(0, says); all_reads([0, r]); edit(0, 5, ONE, 0); clear(0)
        poke(0, OLD)
        for p in range(1, 32): poke(p, sheet.b[p] ^ 1); read(0); edit(0, 0); total(); poke(p, sheet.b[p] ^ 1)
        for p in range(1, 4): poke(p, OLD); total(); poke(p, 0)
        total(); poke(0, NEW); all_reads([0]); edit(0, 5, 0x4000000000000000, 0, 0, 2); all_reads([0])
        poke(0, OLD); make(r); all_reads([0]); edit(0, 5, ONE, 0); check()
    # damage is read as it stands, and is no refusal of a sheet that is only read
    new(376); make(1); edit(0, 5, ONE, 0); make_old()
    for p, x in ((32, 7), (33, 200), (71, 0xff), (70, 0xff), (80, 9)): poke(p, x); all_reads([0]); edit(0, 5, ONE, 0)


# What rows of function 1 say that were entered before: each class but blank and -∞, and two finite answers, K(0) and K(0.5).
STANDING = [(0, (0, HALF_PI, 0)), (0x3fe0000000000000, (0, 0x3ffdaa4a35759e4c, 0)), (ONE, (0, PLUS, 0)), (MINUS, (0, 0, 0)), (NAN, (1, 0, 0)), (ONE + 1, (2, 0, 0))]


def withdrawn(rng):
    """Function 1 goes out: an edit to it is 22, after 7 and 8 and before 10. Rows of it that stand are read, counted, totalled, replaced and cleared."""
    for a, answers in STANDING:
        new(424); make(2); edit(1, 5, SIGN + ONE, 0, 0, 3)
        for times in (1, 0, MOST_TIMES):
            stand(0, a, answers, times); all_reads([0, 1]); afresh()
            for i in (0, 1, 2, 0xffffffff): edit(i, 1, a, value(rng), value(rng), often(rng))
            check(); edit(0, *OF_EACH_CLASS[rng.randrange(1, 5)], 0, often(rng)); all_reads([0]); afresh()
            stand(0, a, answers, times); edit(1, 5, value(rng), 0, 0, often(rng)); clear(0); all_reads([0, 1]); afresh()
            edit(0, 1, ONE); edit(0, 9); check()
    # over each kind of damage, and in place of it: 22 where another function is 10
    for p, x in ((32, 7), (33, 7), (71, 0xff), (80, 9), (80, 0), (84, 0)):
        for old in (1, 5):
            new(376); make(1)
            if old == 1: stand(0, *STANDING[0])
            else: edit(0, 5, ONE, 0)
            if p == 71: poke(70, 0xf8)
            poke(p, x); all_reads([0]); edit(0, 1, 0); edit(0, 5, ONE, 0); edit(0, 9); edit(1, 1); clear(0); check()
    # 7 comes first: bytes that are no sheet, and a sheet that is only read
    for says in (OLD, 2):
        new(424); make(2); stand(1, *STANDING[1]); make_old(); poke(0, says); all_reads([0, 1])
        for i in range(3): edit(i, 1, 0)
        clear(1); check()
    new(328); make(0); edit(0, 1); all_reads([0])


def wander(rng):
    for r, n in ((1, 60), (5, 400), (32, 300), (1024, 400)):
        new(328 + 48 * r); make(r)
        for i in rng.sample(range(r), r // 3 if r < 32 else 8): stand(i, *rng.choice(STANDING), often(rng))
        for k in range(n):
            do(any_edit(rng, r))
            if k % 10 == 9: total()
            if k % 50 == 49: all_reads([rng.randrange(r), r])
        afresh()


def shuffled(rng, edits):
    """The same edits in another order, those of each row in their own."""
    rows = [given[0] for given in edits]
    rng.shuffle(rows)
    left = {i: [given for given in edits if given[0] == i] for i in rows}
    return [left[i].pop(0) for i in rows]


def shuffles(rng):
    """Lists of edits and shuffles of them, each from the same start, blank or with rows that stand: the bytes and each edit's number are the same."""
    seen = set()
    for r, n, turns in ((0, 6, 1), (1, 20, 2), (2, 30, 3), (5, 60, 4), (40, 120, 3), (1024, 150, 1)):
        for standing in sorted({0, min((r + 2) // 3, 6)}):
            before = [(i, *rng.choice(STANDING), often(rng)) for i in rng.sample(range(r), standing)]
            edits = [any_edit(rng, r) for _ in range(n)]
            by_row = [sorted(edits, key=lambda given: sign * given[0]) for sign in (1, -1)]
            for turn, one in enumerate([edits, *by_row] + [shuffled(rng, edits) for _ in range(turns)]):
                new(328 + 48 * r, turn); make(r)
                for row in before: stand(*row)
                told = {}
                for given in one: told.setdefault(given[0], []).append(do(given))
                check(); total(); afresh()
                if turn: same()
                else: keep(); first = told
                assert told == first
            seen.update(*told.values())
    assert seen == {0, 8, 9, 22}


def script(rng):
    """All parts; the lines are in `out`."""
    example()
    for part in (sizes, repaired, orders, ties, times_driven, limbs, old_sheets, withdrawn, wander, shuffles, damage): part(rng)


def main():
    script(random.Random(int(sys.argv[1]) if len(sys.argv) > 1 else 1))
    print('\n'.join(out))


if __name__ == '__main__': main()
