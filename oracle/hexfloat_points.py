#!/usr/bin/env python3
"""oracle/hexfloat_points.py [COUNT [SEED]]: spellings of C's hexadecimal floats, for `oracle/hexfloat_points.py | oracle/run hexfloat_compare`.
A line is `w PATTERN SPELLING`, how a bit pattern is written, or `r PATTERN SPELLING`, what a spelling says, with - where it says nothing. COUNT of each (100,000).
Both are worked out here on whole numbers, by docs/DECISIONS.md, "Hex text". What is read is held to Python's float.fromhex too, which rounds once; a difference ends it with 1."""
import random
import re
import struct
import sys

FORM = re.compile(r'([+-]?)0[xX]([0-9a-fA-F]*)(?:(\.)([0-9a-fA-F]*))?(?:[pP]([+-]?)([0-9]{1,6}))?')
TOP = 1 << 63


def written(p):
    """A bit pattern's one spelling."""
    field, fraction = p >> 52 & 2047, p & (1 << 52) - 1
    if field == 2047 and fraction:
        return f'nan:{p:016x}'
    sign = '-' if p & TOP else ''
    if field == 2047:
        return sign + 'inf'
    digits = f'{fraction:013x}'.rstrip('0')
    exponent = 0 if p & ~TOP == 0 else -1022 if field == 0 else field - 1023
    return f"{sign}0x{int(field > 0)}{'.' + digits if digits else ''}p{exponent:+d}"


def nearest(n, e):
    """The pattern of n 2^e, to the nearest, ties to even: in units of 2^-1074, of which a subnormal has all and any other the first 53 digits."""
    e += 1074
    drop = max(n.bit_length() + e - 53, 0)
    cut = drop - e
    if cut > 0:
        q, r = divmod(n, 1 << cut)
        q += 2 * r > 1 << cut or 2 * r == 1 << cut and q & 1
    else:
        q = n << -cut
    return min((drop << 52) + q, 0x7ff0 << 48)


def said(s):
    """The bit pattern that a spelling says, or None."""
    if s in ('inf', '-inf'):
        return 0x7ff0 << 48 | (TOP if s[0] == '-' else 0)
    m = re.fullmatch('nan:([0-9a-f]{16})', s)
    if m:
        p = int(m[1], 16)
        return p if p & ~TOP > 0x7ff0 << 48 else None
    m = FORM.fullmatch(s)
    if not m:
        return None
    sign, front, _, behind, down, power = m.groups()
    digits = front + (behind or '')
    if not 1 <= len(digits) <= 40:
        return None
    e = int((down or '') + (power or '0')) - 4 * len(behind or '')
    p = nearest(int(digits, 16), e) if int(digits, 16) else 0
    try:
        x = float.fromhex(s)
    except OverflowError:
        x = float('-inf' if sign == '-' else 'inf')
    p |= TOP if sign == '-' else 0
    if struct.unpack('<Q', struct.pack('<d', x))[0] != p:
        sys.exit(f'{s}: {p:016x} here, {x.hex()} by float.fromhex')
    return p


def some_pattern(r):
    kind = r.randrange(6)
    if kind == 0:
        return r.getrandbits(64)
    if kind == 1:
        return r.getrandbits(1) << 63 | r.getrandbits(r.randrange(1, 53))
    if kind == 2:
        return r.getrandbits(64) & ~((1 << r.randrange(52)) - 1)
    if kind == 3:
        return r.getrandbits(1) << 63 | 2047 << 52 | r.choice((0, 1, r.getrandbits(52), 1 << 51))
    if kind == 4:
        return r.getrandbits(1) << 63 | r.choice((0, 1, (1 << 52) - 1, 1 << 52, 0x7fef << 48 | (1 << 48) - 1))
    return r.getrandbits(1) << 63 | r.randrange(1, 2047) << 52 | r.choice((0, 1 << 51, (1 << 52) - 1))


def some_spelling(r):
    """Any; or one beside a middle of two neighbours, of few digits or of many."""
    if r.random() < 0.4:
        p = some_pattern(r) & ~TOP
        field = p >> 52
        if field < 2047:
            n = (p & (1 << 52) - 1 | (1 << 52 if field else 0)) * 2 + r.randrange(-1, 2)
            places = r.randrange(0, 25)
            n, e = max(n, 0) << 4 * places, max(field, 1) - 1076 - 4 * places
            n = max(n + r.choice((0, 0, 1, -1)), 0)
            digits = f'{n:x}'
        else:
            digits, e = '1', 1024
    else:
        digits = ''.join(r.choice('0123456789abcdef') for _ in range(r.randrange(0, 43)))
        e = r.choice((0, r.randrange(-1300, 1300), r.randrange(-999999, 1000000)))
    if r.random() < 0.2:
        digits = '0' * r.randrange(8) + digits
    behind = r.choice((0, 0, r.randrange(len(digits) + 1)))
    e += 4 * behind
    text = digits[:len(digits) - behind] + ('.' if behind or r.random() < 0.1 else '') + digits[len(digits) - behind:]
    text = text.upper() if r.random() < 0.2 else text
    power = f'{abs(e):d}' if r.random() < 0.8 else f'{abs(e):06d}'
    tail = '' if e == 0 and r.random() < 0.7 else r.choice('pP') + ('-' if e < 0 else r.choice(('', '+'))) + power
    text = r.choice(('', '', '+', '-')) + r.choice(('0x', '0x', '0X')) + text + tail
    if r.random() < 0.15:
        at = r.randrange(len(text) + 1)
        text = text[:at] + r.choice(('', ' ', '.', 'g', 'p', '-', '0', 'x')) + text[at + r.randrange(2):]
    return text


FIXED = ['', '0x', '0x.', '0x1p', '0x1p+', 'inf', '-inf', '+inf', 'INF', 'nan', 'nan:7ff8000000000000', 'nan:7ff0000000000000', 'nan:fff8000000000001', 'nan:7FF8000000000000', '0x1.8p+1',
    '0x1p+1024', '0x1.fffffffffffff8p+1023', '-0x1p-1075', '0x1.8p-1075', '0x1.00000000000018p-1023', '0x1p+999999', '0x1p-999999', '0x' + '0' * 40, '0x' + '0' * 41, '0x1p0000001']


def main():
    count = int(sys.argv[1]) if len(sys.argv) > 1 else 100_000
    r = random.Random(int(sys.argv[2]) if len(sys.argv) > 2 else count)
    for _ in range(count):
        p = some_pattern(r)
        s = written(p)
        if said(s) != p:
            sys.exit(f'{p:016x} is written {s}, which says another')
        print('w', f'{p:016x}', s)
    for s in FIXED + [some_spelling(r) for _ in range(count)]:
        p = said(s)
        print('r', '-' if p is None else f'{p:016x}', s)


if __name__ == '__main__':
    main()
