#!/usr/bin/env python3
"""check_tables.py COEFFS_RS [CRATE]: holds every digit of the tables against the crate's coeffs.rs.

Three texts are compared, coefficient by coefficient: coeffs.rs (the source), CRATE/src/coeffs.rt (the code's padded table and its
lengths) and CRATE/specs/Coeffs.antt (the definition's decimals). CRATE is crates/pieces beside this folder unless it is given.
Digits are compared as text, so a digit that no f64 shows counts too. It prints one line and exits with 0 where all agree."""
import os
import re
import sys

if len(sys.argv) not in (2, 3):
    sys.exit(__doc__)
here = os.path.dirname(os.path.abspath(__file__))
crate = sys.argv[2] if len(sys.argv) == 3 else os.path.join(here, "..", "crates", "pieces")
PIECES = "0_1 2_3 4_5 6_7 8_9 10_11 12_13 14_15 16 17".split()
WIDTH = 20


def read(*path):
    with open(os.path.join(*path), encoding="utf-8") as f:
        return f.read()


def listed(text):
    return [v.strip() for v in text.split(",") if v.strip()]


def source():
    """The rows of coeffs.rs by name, each of the length that it declares."""
    rows = {}
    for name, length, body in re.findall(r"const (\w+): \[f64; (\d+)\] = \[(.*?)\];", read(sys.argv[1]), re.S):
        rows[name] = listed(body)
        if len(rows[name]) != int(length):
            sys.exit(f"coeffs.rs: {name} declares {length} coefficients and has {len(rows[name])}")
    return rows


def code():
    """The rows of coeffs.rt by name, padding taken off after it was seen to be zeros."""
    text, rows = read(crate, "src", "coeffs.rt"), {}
    for kind in "KE":
        table = re.search(rf"const {kind}: \[\[f64; {WIDTH}\]; 10\] = \[(.*?)\n\];", text, re.S).group(1)
        lengths = [int(n) for n in listed(re.search(rf"const {kind}_LENGTHS: \[usize; 10\] = \[(.*?)\];", text, re.S).group(1))]
        padded = [listed(row) for row in re.findall(r"\[(.*?)\]", table, re.S)]
        if len(padded) != 10 or len(lengths) != 10:
            sys.exit(f"coeffs.rt: {kind} has {len(padded)} rows and {len(lengths)} lengths")
        for piece, row, n in zip(PIECES, padded, lengths):
            if len(row) != WIDTH or any(v != "0.0" for v in row[n:]):
                sys.exit(f"coeffs.rt: {kind}_{piece} is not {n} coefficients padded with zeros to {WIDTH}")
            rows[f"{kind}_{piece}"] = row[:n]
    return rows


def decimal(term):
    """`dec n k` or `neg (dec n k)` as the decimal that it stands for, with k places."""
    n, k = re.search(r"dec (\d+) (\d+)", term).groups()
    digits = n.rjust(int(k) + 1, "0")
    cut = len(digits) - int(k)
    return ("-" if term.startswith("neg") else "") + digits[:cut] + "." + digits[cut:]


def definition():
    """The rows of Coeffs.antt by name, and that kRows and eRows list them in order."""
    text, rows = read(crate, "specs", "Coeffs.antt"), {}
    for name, body in re.findall(r"\nabbrev ([KE]-[\d-]+) : List Float\n\1 =\n(.*?)∷ \[\]\n", text, re.S):
        rows[name.replace("-", "_")] = [decimal(term.strip()) for term in body.split("∷") if term.strip()]
    for kind in "KE":
        order = re.search(rf"\n{kind.lower()}Rows = (.*?)∷ \[\]\n", text, re.S).group(1)
        if [t.strip() for t in order.split("∷") if t.strip()] != [f"{kind}-{p.replace('_', '-')}" for p in PIECES]:
            sys.exit(f"Coeffs.antt: {kind.lower()}Rows is not in the order of the pieces")
    return rows


want = source()
for name, rows in (("coeffs.rt", code()), ("Coeffs.antt", definition())):
    if sorted(rows) != sorted(want):
        sys.exit(f"{name}: rows {sorted(set(rows) ^ set(want))}")
    for row, values in want.items():
        if rows[row] != values:
            sys.exit(f"{name}: {row} differs: {[p for p in zip(rows[row], values) if p[0] != p[1]] or 'its length'}")
print(f"{len(want)} rows, {sum(map(len, want.values()))} coefficients: source, code and definition agree in every digit")
