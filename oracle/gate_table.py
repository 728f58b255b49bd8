#!/usr/bin/env python3
"""oracle/gate_table.py LOG: the table of crates in docs/MEASURED.md, from what the gate printed (.ci/run keeps it as target/gate.log).
oracle/gate_table.py LOG --write puts it into docs/MEASURED.md, between its two marks.
A crate's line has its wrong programs that were refused, and its lines of code, definitions, laws and proofs. (Today's `rt ci` says no seconds of a crate, and keeps what an earlier run on the
machine passed; the time of the whole is in the log's last line.)"""
import os, re, sys

import measured

root = measured.ROOT
MARKS = ('<!-- gate table: oracle/gate_table.py -->', '<!-- gate table ends -->')


def lines(folder, ending, inside=lambda p: True):
    n = 0
    for at, _, names in os.walk(folder):
        for name in names:
            path = os.path.join(at, name)
            if name.endswith(ending) and inside(path):
                with open(path, encoding='utf-8') as f:
                    n += sum(1 for _ in f)
    return n


def crates():
    with open(os.path.join(root, 'crates.txt'), encoding='utf-8') as f:
        return [l.split(':')[0].split()[0] for l in f if re.match(r'[a-z]', l)]


def table(log):
    edits, passed, whole, how = {}, None, None, None
    for line in log:
        m = re.match(r'rt: must-fail (\w+)/\w+\.edit: refused', line)
        if m: edits[m[1]] = edits.get(m[1], 0) + 1
        m = re.match(r'(\d+) passed, 0 failed', line)
        if m: passed = m[0]
        m = re.match(r'the gate took (\d+) s (on \d+ processors)', line)
        if m: whole, how = int(m[1]), m[2]
    if passed is None or whole is None:
        sys.exit('this is no log of a gate that passed: run .ci/run, and give target/gate.log')
    out = ['| crate | wrong programs | code | definitions | laws | proofs |', '|---|---|---|---|---|---|']
    sums = [0] * 5
    for name in crates():
        at = os.path.join(root, 'crates', name)
        row = [edits.get(name, 0), lines(at + '/src', '.rt'),
               lines(at + '/specs', '.antt', lambda p: '/laws' not in p.split('/specs', 1)[1]), lines(at + '/specs', '.antt', lambda p: '/laws' in p.split('/specs', 1)[1]),
               lines(at + '/proofs', '.antt')]
        sums = [a + b for a, b in zip(sums, row)]
        out.append('| `%s` | %s |' % (name, ' | '.join(map(str, row))))
    out.append('| all | %s |' % ' | '.join(map(str, sums)))
    out.append('')
    out.append('The whole gate took %d min %d s %s: \'%s\'.' % (whole // 60, whole % 60, how, passed))
    return '\n'.join(out)


def main():
    if len(sys.argv) not in (2, 3) or sys.argv[2:] not in ([], ['--write']):
        sys.exit(__doc__)
    with open(sys.argv[1], encoding='utf-8', errors='replace') as f:
        text = table(f)
    if len(sys.argv) == 2:
        print(text)
    else:
        measured.write(MARKS, text)


main()
