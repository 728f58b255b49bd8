#!/usr/bin/env python3
"""tools/write_clauses.py LOG: writes into the files of specs/ and proofs/ the clauses that `rt check` asked for in its output LOG, in a crate's folder: the cases that can't be, which today's Rattle
wants to see, each below the last clause of its function."""
import re
import sys


def main():
    with open(sys.argv[1], encoding='utf-8') as f: lines = f.read().splitlines()
    asked = {}
    for i, line in enumerate(lines):
        m = re.match(r"(\./\S+\.antt):(\d+):(\d+): error: `[^`]*`: write the clauses?(?: `(.*)`)?$", line)
        if not m: continue
        clauses = [m[4]] if m[4] else []
        for more in lines[i + 1:]:
            if not more.startswith('  '): break
            if re.match(r"  \S.* = elim \S+ \[ \]$", more): clauses.append(more.strip())
        if clauses: asked.setdefault(m[1], []).append((int(m[2]), clauses))
    for path, wants in asked.items():
        with open(path, encoding='utf-8') as f: text = f.read().split('\n')
        for at, clauses in sorted(wants, reverse=True):
            name = clauses[0].split()[0]
            # the first clause of the name from the line on, or its signature's line
            k = at - 1
            while k < len(text) and not re.match(rf'\s*{re.escape(name)} ', text[k]): k += 1
            if k == len(text):
                print(f'{path}:{at}: no {name}')
                continue
            indent = len(text[k]) - len(text[k].lstrip())
            last, j = k, k
            while j < len(text):
                line = text[j]
                here = len(line) - len(line.lstrip())
                if not line.strip():
                    # a blank line ends it, but inside a deeper block
                    n = j + 1
                    while n < len(text) and not text[n].strip(): n += 1
                    if n == len(text) or len(text[n]) - len(text[n].lstrip()) <= indent: break
                elif here < indent or here == indent and not re.match(rf'\s*{re.escape(name)} ', line) and not line.strip().startswith('where'): break
                else: last = j
                j += 1
            text[last + 1:last + 1] = [' ' * indent + c for c in clauses]
            print(f'{path}:{last + 2}: {len(clauses)} of {name}')
        with open(path, 'w', encoding='utf-8') as f: f.write('\n'.join(text))


main()
