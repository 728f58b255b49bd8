#!/usr/bin/env python3
"""oracle/fit_edits.py: whether every wrong program, of oracle/edits and of crates/*/must-fail, still fits the code: each text that it replaces stands in its file, once.
To try those of the gate costs a check of a crate each, and the others are tried once for each request; so that they do not get stale in between, the gate looks at all of
them in this way. Its last line counts them; it ends with status 1 where one does not fit."""
import glob
import os
import sys

ROOT = os.path.normpath(os.path.join(os.path.dirname(os.path.abspath(__file__)), '..'))


def wrongs():
    """Each edit's file and its crate's folder."""
    for pattern, back in (('oracle/edits/*/*.edit', -2), ('crates/*/must-fail/*.edit', -3)):
        for path in sorted(glob.glob(os.path.join(ROOT, pattern))): yield path, os.path.join(ROOT, 'crates', path.split(os.sep)[back])


def fault(path, crate):
    """Why the edit does not fit, or nothing. One 'file:' line holds for the pairs of 'old:' and 'new:' lines after it, as in `rt must-fail`."""
    texts, name, old, pairs = {}, '', '', 0
    with open(path, encoding='utf-8') as f: lines = f.read().splitlines()
    for line in lines:
        if line.startswith('file: '): name = line[6:]
        if line.startswith('old: '): old = line[5:]
        if not line.startswith('new:'): continue
        if name not in texts:
            if not os.path.isfile(os.path.join(crate, name)): return f'there is no {name}'
            with open(os.path.join(crate, name), encoding='utf-8') as f: texts[name] = f.read()
        times = texts[name].count(old) if old else 0
        if times != 1: return f'{old!r} stands in {name} {times} times'
        texts[name] = texts[name].replace(old, line[4:].removeprefix(' '))
        old, pairs = '', pairs + 1
    return '' if pairs else 'it replaces nothing'


def main():
    count, bad = 0, 0
    for path, crate in wrongs():
        count += 1
        why = fault(path, crate)
        if why:
            bad += 1
            print(f'{os.path.relpath(path, ROOT)}: {why}')
    print(f'wrong programs: {count}, of which {bad} do not fit the code')
    if bad or not count: sys.exit(1)


main()
