#!/usr/bin/env python3
"""oracle/speed.py [--before LIBRARY.a] [--write]: every table of speed in docs/MEASURED.md, from one machine and one run of the benchmarks, one after the other.
--before names the static library of another commit: then the two are timed in turns as well (oracle/turns).
--write puts the tables into docs/MEASURED.md, between its two marks. Wanted first: examples/prove shuttlemint; examples/prove legsheet; Boost (README). A quiet machine: it takes some five minutes."""
import datetime, os, re, subprocess, sys

import measured

root = measured.ROOT
MARKS = ('<!-- speed: oracle/speed.py -->', '<!-- speed ends -->')


def said(*command, **more):
    return subprocess.run(command, cwd=root, stdout=subprocess.PIPE, stderr=subprocess.STDOUT, text=True, check=True, **more).stdout


def contests(text):
    """[(title, [(name, nanoseconds)])] of what timing.rs shows."""
    out = []
    for line in text.splitlines():
        m = re.match(r'  (.+?)\s+([0-9.]+) ns\s+[0-9.]+$', line)
        if m: out[-1][1].append((m.group(1), float(m.group(2))))
        elif line and not line.startswith(' '): out.append((line, []))
    return [c for c in out if c[1]]


def number(x): return f'{x:.1f}' if x < 1000 else f'{x:.0f}'


def tables(name):
    """Contests with the same contestants share a table."""
    groups = []
    for title, times in contests(said('oracle/run', name)):
        names = [n for n, _ in times]
        if not groups or groups[-1][0] != names: groups.append((names, []))
        groups[-1][1].append((title, times))
    out = []
    for names, rows in groups:
        out += [f'| `{name}` | ' + ' | '.join(names) + ' |', '|---' * (len(names) + 1) + '|']
        out += ['| ' + title.replace('|', '\\|') + ' | ' + ' | '.join(number(t) for _, t in times) + ' |' for title, times in rows] + ['']
    return out


def night():
    out = ['### The night run', '', 'Change request [11]: 1,024 rows of `ellipke`, m evenly from -10 to 0.999 (`oracle/run night_run`). At most three times the Rust program is asked.', '',
           '| | µs a run | to Rust, root by u128::isqrt | to Rust, root by digits that branch |', '|---|---|---|---|']
    for line in said('oracle/run', 'night_run').splitlines():
        m = re.match(r'  (.+?)\s+([0-9.]+)\s+([0-9.]+)\s+([0-9.]+)$', line)
        if m: out.append('| ' + ' | '.join(m.groups()) + ' |')
    return out + ['', 'All four have the same bits for every row.', '']


def turns(before, after):
    out = ['### Against another commit\'s library', '', 'In one run, pass by pass in turns (`oracle/turns BEFORE.a AFTER.a`).', '', '| | before | after | ratio |', '|---|---|---|---|']
    for line in said('oracle/turns', before, after, '600').splitlines():
        m = re.match(r'(.+?)\s+([0-9.]+)\s+([0-9.]+)\s+([0-9.]+)$', line)
        if m: out.append('| ' + ' | '.join(m.groups()).replace('phi', 'φ') + ' |')
    return out + ['']


def program():
    with open(os.devnull) as none: said('oracle/run', 'program_twin', stdin=none)
    out = ['### The program', '', '100,000 edit lines, edits a second (`oracle/program_bench.py`; the Rust is the fastest of four builds).', '', '| | proved | in Rust | ratio of times |', '|---|---|---|---|']
    rest = []
    for line in said('oracle/program_bench.py', '11').splitlines():
        m = re.match(r'(.+?)\s+proved\s+(\d+) edits a second, in Rust\s+(\d+), ratio of times ([0-9.]+)', line)
        if m: out.append(f'| {m.group(1)} | {int(m.group(2)):,} | {int(m.group(3)):,} | {m.group(4)} |')
        else: rest.append(line.strip())
    return out + ['', *[f'- {line}' for line in rest if line], '']


def main():
    words = sys.argv[1:]
    page = [f'Made by `oracle/speed.py` on {datetime.date.today()}, all on one machine ({measured.machine()}), one benchmark after the other; not edited by hand. Nanoseconds a call, the best pass of each contestant, all taking turns in one run.', '']
    for name in ['floor_bench', 'remainder_bench', 'kernel_bench', 'complete_bench', 'incomplete_bench', 'sheet_bench']:
        page += tables(name)
        print(name, file=sys.stderr)
    page += night()
    if '--before' in words: page += turns(os.path.abspath(words[words.index('--before') + 1]), os.path.join(root, 'target/staticlib/libshuttlemint.a'))
    page += program()
    text = '\n'.join(page)
    if '--write' in words: measured.write(MARKS, text)
    else: print(text)


main()
