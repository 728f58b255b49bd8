#!/usr/bin/env python3
"""oracle/first_command.py COMMIT [TURNS] [--write]: README's first command from nothing, at an earlier commit and at the one that is checked out, in turns on this machine.

Each is run in a clone of its own, with no target/, as the README of its commit has it (up to `&&`, where the program is run). Printed are the clock and the processor time of
each run; --write puts the quickest of each commit into docs/MEASURED.md between its two marks. The machine should have nothing else to do, and is seldom calm: hence the turns."""
import os
import re
import resource
import subprocess
import sys
import tempfile
import time

import measured

MARKS = ('<!-- first command: oracle/first_command.py -->', '<!-- first command ends -->')


def minutes(seconds): return '%d min %d s' % divmod(round(seconds), 60)


def took(commit, room):
    """The command, the clock's and the processor's seconds, and how many crates it proved."""
    with tempfile.TemporaryDirectory(dir=room) as tree:
        subprocess.run(['git', 'clone', '-q', measured.ROOT, tree], check=True)
        subprocess.run(['git', 'checkout', '-q', commit], cwd=tree, check=True)
        with open(os.path.join(tree, 'README.md'), encoding='utf-8') as f:
            command = re.search(r'^    (\S.* legsheet) && ', f.read(), re.M)[1]
        began, before = time.monotonic(), resource.getrusage(resource.RUSAGE_CHILDREN)
        said = subprocess.run(['bash', '-c', command], cwd=tree, stdout=subprocess.PIPE, text=True)
        clock, after = time.monotonic() - began, resource.getrusage(resource.RUSAGE_CHILDREN)
    if said.returncode: sys.exit(f'{command} at {commit} ended with {said.returncode}:\n{said.stdout[-2000:]}')
    crates = re.search(r'^rt: ok, (\d+) crates proved', said.stdout, re.M)[1]
    return clock, after.ru_utime + after.ru_stime - before.ru_utime - before.ru_stime, int(crates), command


def main():
    words = [word for word in sys.argv[1:] if word != '--write']
    if len(words) not in (1, 2): sys.exit(__doc__)
    turns = int(words[1]) if len(words) == 2 else 1
    commits = [subprocess.run(['git', 'rev-parse', word], cwd=measured.ROOT, capture_output=True, text=True, check=True).stdout.strip() for word in (words[0], 'HEAD')]
    runs = {commit: [] for commit in commits}
    with tempfile.TemporaryDirectory() as room:
        for commit in commits * turns:
            runs[commit].append(took(commit, room))
            print(commit[:7], *map(minutes, runs[commit][-1][:2]), flush=True)
    rows = ['| tree | command | crates | by the clock | processor time |', '|---|---|---|---|---|']
    for what, commit in zip(('before', 'now'), commits):
        clock, work, crates, command = min(runs[commit])
        rows.append('| %s (%s) | `%s` | %d | %s | %s |' % (what, commit[:7], command, crates, minutes(clock), minutes(work)))
    how = 'one after the other' if turns == 1 else f'the quickest of {turns} runs each, in turns'
    said = '\n'.join([f'On {measured.machine()}, {how}:', '', *rows])
    print(said)
    if '--write' in sys.argv: measured.write(MARKS, said)


main()
