#!/usr/bin/env python3
"""faces/program/test.py: whole runs of the programs, for what no contract can say of them.

  test.py [--bin DIR] [--only NAME]       the programs of DIR (target/bin), or one of them
          [--kills N] [--compare N]       how many runs are killed at a random moment (20), and how many random runs are compared with the models (150)
          [--disk]                        also a disk that is full (root, who mounts one)
          [--no-errors]                   standard error is not looked at

That each byte of the input reaches legsheet once and in order, however the reads cut it, and that a failed read is seen; the stored runs of faces/program/runs; random runs beside the
models of oracle/files_model.py; and that a name holds the old bytes or the whole new ones, whatever fails (safe.py). A program that is missing is an error where crates.txt lists it."""
import argparse
import array
import fcntl
import os
import pty
import random
import subprocess
import sys
import termios
import time

sys.dont_write_bytecode = True
HERE = os.path.dirname(os.path.abspath(__file__))
sys.path[:0] = [HERE, os.path.join(HERE, '../../oracle')]
import files_model
import hextext_model
import program_model as model
import program_runs
import safe

FAILED = b'legsheet: the input could not be read to its end'
LONGEST = 20  # seconds that one run may take
MOST_TOLD = 40  # runs that differ and are told


def legs(seed, rows, lines):
    """A row count and edits, each a leg of a length of its own: what is lost, doubled or moved changes the output."""
    rng = random.Random(seed)
    return [b'%d\n' % rows] + [model.leg(rng.randrange(rows), rng.uniform(-1e6, 1e6)) for _ in range(lines)]


def started(source, words=None, folder=None):
    return subprocess.Popen(words or PROGRAM, cwd=folder, stdin=source, stdout=subprocess.PIPE, stderr=subprocess.PIPE)


def ended(run, text=None):
    """What it printed, and what it wrote to standard error."""
    try:
        return run.communicate(text, LONGEST)
    except subprocess.TimeoutExpired:
        run.kill()
        return run.communicate()


def waiting(pipe):
    """How many bytes of the pipe are not read yet."""
    count = array.array('i', [0])
    fcntl.ioctl(pipe, termios.FIONREAD, count)
    return count[0]


def fed(parts, words=None, folder=None):
    """A pipe, and one read for each part: the next is written when the last one was read."""
    out, into = os.pipe()
    run = started(out, words, folder)
    until = time.monotonic() + LONGEST
    for part in parts:
        os.write(into, part)
        while waiting(out) and run.poll() is None and time.monotonic() < until:
            time.sleep(0)
        if waiting(out):
            break  # the program ended before its input, or hangs
    os.close(into)
    os.close(out)
    return ended(run)


def closed(lines):
    """A terminal whose other end closes after these lines: its reads bring them, and then fail (EIO)."""
    ours, theirs = pty.openpty()
    raw = termios.tcgetattr(theirs)
    raw[0] = raw[1] = raw[3] = 0
    termios.tcsetattr(theirs, termios.TCSANOW, raw)
    run = started(ours)
    for line in lines:
        os.write(theirs, line)
    os.close(theirs)
    said = ended(run)
    os.close(ours)
    return said


def cut(rng, text, parts):
    """The text cut in so many random places."""
    at = [0] + sorted(rng.randrange(len(text) + 1) for _ in range(parts)) + [len(text)]
    return [text[a:b] for a, b in zip(at, at[1:]) if a < b]


def runs():
    """The name of each run, what it printed and wrote to standard error, what it should have printed, and whether it should have failed."""
    lines = legs(1, 1024, 1500)
    yield 'one line a write, 1,501 reads', fed(lines), model.run(b''.join(lines)), False
    lines = legs(2, 3, 4000)
    yield 'one line a write, 4,001 reads', fed(lines), model.run(b''.join(lines)), False
    text = b''.join(legs(3, 1024, 80_000))
    yield 'several megabytes through a pipe', ended(started(subprocess.PIPE), text), model.run(text), False
    bad = text + b'x\n' + text
    yield 'a bad line after them', ended(started(subprocess.PIPE), bad), model.run(bad), False
    for whole in (0, 1, 2, 3, 300):
        lines = legs(whole, 7, whole)[:whole]
        said = b'input failed after line %d\n' % whole
        yield 'a read that fails after %d lines' % whole, closed(lines), said, True
        yield 'and after a part of the next', closed(lines + [b'0 5']), said, True
    yield 'a bad line before a failure', closed([b'2\n', b'2\n']), b'bad line 2\n', False
    for seed in range(20):
        rng = random.Random(seed)
        text = model.many(seed, 50, 200)[:rng.choice([-1, None])]
        yield 'cut in random places, %d' % seed, fed(cut(rng, text, rng.choice([3, 30, 300]))), model.run(text), False


def reads(told):
    """The runs above, of legsheet without a word."""
    for name, (printed, errors), wanted, fails in runs():
        wrong = []
        if printed != wanted:
            wrong.append('printed %s, and should have printed %s' % (program_runs.shown(printed), program_runs.shown(wanted)))
        if errors.startswith(FAILED) != fails or (errors and not fails):
            wrong.append('standard error is %s' % program_runs.shown(errors))
        told(name, wrong)


def texts():
    """Hex texts in parts: one line a write, and cut in random places."""
    yield 'one line a write', hextext_model.text(7, 1024).splitlines(True)
    yield 'the longest lines', hextext_model.longest_text(30).splitlines(True)
    for seed in range(20):
        rng = random.Random(seed)
        text = hextext_model.other_text(seed, rng.choice([3, 40, 200])) if seed < 10 else hextext_model.text_cut(seed, 40)
        yield 'cut in random places, %d' % seed, cut(rng, text[:rng.choice([-1, None])], rng.choice([3, 30, 300]))


def text_reads(told, folder):
    """However the reads cut a text, legread prints and writes the same."""
    for name, parts in texts():
        run = program_runs.Run(name, '', 'legread', [b'new'], files_model.World(), files_model.Input(b''.join(parts)))
        place = program_runs.Place(run.world)
        try:
            printed, errors = fed(parts, program_runs.command('legread', folder) + run.words, place.folder)
            told('legread, ' + name, program_runs.said_faults(run.ran, 0, printed, errors) + program_runs.folder_faults(place, run.ran.wrote))
        finally:
            place.away()


def answers(told, folder):
    """The answers that the model of hex text has stored are legsheet's."""
    with open(hextext_model.ANSWERS_FILE) as file:
        told('oracle/hextext_answers.txt', [] if file.read() == hextext_model.asked(folder) else ['legsheet answers otherwise: oracle/hextext_model.py --answers'])


def listed():
    """The crates of crates.txt."""
    with open(os.path.join(model.ROOT, 'crates.txt')) as file:
        return {line.split(':')[0].split()[0] for line in file if ':' in line}


def takes_files(folder):
    """Whether this legsheet takes a FILE. It must from the change on that brings legfix."""
    said = subprocess.run(program_runs.command('legsheet', folder) + ['a', 'b'], stdin=subprocess.DEVNULL, capture_output=True)
    return said.stdout.startswith(b'usage') or 'legfix' in listed()


class Verdict:
    def __init__(self):
        self.passed = self.failed = 0

    def told(self, name, wrong):
        if wrong:
            self.failed += 1
            if self.failed <= MOST_TOLD:
                print('program: %s: %s' % (name, '; '.join(wrong)))
        else:
            self.passed += 1


def stored(told, folder, there):
    """The stored runs of the programs that are there."""
    for run in program_runs.stored():
        if run.program in there and (there[run.program] or not run.words):
            wrong = program_runs.faults(run, folder)
            if wrong is None:
                print('program: %s was not tried: nobody may not run the program' % run.name)
            else:
                told('runs/%s (%s)' % (run.name, run.note), wrong)


def main():
    options = argparse.ArgumentParser()
    options.add_argument('--bin', default=os.path.join(model.ROOT, 'target/bin'))
    options.add_argument('--only')
    options.add_argument('--kills', type=int, default=20)
    options.add_argument('--compare', type=int, default=150)
    options.add_argument('--disk', action='store_true')
    options.add_argument('--no-errors', action='store_true')
    given = options.parse_args()
    program_runs.LOOKED_AT['errors'] = not given.no_errors
    verdict, there = Verdict(), {}
    for program in files_model.PROGRAMS:
        if given.only in (None, program):
            if os.path.exists(os.path.join(given.bin, program)):
                there[program] = program != 'legsheet' or takes_files(given.bin)
            elif program in listed():
                verdict.told(program, ['it is not there: examples/prove %s' % program])
    left_out = [p for p in files_model.PROGRAMS if p not in there and p not in listed()] if given.only is None else []
    if there.get('legsheet') is False:
        left_out.append('legsheet FILE')
    if 'legsheet' in there:
        global PROGRAM
        PROGRAM = program_runs.command('legsheet', given.bin)
        reads(verdict.told)
        answers(verdict.told, given.bin)
    if 'legread' in there:
        text_reads(verdict.told, given.bin)
    off, _ = program_runs.check_stored()
    verdict.told('oracle/program_model.py --check', off)
    stored(verdict.told, given.bin, there)
    whole = [program for program in there if there[program]]
    off, tried, _ = program_runs.compare(given.compare if whole else 0, 1, given.bin, whole)
    verdict.passed, verdict.failed = verdict.passed + tried - off, verdict.failed + off
    tests = safe.Tests(given.bin, whole, verdict.told)
    try:
        tests.all(given.kills, given.disk)
    finally:
        tests.away()
    verdict.passed += tests.tried - tests.wrong
    if left_out:
        print('program: not tried, since crates.txt has no such program yet: %s' % ', '.join(left_out))
    if verdict.failed > MOST_TOLD:
        print('program: %d more runs differ' % (verdict.failed - MOST_TOLD))
    print('program: %s: %d runs, %d of them killed at a random moment, %d new files left by all that were killed' % ('FAILED' if verdict.failed else 'passed', verdict.passed + verdict.failed, tests.killed, tests.strays))
    sys.exit(bool(verdict.failed))


if __name__ == '__main__':
    main()
