#!/usr/bin/env python3
"""program_bench.py: the program legsheet's speed, memory and stack.

  examples/prove legsheet               builds target/bin/legsheet
  oracle/run program_twin < /dev/null   writes the same program in Rust: oracle/target/twin.rs and program_twin.rs
  oracle/program_bench.py [PASSES]      prints the measurements; the best of PASSES (15) counts

The Rust is built anew with 1, 4, 16 and 64 codegen units, since that alone changes its speed by up to a half, and the fastest counts. All
programs work through the same inputs in turn, and their outputs are compared. Memory and stack are the proved program's."""
import os
import random
import resource
import subprocess
import sys
import tempfile
import time

sys.dont_write_bytecode = True
import program_model

HERE = os.path.dirname(os.path.abspath(__file__))
PROVED = program_model.program()


def mixed(rng):
    """Each function that is entered, of arguments that need its whole work."""
    f = rng.randrange(2, 7)
    m = rng.uniform(-10, 0.999)
    return (f, m, 0) if f < 4 else (f, rng.uniform(-10, 0.9), m) if f == 4 else (f, rng.uniform(-1.5, 1.5), rng.uniform(-10, 0.99))


def arcs(rng):
    """Meridian arcs: function 5 at -e'² of WGS84."""
    return 5, rng.uniform(-1.57, 1.57), -0.006739496742276434


def plain(rng):
    """Function 5 at m = 0, whose answer is the angle: what is left is reading the line and keeping the sheet."""
    return 5, rng.uniform(-1.5, 1.5), 0.0


def make(path, kind, lines, rows=1024):
    rng = random.Random(lines)
    with open(path, 'w') as out:
        out.write('%d\n' % rows)
        for _ in range(lines):
            f, a, b = kind(rng)
            out.write('%d %d %016x %016x %016x 1\n' % (rng.randrange(rows), f, program_model.pattern(a), program_model.pattern(b), 0))


def twins(folder):
    """The program in Rust, built in four ways."""
    built = []
    for units in ('1', '4', '16', '64'):
        flags = ['rustc', '--edition', '2021', '-C', 'opt-level=3', '-C', 'target-cpu=x86-64-v2', '-C', 'codegen-units=' + units, '-A', 'warnings']
        library, program = os.path.join(folder, 'libtwin.rlib'), os.path.join(folder, 'twin' + units)
        subprocess.run(flags + ['--crate-type', 'rlib', '--crate-name', 'twin', '-o', library, os.path.join(HERE, 'target', 'twin.rs')], check=True)
        subprocess.run(flags + ['--extern', 'twin=' + library, '-o', program, os.path.join(HERE, 'program_twin.rs')], check=True)
        built.append([program])
    return built


def run(program, path, before=None):
    """Seconds, exit status and output of one run."""
    with open(path, 'rb') as given, tempfile.TemporaryFile() as out:
        start = time.perf_counter()
        status = subprocess.run(program, stdin=given, stdout=out, stderr=subprocess.DEVNULL, preexec_fn=before).returncode
        seconds = time.perf_counter() - start
        out.seek(0)
        return seconds, status, out.read()


def memory(path):
    """The most kilobytes held, as GNU time says."""
    with open(path, 'rb') as given:
        said = subprocess.run(['/usr/bin/time', '-f', '%M'] + PROVED, stdin=given, stdout=subprocess.DEVNULL, stderr=subprocess.PIPE, text=True)
        return int(said.stderr.split()[-1])


def speed(path, title, lines, passes, rust):
    best = {}
    outputs = set()
    for _ in range(passes):
        for program in [PROVED] + rust:
            seconds, status, output = run(program, path)
            assert status == 0
            best[program[-1]] = min(best.get(program[-1], 9e9), seconds)
            outputs.add(output)
    assert len(outputs) == 1, 'the outputs differ'
    proved, twin = best[PROVED[-1]], min(best[program[-1]] for program in rust)
    print('%-34s proved %9.0f edits a second, in Rust %9.0f, ratio of times %.2f' % (title, lines / proved, lines / twin, proved / twin))


def least_stack(path, wanted):
    """The smallest limit on the stack, in kilobytes, with which the output is still right."""
    def passes(kb):
        limit = lambda: resource.setrlimit(resource.RLIMIT_STACK, (kb * 1024, kb * 1024))
        try:
            _, status, output = run(PROVED, path, limit)
        except subprocess.SubprocessError:
            return False
        return status == 0 and output == wanted

    low, high = 16, 8192
    while high - low > 4:
        middle = (low + high) // 8 * 4
        low, high = (low, middle) if passes(middle) else (middle, high)
    return high


def main():
    passes = int(sys.argv[1]) if len(sys.argv) > 1 else 15
    with tempfile.TemporaryDirectory() as folder:
        path = os.path.join(folder, 'lines')
        rust = twins(folder)
        for kind, title in ((mixed, 'functions 2 to 6'), (arcs, 'meridian arcs'), (plain, 'm = 0: no integral to work out')):
            make(path, kind, 100_000)
            speed(path, title, 100_000, passes, rust)
        for lines in (0, 1_000, 1_000_000):
            make(path, mixed, lines)
            print('%9d lines, %9d bytes: at most %d KB of memory held' % (lines, os.path.getsize(path), memory(path)))
        make(path, mixed, 5_000)
        print('smallest stack that suffices for 5,000 edits of all functions: %d KB' % least_stack(path, run(PROVED, path)[2]))


main()
