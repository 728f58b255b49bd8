#!/usr/bin/env python3
"""month_bench.py [PASSES [FOLDER]]: the time and the memory that legmonth takes for a month of 400 sheets of 1,024 rows, and for 1, 10 and 100 of them.

  examples/prove legmonth       builds target/bin/legmonth
  oracle/month_bench.py         prints the best of PASSES (5) runs, and the peak memory; the programs are those of FOLDER (target/bin)

The sheets are made in a temporary folder, all different, of rows of every class with times; the report is compared with the model's."""
import os
import resource
import subprocess
import sys
import tempfile
import time

sys.dont_write_bytecode = True
import files_model
import program_runs

ROWS, MOST = 1024, files_model.MOST_FILES


def measured(words, folder, out):
    """Seconds, seconds of the processor, and whether it ended well."""
    before, began = resource.getrusage(resource.RUSAGE_CHILDREN), time.perf_counter()
    status = subprocess.run(words, cwd=folder, stdin=subprocess.DEVNULL, stdout=out).returncode
    seconds, after = time.perf_counter() - began, resource.getrusage(resource.RUSAGE_CHILDREN)
    return seconds, after.ru_utime + after.ru_stime - before.ru_utime - before.ru_stime, status == 0


def memory(words, folder):
    """The most kilobytes held, as GNU time says."""
    said = subprocess.run([b'/usr/bin/time', b'-f', b'%M'] + words, cwd=folder, stdin=subprocess.DEVNULL, stdout=subprocess.DEVNULL, stderr=subprocess.PIPE)
    return int(said.stderr.split()[-1])


def main():
    passes = int(sys.argv[1]) if len(sys.argv) > 1 else 5
    command = [os.fsencode(word) for word in program_runs.command('legmonth', sys.argv[2] if len(sys.argv) > 2 else None)]
    with tempfile.TemporaryDirectory() as folder:
        names, world = [b'%03d.sheet' % k for k in range(MOST)], files_model.World()
        for k, name in enumerate(names):
            world.files[name] = program_runs.mixed(k, ROWS, 1 if k % 10 == 0 else 3)
            with open(os.path.join(os.fsencode(folder), name), 'wb') as file: file.write(world.files[name])
        off = False
        for count in (1, 10, 100, MOST):
            words, runs, same = names[:count], [], True
            wanted = files_model.legmonth(words, world, files_model.Input()).printed
            for _ in range(passes):
                with tempfile.TemporaryFile() as out:
                    runs.append(measured(command + words, folder, out.fileno()))
                    out.seek(0)
                    same = same and out.read() == wanted
            off = off or not same or not all(run[2] for run in runs)
            print('%d sheets of %d rows, %.1f MB: %.1f ms, of which %.1f ms of the processor; at most %d kB of memory; the report is %s' %
                  (count, ROWS, sum(len(world.files[name]) for name in words) / 1e6, 1e3 * min(run[0] for run in runs), 1e3 * min(run[1] for run in runs), memory(command + words, folder), "the model's" if same else 'ANOTHER'))
    sys.exit(off)


main()
