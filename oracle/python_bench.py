#!/usr/bin/env python3
"""oracle/python_bench.py [PASSES]: what an element of a list and of a NumPy array costs over the Python module: `ellipe` for m from 0 to 0.9, the best of PASSES passes (60) over 2,000 elements.
Wanted first: examples/prove shuttlemint && faces/python/build; NumPy (README)."""
import os, sys, time

import numpy

sys.path.insert(0, os.path.join(os.path.dirname(os.path.abspath(__file__)), '..', 'faces', 'python'))
import shuttlemint

ELEMENTS = 2000


def best(argument, passes):
    """Microseconds an element."""
    taken = []
    for _ in range(passes):
        began = time.perf_counter()
        shuttlemint.ellipe(argument)
        taken.append(time.perf_counter() - began)
    return 1e6 * min(taken) / ELEMENTS


passes = int(sys.argv[1]) if len(sys.argv) > 1 else 60
array = numpy.linspace(0, 0.9, ELEMENTS)
for name, argument in ('an array', array), ('a list', array.tolist()):
    print('from %s: %.2f µs an element, the best of %d passes over %d' % (name, best(argument, passes), passes, ELEMENTS))
