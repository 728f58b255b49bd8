"""Elliptic integrals and the leg sheet, over the proved library Shuttlemint.

Every call answers for every input, with a value or with a numbered refusal, and a refused edit changes no byte. What a call answers is stated
and proved in the library; this module only carries it over, by ctypes, and needs nothing but Python (3.8 or newer) on x86-64 Linux.

- `ellipk`, `ellipe`, `ellipkinc` and `ellipeinc` have SciPy's names and order of arguments; `ellipke`, `ellippi` and `ellipf` ellip's.
- They take numbers, sequences (nested as one likes; a single number goes with every element) and NumPy arrays, by NumPy's rules.
- A refusal is the exception `Refused`, or, with `refused="mask"`, NaN and a mask of refusal numbers. No answer is NaN otherwise.

>>> import shuttlemint
>>> shuttlemint.ellipe([0.0, 0.5, 1.0])
[1.5707963267948966, 1.3506438810476753, 1.0]
>>> shuttlemint.ellipk([0.5, 2.0], refused="mask")
Masked(values=[1.854074677301372, nan], mask=[0, 2])
>>> shuttlemint.ellipk(2.0)
Traceback (most recent call last):
    ...
shuttlemint.Refused: ellipk(2.0): refusal 2: m is greater than 1, where the integral is not real; give the parameter m = k², which is at most 1
"""
from pathlib import Path as _Path

from ._integrals import Masked, ellipe, ellipeinc, ellipf, ellipk, ellipke, ellipkinc, ellippi, evaluate, pattern, rounds, value
from ._library import LibraryNotFound
from ._refusals import Refusal, Refused, refusal_words
from ._sheet import MOST_ROWS, Class, Counts, Row, Sheet

__version__ = (_Path(__file__).parent / "VERSION").read_text().strip()
__all__ = [
    "Class", "Counts", "LibraryNotFound", "MOST_ROWS", "Masked", "Refusal", "Refused", "Row", "Sheet", "ellipe", "ellipeinc", "ellipf", "ellipk",
    "ellipke", "ellipkinc", "ellippi", "evaluate", "pattern", "refusal_words", "rounds", "value",
]
for _name in ("LibraryNotFound", "Refusal", "Refused", "Class", "Counts", "Row", "Sheet", "Masked"):
    globals()[_name].__module__ = __name__  # as they are shown
