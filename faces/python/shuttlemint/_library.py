"""The proved library: where it is found, and its calls.

It is looked for in this order: the file that SHUTTLEMINT_LIBRARY names; libshuttlemint.so beside this module; libshuttlemint.so.0 or
libshuttlemint.so in the system's path (LD_LIBRARY_PATH, ldconfig). The first that exists is taken, and must be the right one.
"""
from __future__ import annotations

import ctypes
import operator
import os
from ctypes import c_size_t, c_uint8, c_uint16, c_uint32, c_uint64, c_void_p
from itertools import repeat
from pathlib import Path
from typing import Any, List, Tuple

VARIABLE = "SHUTTLEMINT_LIBRARY"
BESIDE = Path(__file__).resolve().parent / "libshuttlemint.so"
SYSTEM = ("libshuttlemint.so.0", "libshuttlemint.so")

# name, what each function reads, how many answers it has; the place in this list is the function's number
FUNCTIONS: Tuple[Tuple[str, Tuple[str, ...], int], ...] = (
    ("blank", (), 0),
    ("ellipk", ("m",), 1),
    ("ellipe", ("m",), 1),
    ("ellipke", ("m",), 2),
    ("ellippi", ("n", "m"), 1),
    ("ellipeinc", ("phi", "m"), 1),
    ("ellipf", ("phi", "m"), 1),
)

_SLICE = [c_void_p, c_size_t]
_CALLS = {
    "sm_evaluate": (c_uint8, [c_uint8, c_uint64, c_uint64, c_uint64, *_SLICE]),
    "sm_rounds": (c_size_t, [c_uint8, c_uint64, c_uint64, c_uint64]),
    "sm_blank": (c_uint8, [*_SLICE, c_uint32]),
    "sm_edit": (c_uint8, [*_SLICE, c_uint32, c_uint8, c_uint64, c_uint64, c_uint64, c_uint16]),
    "sm_row_at": (c_size_t, [*_SLICE, c_uint32]),
    "sm_row_refusal": (c_uint8, [*_SLICE, c_uint32]),
    "sm_row_times": (c_uint16, [*_SLICE, c_uint32]),
    "sm_forth": (c_uint8, _SLICE),
    "sm_forth_row": (c_uint32, _SLICE),
    "sm_back": (c_uint8, _SLICE),
    "sm_back_row": (c_uint32, _SLICE),
    "sm_total": (c_uint64, _SLICE),
    "sm_total_refusal": (c_uint8, _SLICE),
}


class LibraryNotFound(ImportError):
    """The proved library is not there, or is not this module's; the message says what to do next."""


_NEXT = f"""What to do next, one of these:
  - in the project: examples/prove shuttlemint && faces/python/build, which puts libshuttlemint.so beside the module;
  - from a release: copy lib/libshuttlemint.so beside the module, or take the whole folder python/shuttlemint;
  - name the file yourself: export {VARIABLE}=/path/to/libshuttlemint.so"""


def _opened(name: str) -> ctypes.CDLL:
    # PyDLL keeps Python's lock for the call, which is short: no other thread can change a sheet's bytes meanwhile.
    return ctypes.PyDLL(name)


def _found() -> Tuple[Any, str]:
    named = os.environ.get(VARIABLE)
    if named:
        try:
            return _opened(named), named
        except OSError as error:
            raise LibraryNotFound(f"{VARIABLE} says {named!r}, and that can't be loaded: {error}.\n{_NEXT}") from None
    if BESIDE.exists():
        try:
            return _opened(str(BESIDE)), str(BESIDE)
        except OSError as error:
            raise LibraryNotFound(f"{BESIDE} can't be loaded: {error}. It is for x86-64 Linux.\n{_NEXT}") from None
    for name in SYSTEM:
        try:
            return _opened(name), name
        except OSError:
            pass
    looked = f"{VARIABLE} is not set, {BESIDE} does not exist, and {' and '.join(SYSTEM)} are not in the system's path"
    raise LibraryNotFound(f"The proved library is not found: {looked}.\n{_NEXT}")


def _loaded() -> Any:
    library, name = _found()
    for call, (result, arguments) in _CALLS.items():
        try:
            function = getattr(library, call)
        except AttributeError:
            raise LibraryNotFound(f"{name} has no {call}: it is not the library of this module's version.\n{_NEXT}") from None
        function.restype, function.argtypes = result, arguments
    out = (c_uint64 * 2)()
    if library.sm_evaluate(len(FUNCTIONS) - 1, 0, 0, 0, out, 2) == 9 or library.sm_evaluate(len(FUNCTIONS), 0, 0, 0, out, 2) != 9:
        raise LibraryNotFound(f"{name} has not the {len(FUNCTIONS) - 1} functions of this module: it is of another version.\n{_NEXT}")
    return library


library = _loaded()


def within(number: Any, most: int) -> int:
    """A whole number for a C argument that goes up to `most`; any number outside stands as `most`, which is refused wherever that one would be."""
    whole: int = operator.index(number)
    return whole if 0 <= whole <= most else most


def pattern_of(number: Any) -> int:
    """A bit pattern, which has 64 bits."""
    whole: int = operator.index(number)
    if not 0 <= whole < 1 << 64:
        raise ValueError(f"{whole} is no bit pattern of 64 bits; give a whole number from 0 to 2**64 - 1")
    return whole


def times_of(number: Any) -> int:
    """How often a leg was driven, which has 16 bits. No refusal has a number for more, and cut to 16 bits it would be another."""
    whole: int = operator.index(number)
    if not 0 <= whole < 1 << 16:
        raise ValueError(f"{whole} is no number of times that a row can keep; give 0 to 65535, and the rest to another row")
    return whole


_Two = c_uint64 * 2


def evaluate(function: int, a: int, b: int, c: int) -> Tuple[int, int, int]:
    """Refusal number and two answers' patterns."""
    out = _Two()
    return library.sm_evaluate(function, a, b, c, out, 2), out[0], out[1]


def rounds(function: int, a: int, b: int, c: int) -> int:
    """How many rounds the recipes made."""
    return int(library.sm_rounds(function, a, b, c))


def evaluate_all(function: int, patterns: List[List[int]], answers: int) -> bytearray:
    """The refusal numbers of so many calls; the answers go to the memory at this address, two patterns a call."""
    count = len(patterns[0])
    a, b, c = patterns + [[0] * count] * (3 - len(patterns))
    places = range(answers, answers + 16 * count, 16)
    return bytearray(map(library.sm_evaluate, repeat(function), a, b, c, places, repeat(2)))
