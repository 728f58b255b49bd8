"""The integrals, over numbers, sequences and arrays."""
from __future__ import annotations

import math
import struct
import sys
from array import array
from collections.abc import Mapping
from typing import Any, Callable, List, Literal, NamedTuple, Sequence, Tuple, Union

from ._library import FUNCTIONS, evaluate as _evaluate, evaluate_all, pattern_of, rounds as _rounds, within
from ._refusals import Refused, accepted

OnRefusal = Literal["raise", "mask"]
Numbers = Union[float, Sequence[Any], Any]
"""A number, a sequence of them (nested as one likes), or a NumPy array."""

_FLOAT, _PATTERN = struct.Struct("<d"), struct.Struct("<Q")


def pattern(x: float) -> int:
    """A float's bit pattern.

    >>> f"{pattern(1.0):016x}"
    '3ff0000000000000'
    """
    (p,) = _PATTERN.unpack(_FLOAT.pack(x))
    return int(p)


def value(p: int) -> float:
    """The float of a bit pattern.

    >>> value(0x3ff8000000000000)
    1.5
    """
    (x,) = _FLOAT.unpack(_PATTERN.pack(p))
    return float(x)


class Masked(NamedTuple):
    """What `refused="mask"` gives: the values, NaN where there is none, and a mask of the same shape: the refusal number, 0 where there is a value."""

    values: Any
    mask: Any


def evaluate(function: int, a: int = 0, b: int = 0, c: int = 0) -> Tuple[int, int]:
    """The function of this number at its arguments' bit patterns, as a sheet's row has them: its two answers' bit patterns.

    Arguments that the function does not read may be anything, and answers that it does not have are 0.

    >>> [f"{p:016x}" for p in evaluate(3, 0x3ff0000000000000)]
    ['7ff0000000000000', '3ff0000000000000']
    """
    a, b, c = pattern_of(a), pattern_of(b), pattern_of(c)
    refusal, first, second = _evaluate(within(function, 255), a, b, c)
    accepted(refusal, f"evaluate({function}, {a:#018x}, {b:#018x}, {c:#018x})")
    return first, second


def rounds(function: int, a: int = 0, b: int = 0, c: int = 0) -> int:
    """How many rounds Carlson's recipes made for what `evaluate` answers, all calls together, those of RC inside RJ too.

    A refused answer has its rounds too, and a recipe whose stop test was never met (refusal 5) has 64. 0 where no recipe is asked: functions 0 to 3, and
    numbers above the last.

    >>> rounds(6, pattern(1.0), pattern(-math.inf))      # ellipf(1, -inf) is 0, though RF is not met
    64
    >>> rounds(3, pattern(1.0))
    0
    """
    return _rounds(within(function, 255), pattern_of(a), pattern_of(b), pattern_of(c))


# ---- numbers and sequences


def _pattern(x: Any, function: int, k: int) -> int:
    text = isinstance(x, (str, bytes, bytearray))
    try:
        if text:  # float() would read it
            raise TypeError
        return pattern(float(x))
    except (TypeError, ValueError):
        name, arguments, _ = FUNCTIONS[function]
        what = f"{name}: {arguments[k]} must be a real number, a sequence of them or an array, not {type(x).__name__}"
        raise TypeError(what + ("; make a list of it" if hasattr(x, "__iter__") and not text else "")) from None


def _shown(function: int, arguments: Sequence[Any]) -> str:
    return f"{FUNCTIONS[function][0]}({', '.join(repr(float(x)) for x in arguments)})"


def _is_sequence(x: Any) -> bool:
    return type(x) is not float and hasattr(x, "__len__") and hasattr(x, "__getitem__") and not isinstance(x, (str, bytes, bytearray, Mapping))


class _Worked(NamedTuple):
    """The refusal number and the answers of one call; or of all elements of a sequence of floats, each as a list."""

    refusal: Any
    answers: Tuple[Any, Any]


def _one(function: int, arguments: List[Any], raises: bool, index: Tuple[int, ...]) -> _Worked:
    refusal, first, second = _evaluate(function, *(_pattern(x, function, k) for k, x in enumerate(arguments)), *[0] * (3 - len(arguments)))
    if refusal and raises:
        raise Refused(refusal, _shown(function, arguments), index)
    return _Worked(refusal, (math.nan, math.nan) if refusal else (value(first), value(second)))


def _all_floats(function: int, columns: List[List[float]], raises: bool, index: Tuple[int, ...]) -> _Worked:
    """As many calls as a column has floats, without Python in between."""
    count = len(columns[0])
    patterns = [list(struct.unpack(f"<{count}Q", struct.pack(f"<{count}d", *column))) for column in columns]
    answers = array("d", bytes(16 * count))
    refusals = evaluate_all(function, patterns, answers.buffer_info()[0])
    for i, refusal in enumerate(refusals):
        if refusal and raises:
            raise Refused(refusal, _shown(function, [column[i] for column in columns]), index + (i,))
        if refusal:
            answers[2 * i] = answers[2 * i + 1] = math.nan
    return _Worked(list(refusals), (answers[0::2].tolist(), answers[1::2].tolist()))


def _over_sequences(function: int, arguments: List[Any], raises: bool, index: Tuple[int, ...]) -> Any:
    """A `_Worked`, or lists of them, nested as the arguments are."""
    long = [len(x) for x in arguments if _is_sequence(x)]
    if not long:
        return _one(function, arguments, raises, index)
    if len(set(long)) > 1:
        place = f" at [{', '.join(map(str, index))}]" if index else ""
        raise ValueError(f"{FUNCTIONS[function][0]}: sequences of {' and '.join(map(str, long))} elements{place} do not fit together; give them the same length, or a single number")
    columns = [list(x) if _is_sequence(x) else [x] * long[0] for x in arguments]
    if all(type(x) is float for column in columns for x in column):
        return _all_floats(function, columns, raises, index)
    return [_over_sequences(function, list(element), raises, index + (i,)) for i, element in enumerate(zip(*columns))]


def _each(nested: Any, part: Callable[[_Worked], Any]) -> Any:
    return part(nested) if isinstance(nested, _Worked) else [_each(x, part) for x in nested]


# ---- arrays


def _is_array(x: Any) -> bool:
    """Whether NumPy has to read it: an array, or what can turn itself into one, such as a column of a table. NumPy's own single numbers are numbers."""
    numpy = sys.modules.get("numpy")
    return type(x) is not float and numpy is not None and hasattr(x, "__array__") and not isinstance(x, numpy.generic)


def _array(x: Any, function: int, k: int) -> Any:
    import numpy

    masked: Any = numpy.ma
    if isinstance(x, masked.MaskedArray):  # a masked element is no number
        x = x.astype(numpy.float64).filled(numpy.nan)
    x = numpy.asarray(x)
    if x.dtype.kind not in "biuf":
        name, arguments, _ = FUNCTIONS[function]
        raise TypeError(f"{name}: {arguments[k]} must hold real numbers, not {x.dtype}")
    return x.astype(numpy.float64, copy=False)


def _over_arrays(function: int, arguments: List[Any], raises: bool) -> Tuple[Any, Any]:
    """The answers (two arrays) and the refusal numbers."""
    import numpy

    arrays = numpy.broadcast_arrays(*(_array(x, function, k) for k, x in enumerate(arguments)))
    shape = arrays[0].shape
    flat = [numpy.ascontiguousarray(x).reshape(-1) for x in arrays]
    answers = numpy.zeros((flat[0].size, 2), numpy.float64)
    refusals = numpy.frombuffer(evaluate_all(function, [x.view(numpy.uint64).tolist() for x in flat], answers.ctypes.data), numpy.uint8)
    refused = numpy.flatnonzero(refusals)
    if refused.size and raises:
        first = int(refused[0])
        index = tuple(int(i) for i in numpy.unravel_index(first, shape)) if shape else ()
        raise Refused(int(refusals[first]), _shown(function, [x[first] for x in flat]), index)
    answers[refused] = numpy.nan
    # [()] makes a number of an array without axes, as NumPy's own functions do
    return tuple(answers[:, j].copy().reshape(shape)[()] for j in range(2)), refusals.reshape(shape)[()]


def _worked(function: int, arguments: List[Any], refused: str) -> Any:
    if refused not in ("raise", "mask"):
        raise ValueError(f'refused must be "raise" or "mask", not {refused!r}')
    raises = refused == "raise"
    if any(_is_array(x) for x in arguments):
        answers, mask = _over_arrays(function, arguments, raises)
    else:
        nested = _over_sequences(function, arguments, raises, ())
        answers = _each(nested, lambda worked: worked.answers[0]), _each(nested, lambda worked: worked.answers[1])
        mask = _each(nested, lambda worked: worked.refusal)
    values = answers if FUNCTIONS[function][2] == 2 else answers[0]
    return values if raises else Masked(values, mask)


# ---- the functions


def ellipk(m: Numbers, *, refused: OnRefusal = "raise") -> Any:
    """K(m), the complete integral of the first kind. K(1) is infinite. Refusals: 1, and 2 for m > 1.

    >>> ellipk(0.5)
    1.854074677301372
    >>> ellipk([0.0, 1.0])
    [1.5707963267948966, inf]
    """
    return _worked(1, [m], refused)


def ellipe(m: Numbers, *, refused: OnRefusal = "raise") -> Any:
    """E(m), the complete integral of the second kind. E(-inf) is infinite. Refusals: 1, and 2 for m > 1.

    >>> 4 * 5.0 * ellipe(1 - (3 / 5) ** 2)      # once around the ellipse with half axes 5 and 3
    25.52699886339813
    """
    return _worked(2, [m], refused)


def ellipke(m: Numbers, *, refused: OnRefusal = "raise") -> Any:
    """K(m) and E(m), as a pair. Refusals: 1, and 2 for m > 1.

    >>> ellipke(1.0)
    (inf, 1.0)
    >>> first, second = ellipke([0.0, 1.0])
    >>> second
    [1.5707963267948966, 1.0]
    """
    return _worked(3, [m], refused)


def ellippi(n: Numbers, m: Numbers, *, refused: OnRefusal = "raise") -> Any:
    """Π(n, m), the complete integral of the third kind; Cauchy's principal value for n > 1. Refusals: 1, 2 for m > 1, 4 for n = 1, 5 and 6.

    >>> round(ellippi(0.5, 0.5), 14)
    2.70128776209535
    >>> ellippi([0.0, 1.0], 0.5, refused="mask")
    Masked(values=[1.854074677301372, nan], mask=[0, 4])
    """
    return _worked(4, [n, m], refused)


def ellipeinc(phi: Numbers, m: Numbers, *, refused: OnRefusal = "raise") -> Any:
    """E(φ, m), the incomplete integral of the second kind. E(±inf, m) is infinite, and so is E(φ, -inf) but for φ = 0. Refusals: 1, 2, 3 for m·sin²φ ≥ 1, 5 and 6.

    >>> from math import pi
    >>> round(6356752.314245179 * ellipeinc(pi / 2, -0.006739496742276434), 3)      # metres from the equator to the pole, on WGS84
    10001965.729
    """
    return _worked(5, [phi, m], refused)


def ellipkinc(phi: Numbers, m: Numbers, *, refused: OnRefusal = "raise") -> Any:
    """F(φ, m), the incomplete integral of the first kind. Refusals: 1, 3 for m·sin²φ ≥ 1 or m ≥ 1 with |φ| ≥ π/2, 5 and 6.

    This is SciPy's name; ellip's is `ellipf`, and so is the sheet's.

    >>> ellipkinc(0.25, [0.0, 0.5]) == ellipf(0.25, [0.0, 0.5])
    True
    """
    return _worked(6, [phi, m], refused)


def ellipf(phi: Numbers, m: Numbers, *, refused: OnRefusal = "raise") -> Any:
    """F(φ, m), under ellip's name: the same as `ellipkinc`.

    >>> from math import pi
    >>> round(ellipf(pi / 4, 0.5), 14)
    0.82601787624925
    """
    return _worked(6, [phi, m], refused)
