"""Bit patterns where mistakes hide, and the model of the sheet (oracle/sheet_model.py, written from the rules alone)."""
import importlib.util
import random
from pathlib import Path

PROJECT = Path(__file__).resolve().parents[3]
SIGN, ONE, PLUS, NAN = 1 << 63, 0x3FF0000000000000, 0x7FF0000000000000, 0x7FF8000000000000
MINUS, LARGEST = SIGN + PLUS, PLUS - 1

# every kind of pattern, with either sign: zero, the ends of the subnormals and of the normals, 1 and its neighbours, 2, π/2, 2^52, infinity,
# NaNs: the ends of their range, quiet and signalling, with and without a payload
KINDS = [
    sign + size
    for sign in (0, SIGN)
    for size in (
        0, 1, 2, (1 << 52) - 1, 1 << 52, (1 << 52) + 1, ONE - 1, ONE, ONE + 1, ONE + (1 << 51), 0x4000000000000000, 0x3FE0000000000000, 0x3FEFAE147AE147AE,
        0x3FF921FB54442D18, 0x4330000000000000, 0x4330000000000001, LARGEST - 1, LARGEST, PLUS, PLUS + 1, NAN - 1, NAN, NAN + 1, SIGN - 1, 0x1FF0000000000000, 0x01F0000000000000,
    )
]


def any_pattern(rng: random.Random) -> int:
    """Any pattern; ends, NaNs, subnormals and sizes near 1 are common."""
    sign, digits = SIGN * rng.randrange(2), rng.randrange(1 << 52)
    kind = rng.randrange(8)
    if kind == 0:
        return rng.choice(KINDS)
    if kind == 1:
        return sign + digits
    if kind == 2:
        return sign + PLUS + digits
    if kind < 5:
        return rng.randrange(1 << 64)
    return sign + (rng.randrange(1000, 1040) << 52) + (digits if kind > 5 else digits >> 48 << 48)


def is_nan(p: int) -> bool:
    return p % SIGN > PLUS


def sheet_model():
    """The model as a module of its own: its script and buffer are module state."""
    spec = importlib.util.spec_from_file_location("sheet_model", PROJECT / "oracle" / "sheet_model.py")
    module = importlib.util.module_from_spec(spec)
    spec.loader.exec_module(module)
    return module
