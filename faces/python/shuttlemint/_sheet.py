"""The leg sheet. docs/SHEET.md of the project has its bytes."""
from __future__ import annotations

import os
import struct
from ctypes import c_uint8
from enum import IntEnum
from fractions import Fraction
from typing import Any, Iterator, NamedTuple, Tuple, Union

from ._integrals import pattern, value
from ._library import FUNCTIONS, library, pattern_of, times_of, within
from ._refusals import accepted, refusal_words

MOST_ROWS = 1024
_EMPTY, _ROW, _TOTALS, _TOTAL = 328, 48, 296, 272
_U32 = (1 << 32) - 1
_WITH_TIMES = 3  # the first word of a sheet whose rows keep times
_NUMBERS = {name: number for number, (name, _, _) in enumerate(FUNCTIONS)}
_NUMBERS["ellipkinc"] = _NUMBERS["ellipf"]


class Class(IntEnum):
    """What a row is."""

    BLANK = 0
    FINITE = 1
    PLUS_INFINITY = 2
    MINUS_INFINITY = 3
    REFUSED = 4


class Counts(NamedTuple):
    """How many rows are of each class."""

    blank: int
    finite: int
    plus_infinity: int
    minus_infinity: int
    refused: int


class Row(NamedTuple):
    """A row as it was when it was read: `function` and `refusal` are numbers, `patterns` the bit patterns of three arguments and two answers, `times` how often
    the leg was driven (0 for a blank row; once for any other of a sheet that keeps no times)."""

    function: int
    refusal: int
    patterns: Tuple[int, int, int, int, int]
    times: int

    @property
    def name(self) -> str:
        """The function's name, also for a number that no function has."""
        return FUNCTIONS[self.function][0] if self.function < len(FUNCTIONS) else f"function {self.function}"

    @property
    def words(self) -> str:
        """The refusal in words; empty where there is none."""
        return refusal_words(self.refusal)

    @property
    def arguments(self) -> Tuple[float, float, float]:
        """The arguments; 0 for those that the function does not have."""
        a, b, c = map(value, self.patterns[:3])
        return a, b, c

    @property
    def answers(self) -> Tuple[float, float]:
        """The answers; 0 for those that the function does not have, and where the row is refused."""
        first, second = map(value, self.patterns[3:])
        return first, second

    @property
    def class_(self) -> Union[Class, None]:
        """The row's class; None where the first answer is NaN, which is damage."""
        if self.function == 0:
            return Class.BLANK
        if self.refusal:
            return Class.REFUSED
        first = self.answers[0]
        if first != first:
            return None
        return Class.PLUS_INFINITY if first == float("inf") else Class.MINUS_INFINITY if first == float("-inf") else Class.FINITE


class Sheet:
    """A leg sheet: rows of functions worked out, each with the times that it was driven, five counts, and the exact total of the finite rows: times
    multiplied by first answer.

    `Sheet(rows)` has so many blank rows, at most 1,024 (refusal 11). A refused call changes no byte.

    >>> sheet = Sheet(3)
    >>> row = sheet.edit(0, "ellipeinc", 1.5, 0.0)
    >>> row = sheet.edit(1, "ellippi", 1.0, 0.5)
    >>> row.refusal, row.words
    (4, 'n is 1, where the integral is infinite; take another characteristic')
    >>> sheet.counts()
    Counts(blank=1, finite=1, plus_infinity=0, minus_infinity=0, refused=1)
    >>> sheet.total()
    1.5
    >>> [row.name for row in sheet]
    ['ellipeinc', 'ellippi', 'blank']
    """

    __slots__ = ("_bytes", "_lent")
    __hash__ = None  # type: ignore[assignment]

    def __init__(self, rows: int) -> None:
        rows = within(rows, _U32)
        # Too many rows are refused whatever the length is, so that no more bytes are taken for them.
        self._own(bytearray(_EMPTY + _ROW * min(rows, MOST_ROWS)))
        accepted(library.sm_blank(*self._slice(), rows), f"Sheet({rows})")

    def _own(self, data: bytearray) -> None:
        self._bytes = data
        self._lent = (c_uint8 * len(data)).from_buffer(data)

    def _slice(self) -> Tuple[Any, int]:
        return self._lent, len(self._bytes)

    @classmethod
    def from_bytes(cls, data: Any) -> Sheet:
        """The sheet that these bytes are, in bytes of its own. Refusal 7 where their length or contents are not those of a sheet. Rows and totals
        are not looked at: damage there shows when it is met, as refusal 10 of an edit.

        >>> Sheet.from_bytes(bytes(Sheet(2))).counts().blank
        2
        >>> Sheet.from_bytes(b"no sheet")
        Traceback (most recent call last):
            ...
        shuttlemint.Refused: Sheet.from_bytes: refusal 7: these bytes are no sheet, or not of the kind that the call takes: an old one without times is only read, until it is brought forth; read all 328 + 48·rows bytes again
        """
        return cls._of(bytearray(memoryview(data).cast("B")), "Sheet.from_bytes")

    @classmethod
    def _of(cls, data: bytearray, where: str) -> Sheet:
        sheet = cls.__new__(cls)
        sheet._own(data)
        accepted(library.sm_total_refusal(*sheet._slice()), where)
        return sheet

    @classmethod
    def load(cls, path: Union[str, "os.PathLike[str]"]) -> Sheet:
        """The sheet in a file. Refusal 7 where the file is none."""
        with open(path, "rb") as file:
            return cls._of(bytearray(file.read(_EMPTY + _ROW * MOST_ROWS + 1)), f"Sheet.load({os.fspath(path)!r})")

    @property
    def keeps_times(self) -> bool:
        """Whether its rows keep times: its first word says 3. One that says 1 is from before they did: it is only read, and an edit to it is refused 7.

        >>> Sheet(1).keeps_times
        True
        """
        return int.from_bytes(self._bytes[:4], "little") == _WITH_TIMES

    def edit(self, row: int, function: Union[int, str], *arguments: float, times: int = 1) -> Row:
        """Works the function out, puts it in the row in place of what stands there, and gives the row. The counts and the total follow.

        The function goes by number or by name. `times` is how often the leg was driven, 0 to 65535. Refusals: 7 for a sheet that does not keep times, 8 for no
        such row, 22 for function 1, `ellipk`, which goes out, 9 for no such function, 10 for damage. A refusal of the function itself, 1 to 6, is no refusal of
        the edit: the row keeps it.

        >>> sheet = Sheet(1)
        >>> sheet.edit(0, "ellipke", 1.0).answers
        (inf, 1.0)
        >>> sheet.edit(0, 3, 2.0).refusal
        2
        >>> sheet.edit(0, "ellipeinc", 1.5, 0.0, times=3).times, sheet.total()
        (3, 4.5)
        >>> sheet.edit(1, "ellipke", 0.5)
        Traceback (most recent call last):
            ...
        shuttlemint.Refused: Sheet.edit of row 1: refusal 8: there is no such row; rows are counted from 0 and stay below the sheet's row count
        >>> sheet.edit(0, "ellipk", 0.5)
        Traceback (most recent call last):
            ...
        shuttlemint.Refused: Sheet.edit of row 0: refusal 22: ellipk goes out, and no sheet takes a new row of it; enter ellipke, whose first answer is K(m) too
        """
        number = self._number(function)
        if number < len(FUNCTIONS):
            name, read, _ = FUNCTIONS[number]
            if not len(read) <= len(arguments) <= 3:
                raise TypeError(f"{name} reads {len(read)} argument{'s' * (len(read) != 1)} ({', '.join(read) or 'none'}), and {len(arguments)} were given")
        try:
            patterns = [pattern(x) for x in arguments[:3]]
        except struct.error:
            raise TypeError("Sheet.edit: arguments must be real numbers") from None
        return self.edit_patterns(row, number, *patterns, times=times)

    @staticmethod
    def _number(function: Union[int, str]) -> int:
        if isinstance(function, str):
            if function not in _NUMBERS:
                raise ValueError(f"no function has the name {function!r}; there are {', '.join(_NUMBERS)}")
            return _NUMBERS[function]
        return within(function, 255)

    def edit_patterns(self, row: int, function: int, a: int = 0, b: int = 0, c: int = 0, times: int = 1) -> Row:
        """`edit` on bit patterns, which go into the row as they are, a NaN's too."""
        patterns = pattern_of(a), pattern_of(b), pattern_of(c)
        row = within(row, _U32)
        accepted(library.sm_edit(*self._slice(), row, within(function, 255), *patterns, times_of(times)), f"Sheet.edit of row {row}")
        return self.row(row)

    def clear(self, row: int) -> None:
        """Makes the row blank. Refusals 7 for a sheet that does not keep times, 8 and 10."""
        row = within(row, _U32)
        accepted(library.sm_edit(*self._slice(), row, 0, 0, 0, 0, 0), f"Sheet.clear of row {row}")

    def forth(self) -> None:
        """Turns a sheet from before rows kept times, which says 1, into one that says 3: every row that is not blank has times 1. Refusals: 7 where it says 3
        already, 10 for a damaged row, which is named, or counts.

        >>> old = Sheet(1)
        >>> row = old.edit(0, "ellipeinc", 1.5, 0.0)
        >>> old.back()
        >>> old.keeps_times
        False
        >>> old.forth()
        >>> old.row(0).times
        1
        """
        self._turn("forth", library.sm_forth, library.sm_forth_row)

    def back(self) -> None:
        """The way back, for a depot that has not updated. Refusals: 7 where it says 1 already, 10 as `forth`'s, 17 for a row that was driven other than once, which
        is named.

        >>> sheet = Sheet(1)
        >>> row = sheet.edit(0, "ellipeinc", 1.5, 0.0, times=2)
        >>> sheet.back()
        Traceback (most recent call last):
            ...
        shuttlemint.Refused: Sheet.back of row 0: refusal 17: a row that is not blank has times other than 1, which an old sheet can not keep; enter its leg with times 1, or leave the sheet as it is
        """
        self._turn("back", library.sm_back, library.sm_back_row)

    def _turn(self, way: str, call: Any, row_of: Any) -> None:
        row = row_of(*self._slice())
        refusal = call(*self._slice())
        about = "" if refusal in (0, 7) else " of the counts" if row == len(self) else f" of row {row}"
        accepted(refusal, f"Sheet.{way}{about}")

    def row(self, row: int) -> Row:
        """A row. Refusal 8 for no such row; rows are not counted from the end.

        >>> Sheet(1).row(0)
        Row(function=0, refusal=0, patterns=(0, 0, 0, 0, 0), times=0)
        """
        row = within(row, _U32)
        accepted(library.sm_row_refusal(*self._slice(), row), f"Sheet.row({row})")
        at = library.sm_row_at(*self._slice(), row)
        a, b, c, first, second = struct.unpack_from("<5Q", self._bytes, at + 8)
        return Row(self._bytes[at], self._bytes[at + 1], (a, b, c, first, second), library.sm_row_times(*self._slice(), row))

    def __len__(self) -> int:
        return (len(self._bytes) - _EMPTY) // _ROW

    def __iter__(self) -> Iterator[Row]:
        return map(self.row, range(len(self)))

    def counts(self) -> Counts:
        """The five counts, as the sheet has them."""
        return Counts(*struct.unpack_from("<5I", self._bytes, len(self._bytes) - _TOTALS))

    def total(self) -> float:
        """The exact total, rounded once. It can be infinite, and a zero is +0.

        >>> sheet = Sheet(3)
        >>> for k, leg in enumerate([1e300, 1.0, -1e300]):
        ...     row = sheet.edit(k, "ellipeinc", leg, 0.0)
        >>> sheet.total()
        1.0
        """
        return value(library.sm_total(*self._slice()))

    def exact_total(self) -> Fraction:
        """The total itself. More than 1,024 legs are several sheets, and the sum of their exact totals, rounded once, is that of all.

        >>> sheets = [Sheet(1), Sheet(1)]
        >>> for sheet, leg in zip(sheets, [1e16, 1.0]):
        ...     row = sheet.edit(0, "ellipeinc", leg, 0.0)
        >>> sum(sheet.exact_total() for sheet in sheets)
        Fraction(10000000000000001, 1)
        """
        return Fraction(int.from_bytes(self._bytes[-_TOTAL:], "little", signed=True), 1 << 1074)

    def to_bytes(self) -> bytes:
        """All its bytes, which are also what a sheet file holds."""
        return bytes(self._bytes)

    __bytes__ = to_bytes

    def save(self, path: Union[str, "os.PathLike[str]"]) -> None:
        """Writes the sheet to a file of this name. The name holds the old bytes or the whole new ones, whatever happens in between: a new file in the
        same folder is written, synced and then renamed.

        >>> import tempfile, pathlib
        >>> with tempfile.TemporaryDirectory() as folder:
        ...     file = pathlib.Path(folder, "legs.sheet")
        ...     Sheet(2).save(file)
        ...     Sheet.load(file) == Sheet(2)
        True
        """
        path = os.fspath(path)
        folder = os.path.dirname(path) or "."
        new = _free_name(folder, os.path.basename(path))
        try:
            with open(new, "xb") as file:
                file.write(self._bytes)
                file.flush()
                os.fsync(file.fileno())
            os.replace(new, path)
        except BaseException:
            if os.path.lexists(new):
                os.unlink(new)
            raise
        _sync_folder(folder)

    def __eq__(self, other: object) -> bool:
        if not isinstance(other, Sheet):
            return NotImplemented
        return self._bytes == other._bytes

    def __repr__(self) -> str:
        return f"<Sheet of {len(self)} rows: {', '.join(f'{n} {name}' for name, n in self.counts()._asdict().items())}; total {self.total()!r}>"

    def __reduce__(self) -> Any:
        return Sheet.from_bytes, (self.to_bytes(),)


def _free_name(folder: str, name: str) -> str:
    k = 0
    while os.path.lexists(new := os.path.join(folder, f".{name}.{os.getpid()}-{k}")):
        k += 1
    return new


def _sync_folder(folder: str) -> None:
    """The new name itself is on the disk only when the folder is."""
    handle = os.open(folder, os.O_RDONLY)
    try:
        os.fsync(handle)
    finally:
        os.close(handle)
