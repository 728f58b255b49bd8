"""Refusal numbers, their words, and the exception that carries one."""
from __future__ import annotations

from enum import IntEnum
from typing import Any, Tuple


class Refusal(IntEnum):
    """The refusal numbers; they are the same in every face and in a sheet's rows. 0, no refusal, is none of them.

    >>> Refusal.PARAMETER_ABOVE_ONE == 2
    True
    """

    NAN_ARGUMENT = 1
    PARAMETER_ABOVE_ONE = 2
    AMPLITUDE_TOO_LARGE = 3
    CHARACTERISTIC_ONE = 4
    NOT_SETTLED = 5
    NO_NUMBER = 6
    NOT_A_SHEET = 7
    NO_SUCH_ROW = 8
    NO_SUCH_FUNCTION = 9
    DAMAGED = 10
    TOO_MANY_ROWS = 11
    OUTSIDE_THE_KERNEL = 12
    NOT_DRIVEN_ONCE = 17
    WITHDRAWN_FUNCTION = 22


# The words are those of the Rust crate, faces/rust/src/refusal.rs; the tests compare them.
_WORDS = {
    1: "an argument is NaN; mend the calculation that it comes from",
    2: "m is greater than 1, where the integral is not real; give the parameter m = k², which is at most 1",
    3: "m·sin²φ is 1 or more, where the integral is not real; take a smaller amplitude or parameter",
    4: "n is 1, where the integral is infinite; take another characteristic",
    5: "the steps did not settle in 64 rounds; bring the arguments nearer to 1 in size",
    6: "the steps overflow or meet 0·∞; take finite arguments, nearer to 1 in size",
    7: "these bytes are no sheet, or not of the kind that the call takes: an old one without times is only read, until it is brought forth; read all 328 + 48·rows bytes again",
    8: "there is no such row; rows are counted from 0 and stay below the sheet's row count",
    9: "no function has this number; 0 is blank, 1 ellipk, 2 ellipe, 3 ellipke, 4 ellippi, 5 ellipeinc, 6 ellipf",
    10: "the row or the counts are damaged; fetch the sheet again, or edit every row afresh in a blank one",
    11: "a sheet has at most 1,024 rows; spread the rows over more sheets",
    12: "a logarithm, sine or cosine was asked outside its range; report the arguments that led to it",
    17: "a row that is not blank has times other than 1, which an old sheet can not keep; enter its leg with times 1, or leave the sheet as it is",
    22: "ellipk goes out, and no sheet takes a new row of it; enter ellipke, whose first answer is K(m) too",
}
_UNKNOWN = "no refusal has this number; the bytes that it was read from are damaged, so fetch them again"


def refusal_words(number: int) -> str:
    """What is wrong and what to do next, for a refusal number; empty for 0, which is none.

    >>> refusal_words(4)
    'n is 1, where the integral is infinite; take another characteristic'
    >>> refusal_words(0)
    ''
    """
    return _WORDS.get(number, _UNKNOWN) if number else ""


class Refused(ValueError):
    """There is no answer, and a numbered reason why.

    `number` is the refusal number, `words` say what is wrong and what to do next, `where` names the call, and `index` the element of a
    sequence or array (empty for a single call).

    >>> from shuttlemint import ellipk
    >>> try:
    ...     ellipk([0.5, 1.5])
    ... except Refused as refused:
    ...     print(refused.number, refused.index)
    ...     print(refused)
    2 (1,)
    ellipk(1.5) at [1]: refusal 2: m is greater than 1, where the integral is not real; give the parameter m = k², which is at most 1
    """

    def __init__(self, number: int, where: str = "", index: Tuple[int, ...] = ()) -> None:
        super().__init__(number, where, index)
        self.number = number
        self.where = where
        self.index = index

    @property
    def words(self) -> str:
        return refusal_words(self.number)

    def __str__(self) -> str:
        place = f" at [{', '.join(map(str, self.index))}]" if self.index else ""
        call = f"{self.where}{place}: " if self.where or place else ""
        return f"{call}refusal {self.number}: {self.words}"


def accepted(number: int, where: str = "", index: Tuple[Any, ...] = ()) -> None:
    """Raises what a call gave, unless it is 0."""
    if number:
        raise Refused(number, where, index)
