//! Refusal numbers and their words.
use std::fmt;
use std::num::NonZeroU8;

/// Why there is no answer. Its [`number`](Refusal::number) is the same in every face and in a sheet's rows; shown, it says what
/// is wrong and what to do next.
///
/// ```
/// use shuttlemint::{integrals, Refusal};
///
/// let refusal = integrals::ellipk(1.5).unwrap_err();
/// assert_eq!(refusal, Refusal::PARAMETER_ABOVE_ONE);
/// assert_eq!(refusal.number(), 2);
/// assert!(refusal.to_string().starts_with("refusal 2: m is greater than 1"));
/// ```
#[derive(Clone, Copy, PartialEq, Eq, PartialOrd, Ord, Hash)]
pub struct Refusal(NonZeroU8);

impl Refusal {
    /// 1: an argument is NaN.
    pub const NAN_ARGUMENT: Refusal = Refusal::numbered(1);
    /// 2: m > 1.
    pub const PARAMETER_ABOVE_ONE: Refusal = Refusal::numbered(2);
    /// 3: m·sin²φ ≥ 1.
    pub const AMPLITUDE_TOO_LARGE: Refusal = Refusal::numbered(3);
    /// 4: n = 1.
    pub const CHARACTERISTIC_ONE: Refusal = Refusal::numbered(4);
    /// 5: a recipe's stop test is still unmet after 64 rounds.
    pub const NOT_SETTLED: Refusal = Refusal::numbered(5);
    /// 6: the steps end in no number.
    pub const NO_NUMBER: Refusal = Refusal::numbered(6);
    /// 7: the length or the contents are not those of a sheet, or not of one that the call takes: an edit of one that does not
    /// [keep times](crate::Sheet::keeps_times), or the wrong way [forth](crate::Sheet::forth) or [back](crate::Sheet::back).
    pub const NOT_A_SHEET: Refusal = Refusal::numbered(7);
    /// 8: the row number is not below the row count.
    pub const NO_SUCH_ROW: Refusal = Refusal::numbered(8);
    /// 9: the function number is above the last.
    pub const NO_SUCH_FUNCTION: Refusal = Refusal::numbered(9);
    /// 10: the row to be replaced, or one to be brought forth or back, or the counts, are damaged.
    pub const DAMAGED: Refusal = Refusal::numbered(10);
    /// 11: more than 1,024 rows are asked for.
    pub const TOO_MANY_ROWS: Refusal = Refusal::numbered(11);
    /// 12: a logarithm, sine or cosine outside the range where it is worked out. No call of this crate gives it.
    pub const OUTSIDE_THE_KERNEL: Refusal = Refusal::numbered(12);
    /// 17: on the way [back](crate::Sheet::back), a row that is not blank has times other than 1.
    pub const NOT_DRIVEN_ONCE: Refusal = Refusal::numbered(17);
    /// 22: an edit to function 1, `ellipk`, which goes out: rows of it stand, and no new one is entered.
    pub const WITHDRAWN_FUNCTION: Refusal = Refusal::numbered(22);

    const fn numbered(number: u8) -> Refusal {
        match NonZeroU8::new(number) {
            Some(number) => Refusal(number),
            None => panic!(),
        }
    }

    /// The refusal of this number; 0 is none. A damaged row can hold any number, so all others are refusals.
    pub const fn from_number(number: u8) -> Option<Refusal> {
        match NonZeroU8::new(number) {
            Some(number) => Some(Refusal(number)),
            None => None,
        }
    }

    /// The number, never 0.
    pub const fn number(self) -> u8 {
        self.0.get()
    }

    /// What is wrong and what to do next.
    pub const fn message(self) -> &'static str {
        match self.number() {
            1 => "an argument is NaN; mend the calculation that it comes from",
            2 => "m is greater than 1, where the integral is not real; give the parameter m = k², which is at most 1",
            3 => "m·sin²φ is 1 or more, where the integral is not real; take a smaller amplitude or parameter",
            4 => "n is 1, where the integral is infinite; take another characteristic",
            5 => "the steps did not settle in 64 rounds; bring the arguments nearer to 1 in size",
            6 => "the steps overflow or meet 0·∞; take finite arguments, nearer to 1 in size",
            7 => "these bytes are no sheet, or not of the kind that the call takes: an old one without times is only read, until it is brought forth; read all 328 + 48·rows bytes again",
            8 => "there is no such row; rows are counted from 0 and stay below the sheet's row count",
            9 => "no function has this number; 0 is blank, 1 ellipk, 2 ellipe, 3 ellipke, 4 ellippi, 5 ellipeinc, 6 ellipf",
            10 => "the row or the counts are damaged; fetch the sheet again, or edit every row afresh in a blank one",
            11 => "a sheet has at most 1,024 rows; spread the rows over more sheets",
            12 => "a logarithm, sine or cosine was asked outside its range; report the arguments that led to it",
            17 => "a row that is not blank has times other than 1, which an old sheet can not keep; enter its leg with times 1, or leave the sheet as it is",
            22 => "ellipk goes out, and no sheet takes a new row of it; enter ellipke, whose first answer is K(m) too",
            _ => "no refusal has this number; the bytes that it was read from are damaged, so fetch them again",
        }
    }
}

/// The number that a call gave: 0 is accepted.
pub(crate) fn accepted(number: u8) -> Result<(), Refusal> {
    Refusal::from_number(number).map_or(Ok(()), Err)
}

impl fmt::Display for Refusal {
    fn fmt(&self, f: &mut fmt::Formatter) -> fmt::Result {
        write!(f, "refusal {}: {}", self.number(), self.message())
    }
}

impl fmt::Debug for Refusal {
    fn fmt(&self, f: &mut fmt::Formatter) -> fmt::Result {
        write!(f, "Refusal({}: {})", self.number(), self.message())
    }
}

impl std::error::Error for Refusal {}

/// The error type of crate ellip. `?` takes a [`Refusal`] to it.
pub type StrErr = &'static str;

impl From<Refusal> for StrErr {
    fn from(refusal: Refusal) -> StrErr {
        refusal.message()
    }
}
