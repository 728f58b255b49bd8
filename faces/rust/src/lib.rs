//! Elliptic integrals and the leg sheet: a safe face over the proved library Shuttlemint.
//!
//! Every call answers for every input, with a value or with a numbered [`Refusal`]; none panics, and a refused edit changes no byte.
//! What a call answers is stated and proved in the library; this crate only carries it over.
//!
//! # Integrals
//!
//! [`integrals`] has `ellipk`, `ellipe`, `ellipke`, `ellippi`, `ellipeinc` and `ellipf`. Their arguments are of three sorts, [`Amplitude`],
//! [`Characteristic`] and [`Parameter`], of which none is taken for another; who gives plain f64s need not spell them.
//!
//! ```
//! use shuttlemint::{integrals::*, Amplitude, Parameter, Refusal};
//!
//! let arc = ellipeinc(Amplitude(1.0), Parameter(0.5))?;
//! assert_eq!(ellipeinc(1.0, 0.5), Ok(arc));
//! assert_eq!(ellipk(1.5).unwrap_err().number(), 2);
//! # Ok::<(), Refusal>(())
//! ```
//!
//! # Instead of crate ellip
//!
//! The crate's root and [`legendre`] have ellip's own functions, with its signatures in f64 and its texts of error, so that a program keeps its
//! code: `ellip = { package = "shuttlemint", path = ".." }` in its Cargo.toml is all.
//!
//! ```
//! use shuttlemint as ellip; // Cargo does this, by `package = "shuttlemint"`
//! use ellip::{ellipe, StrErr};
//!
//! fn ellipse_perimeter(a: f64, b: f64) -> Result<f64, StrErr> {
//!     Ok(4.0 * a * ellipe(1.0 - (b / a) * (b / a))?)
//! }
//!
//! assert!((ellipse_perimeter(5.0, 3.0).unwrap() - 25.526998863398124).abs() < 1e-13);
//! ```
//!
//! # A sheet
//!
//! ```
//! use shuttlemint::{Class, Integral, Refusal, Sheet};
//!
//! let mut sheet = Sheet::blank(2)?;
//! sheet.enter(0, Integral::ellipeinc(1.5, 0.0))?; // is 1.5
//! sheet.enter(1, Integral::ellippi(1.0, 0.5))?; // is refused, and the row keeps that
//! assert_eq!(sheet.row(1)?.refusal(), Some(Refusal::CHARACTERISTIC_ONE));
//! assert_eq!(sheet.count(Class::Refused), 1);
//! assert_eq!(sheet.total(), 1.5);
//! sheet.enter_times(0, Integral::ellipeinc(1.5, 0.0), 3)?; // the same leg, driven three times
//! assert_eq!(sheet.total(), 4.5);
//! # Ok::<(), Refusal>(())
//! ```
#![deny(unsafe_code, missing_docs)]

#[allow(unsafe_code)]
mod face;
pub mod integrals;
pub mod legendre;
mod refusal;
mod sheet;
mod sorts;

pub use integrals::Integral;
pub use legendre::{ellipe, ellipeinc, ellipf, ellipk, ellipke, ellippi};
pub use refusal::{Refusal, StrErr};
pub use sheet::{Class, Row, Sheet, Stop};
pub use sorts::{Amplitude, Characteristic, Parameter};

/// The function of this number at its arguments' bit patterns, as a sheet's row has them: its two answers' bit patterns.
///
/// | number | function | arguments | answers |
/// |---|---|---|---|
/// | 0 | blank | | |
/// | 1 | [`ellipk`](integrals::ellipk) | m | K |
/// | 2 | [`ellipe`](integrals::ellipe) | m | E |
/// | 3 | [`ellipke`](integrals::ellipke) | m | K, E |
/// | 4 | [`ellippi`](integrals::ellippi) | n, m | Π |
/// | 5 | [`ellipeinc`](integrals::ellipeinc) | φ, m | E |
/// | 6 | [`ellipf`](integrals::ellipf) | φ, m | F |
///
/// Arguments that the function does not have are not read, and answers that it does not have are 0. No answer is NaN. Refusals: 1 to
/// 6, and 9 for a number above the last. Function 1 goes out of sheets ([`Sheet::edit`]), and is worked out here as ever.
///
/// ```
/// use shuttlemint::{evaluate, Refusal};
///
/// let one = 0x3ff0_0000_0000_0000;
/// assert_eq!(evaluate(3, one, 0, 0), Ok([0x7ff0_0000_0000_0000, one])); // ellipke(1) is (+∞, 1)
/// assert_eq!(evaluate(4, one, one, 0), Err(Refusal::CHARACTERISTIC_ONE));
/// assert_eq!(evaluate(255, 0, 0, 0), Err(Refusal::NO_SUCH_FUNCTION));
/// ```
pub fn evaluate(function: u8, a: u64, b: u64, c: u64) -> Result<[u64; 2], Refusal> {
    let (number, answers) = face::evaluate(function, a, b, c);
    refusal::accepted(number)?;
    Ok(answers)
}

/// How many rounds Carlson's recipes RF, RC, RD and RJ made for what [`evaluate`] answers, all calls together, those of RC inside RJ too.
///
/// A refused answer has its rounds too, and a recipe whose stop test was never met (refusal 5) has 64. 0 where no recipe is asked: functions 0 to 3, and
/// numbers above the last.
///
/// ```
/// use shuttlemint::rounds;
///
/// let (one, minus_infinity) = (1f64.to_bits(), f64::NEG_INFINITY.to_bits());
/// assert_eq!(rounds(6, one, minus_infinity, 0), 64); // ellipf(1, -∞) is +0, though RF is not met
/// assert_eq!(rounds(3, one, 0, 0), 0);
/// ```
pub fn rounds(function: u8, a: u64, b: u64, c: u64) -> usize {
    face::rounds(function, a, b, c)
}
