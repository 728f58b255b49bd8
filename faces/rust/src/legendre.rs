//! Crate ellip's own functions, with its paths, signatures and texts of error, in f64.
//!
//! They stand at the crate's root too, as in ellip, so that a program keeps its code and changes one line of its Cargo.toml:
//!
//! ```toml
//! ellip = { package = "shuttlemint", path = ".../faces/rust" }
//! ```
//!
//! The answers are the proved library's; [`integrals`] has the same functions with numbered refusals. As in ellip they are generic, so that
//! `ellipk::<f64>` may be written; [`Float`] is f64 alone. The text for NaN is in none of ellip's files at hand but where one compares with it.
use crate::{integrals, Refusal, StrErr};

mod sealed {
    pub trait Sealed {}
    impl Sealed for f64 {}
}

/// The floats that these functions take: f64.
#[diagnostic::on_unimplemented(message = "the proved library works in f64, not in `{Self}`", label = "give an f64 here")]
pub trait Float: Copy + From<f64> + Into<f64> + sealed::Sealed {}

impl Float for f64 {}

/// ellip's text for a refusal, given its words for a function.
macro_rules! text {
    ($name:literal) => {
        |refusal: Refusal| -> StrErr {
            match refusal {
                Refusal::NAN_ARGUMENT => concat!($name, ": Arguments cannot be NAN."),
                Refusal::PARAMETER_ABOVE_ONE => concat!($name, ": m must not be greater than 1."),
                Refusal::AMPLITUDE_TOO_LARGE => concat!($name, ": m sin²φ must be smaller than one."),
                Refusal::CHARACTERISTIC_ONE => concat!($name, ": n cannot be 1."),
                _ => concat!($name, ": Unexpected error."),
            }
        }
    };
}

/// K(m).
///
/// ```
/// assert_eq!(shuttlemint::legendre::ellipk(2.0), Err("ellipk: m must not be greater than 1."));
/// ```
pub fn ellipk<T: Float>(m: T) -> Result<T, StrErr> {
    integrals::ellipk(m.into()).map(T::from).map_err(text!("ellipk"))
}

/// E(m).
pub fn ellipe<T: Float>(m: T) -> Result<T, StrErr> {
    integrals::ellipe(m.into()).map(T::from).map_err(text!("ellipe"))
}

/// K(m) and E(m).
pub fn ellipke<T: Float>(m: T) -> Result<(T, T), StrErr> {
    integrals::ellipke(m.into()).map(|(k, e)| (T::from(k), T::from(e))).map_err(text!("ellipke"))
}

/// Π(n, m).
pub fn ellippi<T: Float>(n: T, m: T) -> Result<T, StrErr> {
    integrals::ellippi(n.into(), m.into()).map(T::from).map_err(text!("ellippi"))
}

/// E(φ, m). E(φ, -∞) is infinite, which ellip's own table of limits says and its code does not give; for |φ| > 2^52 the last bit may differ from ellip's.
pub fn ellipeinc<T: Float>(phi: T, m: T) -> Result<T, StrErr> {
    integrals::ellipeinc(phi.into(), m.into()).map(T::from).map_err(|refusal| match refusal {
        // ellip hands on what its ellipe says.
        Refusal::PARAMETER_ABOVE_ONE => text!("ellipe")(refusal),
        _ => text!("ellipeinc")(refusal),
    })
}

/// F(φ, m).
pub fn ellipf<T: Float>(phi: T, m: T) -> Result<T, StrErr> {
    integrals::ellipf(phi.into(), m.into()).map(T::from).map_err(text!("ellipf"))
}
