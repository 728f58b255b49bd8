//! The integrals, with numbered refusals and the three sorts of argument.
//!
//! Their names and order of arguments are crate ellip's. An [`Amplitude`], a [`Characteristic`] and a [`Parameter`] can't be taken
//! for one another; a plain f64 is taken for whichever is asked.
//!
//! ```
//! use shuttlemint::{integrals::*, Characteristic, Parameter, Refusal};
//!
//! let (n, m) = (Characteristic(0.25), Parameter(0.5));
//! assert_eq!(ellippi(n, m), ellippi(0.25, 0.5));
//! assert_eq!(ellippi(1.0, m), Err(Refusal::CHARACTERISTIC_ONE));
//! ```
use crate::{evaluate, Amplitude, Characteristic, Parameter, Refusal};

/// A function with its arguments, to be worked out or entered in a sheet's row.
///
/// ```
/// use shuttlemint::{Integral, Refusal, Sheet};
///
/// let arc = Integral::ellipeinc(1.5, 0.0);
/// let mut sheet = Sheet::blank(1)?;
/// sheet.enter(0, arc)?;
/// assert_eq!(sheet.row(0)?.values(), arc.values());
/// # Ok::<(), Refusal>(())
/// ```
#[derive(Clone, Copy, Debug, PartialEq, Eq, Hash)]
pub struct Integral {
    function: u8,
    arguments: [u64; 3],
}

impl Integral {
    fn new(function: u8, a: f64, b: f64) -> Integral {
        Integral { function, arguments: [a.to_bits(), b.to_bits(), 0] }
    }

    /// K(m). To be worked out: no sheet takes a new row of it (22), where [`ellipke`](Integral::ellipke) has K(m) for its first answer.
    pub fn ellipk(m: impl Into<Parameter>) -> Integral {
        Integral::new(1, m.into().0, 0.0)
    }

    /// E(m).
    pub fn ellipe(m: impl Into<Parameter>) -> Integral {
        Integral::new(2, m.into().0, 0.0)
    }

    /// K(m) and E(m).
    pub fn ellipke(m: impl Into<Parameter>) -> Integral {
        Integral::new(3, m.into().0, 0.0)
    }

    /// Π(n, m).
    pub fn ellippi(n: impl Into<Characteristic>, m: impl Into<Parameter>) -> Integral {
        Integral::new(4, n.into().0, m.into().0)
    }

    /// E(φ, m).
    pub fn ellipeinc(phi: impl Into<Amplitude>, m: impl Into<Parameter>) -> Integral {
        Integral::new(5, phi.into().0, m.into().0)
    }

    /// F(φ, m).
    pub fn ellipf(phi: impl Into<Amplitude>, m: impl Into<Parameter>) -> Integral {
        Integral::new(6, phi.into().0, m.into().0)
    }

    /// The function's number, as in a row.
    pub fn function(self) -> u8 {
        self.function
    }

    /// The arguments' bit patterns, as in a row.
    pub fn arguments(self) -> [u64; 3] {
        self.arguments
    }

    /// Works it out: two answers, the second 0 where the function has one.
    pub fn values(self) -> Result<[f64; 2], Refusal> {
        let [a, b, c] = self.arguments;
        Ok(evaluate(self.function, a, b, c)?.map(f64::from_bits))
    }

    fn first(self) -> Result<f64, Refusal> {
        Ok(self.values()?[0])
    }
}

/// K(m), the complete integral of the first kind. K(1) is +∞. Refusals: 1, and 2 for m > 1.
///
/// ```
/// assert_eq!(shuttlemint::integrals::ellipk(0.0), Ok(std::f64::consts::FRAC_PI_2));
/// ```
pub fn ellipk(m: impl Into<Parameter>) -> Result<f64, Refusal> {
    Integral::ellipk(m).first()
}

/// E(m), the complete integral of the second kind. E(-∞) is +∞. Refusals: 1, and 2 for m > 1.
///
/// ```
/// assert_eq!(shuttlemint::integrals::ellipe(1.0), Ok(1.0));
/// ```
pub fn ellipe(m: impl Into<Parameter>) -> Result<f64, Refusal> {
    Integral::ellipe(m).first()
}

/// K(m) and E(m). Refusals: 1, and 2 for m > 1.
///
/// ```
/// assert_eq!(shuttlemint::integrals::ellipke(1.0), Ok((f64::INFINITY, 1.0)));
/// ```
pub fn ellipke(m: impl Into<Parameter>) -> Result<(f64, f64), Refusal> {
    let [first, second] = Integral::ellipke(m).values()?;
    Ok((first, second))
}

/// Π(n, m), the complete integral of the third kind; Cauchy's principal value for n > 1. Refusals: 1, 2 for m > 1, 4 for n = 1, 5 and 6.
///
/// ```
/// let third = shuttlemint::integrals::ellippi(0.5, 0.5).unwrap();
/// assert!((third - 2.7012877620953506).abs() < 1e-14);
/// ```
pub fn ellippi(n: impl Into<Characteristic>, m: impl Into<Parameter>) -> Result<f64, Refusal> {
    Integral::ellippi(n, m).first()
}

/// E(φ, m), the incomplete integral of the second kind. E(±∞, m) is infinite with φ's sign, and so is E(φ, -∞) but for φ = 0. Refusals: 1, 2, 3 for m·sin²φ ≥ 1, 5 and 6.
///
/// ```
/// let arc = shuttlemint::integrals::ellipeinc(std::f64::consts::FRAC_PI_4, 0.5).unwrap();
/// assert!((arc - 0.7481865041776612).abs() < 1e-14);
/// ```
pub fn ellipeinc(phi: impl Into<Amplitude>, m: impl Into<Parameter>) -> Result<f64, Refusal> {
    Integral::ellipeinc(phi, m).first()
}

/// F(φ, m), the incomplete integral of the first kind. Refusals: 1, 3 for m·sin²φ ≥ 1 or m ≥ 1 with |φ| ≥ π/2, 5 and 6.
///
/// ```
/// let first = shuttlemint::integrals::ellipf(std::f64::consts::FRAC_PI_4, 0.5).unwrap();
/// assert!((first - 0.826017876249245).abs() < 1e-14);
/// ```
pub fn ellipf(phi: impl Into<Amplitude>, m: impl Into<Parameter>) -> Result<f64, Refusal> {
    Integral::ellipf(phi, m).first()
}
