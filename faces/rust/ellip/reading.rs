//! The f64 reading of ellip's files (oracle/ellip) under ellip's own signatures and texts, for programs that use what of them is given: the files'
//! refusal numbers are turned back into the texts that stand there. The text for NaN is the one that ellippiinc.rs expects of its check.
pub type StrErr = &'static str;

macro_rules! text {
    ($name:literal) => {
        |number: u8| -> StrErr {
            match number {
                1 => concat!($name, ": Arguments cannot be NAN."),
                2 => concat!($name, ": m must not be greater than 1."),
                3 => concat!($name, ": m sin²φ must be smaller than one."),
                _ => concat!($name, ": Unexpected error."),
            }
        }
    };
}

pub mod legendre {
    use super::StrErr;

    /// For num_traits' Float, which is in no given file.
    pub trait Float: From<f64> + Into<f64> {}
    impl Float for f64 {}

    pub fn ellipk<T: Float>(m: T) -> Result<T, StrErr> {
        reading::ellipk(m.into()).map(T::from).map_err(text!("ellipk"))
    }

    pub fn ellipe<T: Float>(m: T) -> Result<T, StrErr> {
        reading::ellipe(m.into()).map(T::from).map_err(text!("ellipe"))
    }

    pub fn ellipke<T: Float>(m: T) -> Result<(T, T), StrErr> {
        reading::ellipke(m.into()).map(|(k, e)| (T::from(k), T::from(e))).map_err(text!("ellipke"))
    }

    pub fn ellipf<T: Float>(phi: T, m: T) -> Result<T, StrErr> {
        // The files have no RF: only the answers that do without it may be asked.
        reading::ellipf(phi.into(), m.into(), |_, _, _| unimplemented!("RF is not given")).map(T::from).map_err(text!("ellipf"))
    }
}

pub use legendre::{ellipe, ellipf, ellipk, ellipke};
