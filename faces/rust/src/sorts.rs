//! The three sorts of number that an integral is given.

/// What a sort has: a public float, and a way from one, so that a plain f64 need not be wrapped.
macro_rules! sort {
    ($(#[$doc:meta])* $name:ident) => {
        $(#[$doc])*
        #[derive(Clone, Copy, Debug, PartialEq, PartialOrd)]
        pub struct $name(pub f64);

        impl From<f64> for $name {
            fn from(value: f64) -> $name {
                $name(value)
            }
        }

        impl From<$name> for f64 {
            fn from(value: $name) -> f64 {
                value.0
            }
        }
    };
}

sort! {
    /// The amplitude φ, in radians.
    ///
    /// An f64 does where it is asked for. One that is wrapped in another sort does not build:
    ///
    /// ```compile_fail,E0277
    /// use shuttlemint::{integrals::ellipeinc, Amplitude, Parameter};
    ///
    /// ellipeinc(Parameter(0.5), Amplitude(1.0)); // E(φ, m) has φ first
    /// ```
    Amplitude
}

sort! {
    /// The characteristic n.
    ///
    /// ```compile_fail,E0277
    /// use shuttlemint::{integrals::ellippi, Characteristic};
    ///
    /// ellippi(0.5, Characteristic(0.25)); // Π(n, m) has n first
    /// ```
    Characteristic
}

sort! {
    /// The parameter m = k², not the modulus k.
    ///
    /// ```compile_fail,E0277
    /// use shuttlemint::{integrals::ellipf, Parameter};
    ///
    /// ellipf(Parameter(0.5), Parameter(0.5)); // F(φ, m) has one parameter
    /// ```
    Parameter
}
