//! A program written for crate ellip 1.2.3: it uses ellip's names, paths, results and texts in the ways that ellip allows in f64.
//! faces/test builds it over this crate and over the f64 reading of ellip's own files, and both must print the same.
use ellip::legendre;
use ellip::{ellipe, ellipf, ellipk, StrErr};

/// Hands on ellip's result as it is.
fn quarter_period(m: f64) -> Result<f64, StrErr> {
    ellipk(m)
}

/// `?`, and an error text of the program's own.
fn perimeter(a: f64, b: f64) -> Result<f64, StrErr> {
    if a < b {
        return Err("perimeter: give the longer half axis first");
    }
    Ok(4.0 * a * ellipe(1.0 - (b / a) * (b / a))?)
}

/// All or the first error.
fn all(f: fn(f64) -> Result<f64, StrErr>, of: &[f64]) -> Result<Vec<f64>, StrErr> {
    of.iter().copied().map(f).collect::<Result<Vec<_>, StrErr>>()
}

/// Legendre's relation, by the module's own path; it is π/2.
fn legendre_relation(m: f64) -> Result<f64, ellip::StrErr> {
    let (k, e) = legendre::ellipke(m)?;
    let (k1, e1) = ellip::ellipke(1.0 - m)?;
    Ok(e * k1 + e1 * k - k * k1)
}

/// A pendulum's period by its amplitude, in units of 2π√(l/g); errors are told apart by their text.
fn period(amplitude: f64) -> String {
    match quarter_period((amplitude / 2.0).sin().powi(2)) {
        Ok(k) if k.is_finite() => format!("{:?}", k * std::f64::consts::FRAC_2_PI),
        Ok(_) => "it never comes back".to_string(),
        Err("ellipk: Arguments cannot be NAN.") => "no amplitude was given".to_string(),
        Err(other) => other.to_uppercase(),
    }
}

fn main() {
    println!("perimeter {:?} {:?} {:?}", perimeter(5.0, 3.0), perimeter(3.0, 5.0), perimeter(1.0, f64::NAN));
    println!("K {:?}", all(legendre::ellipk, &[-1e300, -9.0, -0.5, 0.0, 0.85, 0.95, 1.0]));
    println!("E {:?}", all(ellipe, &[f64::NEG_INFINITY, -9.0, 0.0, 0.425, 1.0]));
    println!("K {:?}", all(ellipk, &[0.5, 1.5, f64::NAN]));
    println!("E {:?}", all(legendre::ellipe, &[0.5, f64::INFINITY]));
    println!("K {:?}", [0.25, 0.5, 0.75].map(ellip::ellipk::<f64>));
    println!("relation {:?} {:?}", legendre_relation(0.25), legendre_relation(-0.25));
    println!("period {} {} {}", period(1.0), period(std::f64::consts::PI), period(f64::NAN));
    let first_kind = |phi, m| ellipf(phi, m).unwrap_or_else(|why| panic!("{why}"));
    println!("F {:?} {:?} {:?}", first_kind(0.75, 0.0), first_kind(f64::INFINITY, 0.5), legendre::ellipf(2.0, 1.0));
    let mut worst: f64 = 0.0;
    for i in 0..=1000 {
        let m = -5.0 + 6.0 * i as f64 / 1000.0;
        let (k, e) = ellip::ellipke(m).unwrap();
        println!("{m:?} {:?} {:?} {k:?} {e:?}", ellipk(m), ellipe(m));
        worst = worst.max((ellipk(m).unwrap() / k - 1.0).abs());
    }
    println!("worst {worst:?}");
}
