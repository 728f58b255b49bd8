//! ellipf through the static library against the f64 reading of ellipf.rs: `oracle/run first_kind_compare [MILLIONS]`, 2 by default.
//! Exact paths (refusals 1 and 3 for |φ| ≥ π/2, m = 0, |φ| > 2^52) must agree in bits, but that a NaN of the Rust is refusal 6 here.
//! In 01's box, which has no lower end for φ, neither may fail, and the largest relative difference is shown. RF there is this project's recipe, on the hardware (rf.rs).
mod library;
mod patterns;
mod rf;

use patterns::{shown, Random};
use rf::rf;

fn rust(phi: f64, m: f64) -> (u8, u64, u64) {
    match ellip::ellipf(phi, m, rf) {
        Ok(x) if x.is_nan() => (6, 0, 0),
        Ok(x) => (0, shown(x), 0),
        Err(0) => (5, 0, 0),
        Err(n) => (n, 0, 0),
    }
}

/// Between 0 and 1.
fn unit(random: &mut Random) -> f64 {
    random.below(1 << 53) as f64 / (1u64 << 53) as f64
}

fn amplitude(random: &mut Random) -> f64 {
    let far = f64::from_bits(0x4330_0000_0000_0000 + random.below(0x3cc0_0000_0000_0000));
    let size = match random.below(6) {
        5 => 2f64.powi(-512) * (1.0 + 3.0 * unit(random)),
        4 => 2f64.powf(-1074.0 * unit(random)),
        0 => f64::from_bits(random.pattern()),
        1 => far,
        2 => 1000.0 * unit(random),
        _ => (random.below(600) as f64 * std::f64::consts::FRAC_PI_2) * (1.0 + (random.below(9) as f64 - 4.0) * f64::EPSILON),
    };
    if random.below(2) == 0 { size } else { -size }
}

fn parameter(random: &mut Random) -> f64 {
    match random.below(5) {
        0 => f64::from_bits(random.pattern()),
        1 => [0.0, -0.0, 1.0, 0.5, -1.0, f64::INFINITY, f64::NEG_INFINITY, 1.0 - f64::EPSILON / 2.0][random.below(8) as usize],
        2 => -1000.0 * unit(random),
        3 => -(2f64.powf(-900.0 * unit(random))),
        _ => 0.99 * unit(random),
    }
}

fn main() {
    let millions: u64 = std::env::args().nth(1).map_or(2, |n| n.parse().expect("a number of millions"));
    let mut random = Random(millions);
    let (mut exact, mut boxed, mut differ, mut largest, mut at) = (0u64, 0u64, 0u64, 0f64, (0.0, 0.0));
    for _ in 0..millions * 1_000_000 {
        let (phi, m) = (amplitude(&mut random), parameter(&mut random));
        let (ours, theirs) = (library::evaluate(6, phi.to_bits(), m.to_bits(), 0), rust(phi, m));
        let wrong = if phi.is_nan() || m.is_nan() || m == 0.0 || phi.abs() > 4503599627370496.0 || (m >= 1.0 && phi.abs() >= std::f64::consts::FRAC_PI_2) {
            exact += 1;
            ours != theirs
        } else if phi.abs() <= 1000.0 && (-1000.0..=0.99).contains(&m) && m.abs() >= 2f64.powi(-900) {
            boxed += 1;
            let (x, y) = (f64::from_bits(ours.1), f64::from_bits(theirs.1));
            let off = if x == y { 0.0 } else { ((x - y) / y).abs() };
            if off > largest {
                (largest, at) = (off, (phi, m));
            }
            ours.0 != 0 || theirs.0 != 0 || !(off <= 2f64.powi(-36))
        } else {
            false
        };
        if wrong {
            differ += 1;
            if differ <= 10 {
                println!("({phi:e}, {m:e}): {ours:x?}, the Rust {theirs:x?}");
            }
        }
    }
    println!("ellipf: {exact} arguments on exact paths and {boxed} in the box, {differ} differ; largest relative difference in the box 2^{:.2} at {at:?}", largest.log2());
    std::process::exit((differ > 0) as i32);
}
