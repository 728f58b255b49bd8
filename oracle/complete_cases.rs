//! Arguments for K and E that reach every path of the three files: all pieces and both sides of each boundary, the three routes of
//! negative m, powers of two, subnormals, huge negatives, 1 - k·2^-53, random patterns.


use crate::patterns::{shown, Random, CORNERS};

pub fn argument(random: &mut Random) -> u64 {
    let near = |x: f64, random: &mut Random| x.to_bits().wrapping_add(random.below(9)).wrapping_sub(4);
    match random.below(12) {
        0 | 1 => ((random.below(1 << 53) as f64) / 9007199254740992.0).to_bits(),
        2 => near(random.below(21) as f64 / 20.0, random),
        3 => near([0.825, 0.875, 0.9, 0.85, 0.95, 1.0][random.below(6) as usize], random),
        4 => {
            let digits = random.below(53);
            (1.0 - random.below(1 << digits) as f64 / 9007199254740992.0).to_bits()
        }
        5 => (-(random.below(1 << 53) as f64) / 2f64.powi(random.below(60) as i32)).to_bits(),
        6 => near([-9.0, -8.999999999999998, -4503599627370495.0, -1.0, -0.0][random.below(5) as usize], random),
        7 => (1 << 63) | (random.below(2047) << 52) | random.below(2) * random.below(1 << 52),
        8 => (random.below(1023) << 52) | random.below(2) * random.below(1 << 52),
        9 => (random.next() & 1 << 63) | random.below(1 << 52) >> random.below(52),
        10 => CORNERS[random.below(CORNERS.len() as u64) as usize],
        _ => random.next(),
    }
}

/// What function 1, 2 or 3 answers: refusal number, first and second pattern.
pub fn rust(function: u8, m: u64) -> (u8, u64, u64) {
    let m = f64::from_bits(m);
    let one = |r: Result<f64, u8>| match r {
        Ok(x) => (0, shown(x), 0),
        Err(n) => (n, 0, 0),
    };
    match function {
        1 => one(ellip::ellipk(m)),
        2 => one(ellip::ellipe(m)),
        _ => match ellip::ellipke(m) {
            Ok((k, e)) => (0, shown(k), shown(e)),
            Err(n) => (n, 0, 0),
        },
    }
}

/// Whether E at m goes by way of the logarithm (`ellipe_near_one`), which is no exact path.
pub fn by_logarithm(m: u64) -> bool {
    let m = f64::from_bits(m);
    let start = if m < 0.0 { 1.0 / (1.0 - m).sqrt() } else { (1.0 - m).sqrt() };
    m < 1.0 && m.is_finite() && (m < 0.0 || m > 0.5) && start <= f64::EPSILON.sqrt()
}
