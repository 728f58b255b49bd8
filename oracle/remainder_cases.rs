//! The remainder as the C library's fmod has it, and pairs of arguments that are hard for it.
#![allow(dead_code)]

use crate::patterns::{shown, Random, CORNERS};
use std::f64::consts::{FRAC_PI_2, PI};

// Rust's own fmod would be linked in its place without the line that names the library.
mod c {
    #[link(name = "m")]
    unsafe extern "C" {
        pub safe fn fmod(x: f64, y: f64) -> f64;
    }
}

pub fn fmod(x: f64, y: f64) -> f64 {
    c::fmod(x, y)
}

pub fn remainder([x, y]: [u64; 2]) -> u64 {
    shown(fmod(f64::from_bits(x), f64::from_bits(y)))
}

/// Every two of the corners.
pub fn corners() -> impl Iterator<Item = [u64; 2]> {
    CORNERS.into_iter().flat_map(|x| CORNERS.into_iter().map(move |y| [x, y]))
}

/// Any two; near a multiple; equal in size or nearly; exponents as far apart as they go; both subnormal, or y alone; few exponents
/// apart; an angle by π/2, π or 2.
pub fn pair(random: &mut Random) -> [u64; 2] {
    const SIGN: u64 = 1 << 63;
    let subnormal = |random: &mut Random| (random.next() & SIGN) | (random.below(1 << 52) >> random.below(52));
    let float = |random: &mut Random, from: u64, count: u64| (random.next() & (SIGN | 0xf_ffff_ffff_ffff)) | (from + random.below(count)) << 52;
    let beside = |random: &mut Random, pattern: u64| pattern.wrapping_add(random.below(5)).wrapping_sub(2);
    match random.below(8) {
        0 => [random.pattern(), random.pattern()],
        1 => {
            let y = float(random, 60, 1900);
            let most = 1 << random.below(60);
            let multiple = f64::from_bits(y) * random.below(most) as f64;
            [beside(random, multiple.to_bits()), y]
        }
        2 => {
            let y = random.pattern();
            let x = beside(random, y) ^ random.next() & SIGN;
            [x, y]
        }
        3 => [float(random, 1900, 147), subnormal(random)],
        4 => [subnormal(random), subnormal(random)],
        5 => [float(random, 1, 60), subnormal(random)],
        6 => {
            let y = float(random, 1, 1900);
            let apart = random.below(120) << 52;
            [(random.next() & (SIGN | 0xf_ffff_ffff_ffff)) | ((y & 0x7ff0_0000_0000_0000) + apart), y]
        }
        _ => {
            let y = [FRAC_PI_2, PI, 2.0][random.below(3) as usize];
            [float(random, 1000, 76), y.to_bits()]
        }
    }
}
