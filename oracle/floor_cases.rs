//! The float floor's functions by name, as the hardware and the standard library have them, and arguments that are hard for each.

use crate::patterns::{shown, Random};

pub const SINGLE: [&str; 5] = ["magnitude", "trunc", "floor", "round", "root"];

pub fn single(name: &str, x: f64) -> f64 {
    match name {
        "magnitude" => x.abs(),
        "trunc" => x.trunc(),
        "floor" => x.floor(),
        "round" => x.round(),
        "root" => x.sqrt(),
        _ => unreachable!(),
    }
}

/// An argument for a function of one: for the root also squares and their neighbours, where a tie is nearly met.
pub fn argument(name: &str, random: &mut Random) -> u64 {
    if name == "root" && random.below(3) == 0 {
        let x = f64::from_bits(0x3ff0_0000_0000_0000 + random.below(1 << 52));
        let middle = x + x * f64::EPSILON / 2.0 * random.below(2) as f64;
        let square = (middle * middle).to_bits().wrapping_add(random.below(3)).wrapping_sub(1);
        return square.wrapping_add(random.below(1000) << 52);
    }
    random.pattern()
}

/// Three arguments: any; a sum that cancels; a product just beside half a place of the sum; results near overflow and below the normal range.
pub fn triple(random: &mut Random) -> [u64; 3] {
    let scale = |random: &mut Random, centre: u64, spread: u64| {
        let exponent = centre + random.below(2 * spread) - spread;
        f64::from_bits((random.next() & 0x800f_ffff_ffff_ffff) | exponent << 52)
    };
    match random.below(6) {
        0 | 1 => [random.pattern(), random.pattern(), random.pattern()],
        2 => {
            let (x, y) = (scale(random, 1023, 500), scale(random, 1023, 500));
            let z = f64::from_bits((-(x * y)).to_bits().wrapping_add(random.below(3)).wrapping_sub(1));
            [x, y, z].map(f64::to_bits)
        }
        3 => {
            let z = scale(random, 1023, 300);
            let half = z.abs() * f64::EPSILON / 2.0;
            let x = scale(random, 1023, 200);
            let y = half / x * [1.0, -1.0, 0.5, 1.0 + f64::EPSILON][random.below(4) as usize];
            [x, y, z].map(f64::to_bits)
        }
        4 => {
            let x = scale(random, 1533, 12);
            let y = scale(random, 1534, 12);
            [x, y, scale(random, 2040, 6)].map(f64::to_bits)
        }
        _ => {
            let x = scale(random, 500, 40);
            let y = scale(random, 500, 40);
            let z = (random.next() & 0x800f_ffff_ffff_ffff) >> random.below(2) * random.below(50);
            [x.to_bits(), y.to_bits(), z]
        }
    }
}

pub fn fused([x, y, z]: [u64; 3]) -> u64 {
    shown(f64::from_bits(x).mul_add(f64::from_bits(y), f64::from_bits(z)))
}
