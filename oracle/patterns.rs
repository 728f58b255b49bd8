//! Bit patterns worth trying, in a fixed order: the same seed gives the same list on every machine.
#![allow(dead_code)]

/// SplitMix64 (Steele, Lea, Flood 2014).
pub struct Random(pub u64);

impl Random {
    pub fn next(&mut self) -> u64 {
        self.0 = self.0.wrapping_add(0x9e37_79b9_7f4a_7c15);
        let mut z = self.0;
        z = (z ^ (z >> 30)).wrapping_mul(0xbf58_476d_1ce4_e5b9);
        z = (z ^ (z >> 27)).wrapping_mul(0x94d0_49bb_1331_11eb);
        z ^ (z >> 31)
    }

    pub fn below(&mut self, n: u64) -> u64 {
        ((self.next() as u128 * n as u128) >> 64) as u64
    }

    /// A float of any kind: all patterns alike, subnormal, few digits set, near a power of two, near 1, whole or half, extreme.
    pub fn pattern(&mut self) -> u64 {
        let r = self.next();
        let sign = r & (1 << 63);
        match self.below(10) {
            0..=2 => r,
            3 => sign | (r & 0xf_ffff_ffff_ffff) >> self.below(52),
            4 => sign | (self.below(2047) << 52) | (1 << self.below(52)),
            5 => (sign | (self.below(2047) << 52)).wrapping_add(self.below(5)).wrapping_sub(2),
            6 => sign | (0x3ff0_0000_0000_0000 + self.below(1 << 54)).wrapping_sub(1 << 53),
            7 => sign | ((self.below(1 << 20) as f64) / 2.0).to_bits(),
            8 => sign | (0x4320_0000_0000_0000 + self.below(1 << 54)),
            _ => CORNERS[self.below(CORNERS.len() as u64) as usize],
        }
    }
}

pub const CORNERS: [u64; 28] = [
    0x0000_0000_0000_0000,
    0x8000_0000_0000_0000,
    0x0000_0000_0000_0001,
    0x8000_0000_0000_0001,
    0x000f_ffff_ffff_ffff,
    0x0010_0000_0000_0000,
    0x0010_0000_0000_0001,
    0x001f_ffff_ffff_ffff,
    0x3fdf_ffff_ffff_ffff,
    0x3fe0_0000_0000_0000,
    0xbfe0_0000_0000_0000,
    0x3fef_ffff_ffff_ffff,
    0x3ff0_0000_0000_0000,
    0x3ff0_0000_0000_0001,
    0xbff0_0000_0000_0000,
    0x4000_0000_0000_0000,
    0x4004_0000_0000_0000,
    0xc004_0000_0000_0000,
    0x4330_0000_0000_0000,
    0x432f_ffff_ffff_ffff,
    0x7fe0_0000_0000_0000,
    0x7fef_ffff_ffff_ffff,
    0xffef_ffff_ffff_ffff,
    0x7ff0_0000_0000_0000,
    0xfff0_0000_0000_0000,
    0x7ff8_0000_0000_0000,
    0x7ff0_0000_0000_0001,
    0xffff_ffff_ffff_ffff,
];

/// The pattern of a result; a NaN of any pattern reads as 7ff8000000000000.
pub fn shown(x: f64) -> u64 {
    if x.is_nan() {
        0x7ff8_0000_0000_0000
    } else {
        x.to_bits()
    }
}
