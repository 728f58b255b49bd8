//! Numbers that look random and come again for the same seed, and bit patterns where mistakes hide.
use crate::model::{LARGEST, MINUS, NAN, ONE, PLUS, SIGN, TWO};

/// Steele, Lea and Flood's SplitMix64.
pub struct Random(pub u64);

impl Random {
    pub fn next(&mut self) -> u64 {
        self.0 = self.0.wrapping_add(0x9e37_79b9_7f4a_7c15);
        let z = (self.0 ^ self.0 >> 30).wrapping_mul(0xbf58_476d_1ce4_e5b9);
        let z = (z ^ z >> 27).wrapping_mul(0x94d0_49bb_1331_11eb);
        z ^ z >> 31
    }

    pub fn below(&mut self, n: u64) -> u64 {
        self.next() % n
    }

    pub fn one_of<T: Copy>(&mut self, choices: &[T]) -> T {
        choices[self.below(choices.len() as u64) as usize]
    }

    pub fn shuffle<T>(&mut self, list: &mut [T]) {
        for i in (1..list.len()).rev() {
            list.swap(i, self.below(i as u64 + 1) as usize);
        }
    }

    /// Any pattern; ends, NaNs, subnormals, and sizes near 1 are common.
    pub fn pattern(&mut self) -> u64 {
        let sign = SIGN * self.below(2);
        let digits = self.next() >> 12;
        match self.below(8) {
            0 => self.one_of(&[
                0,
                SIGN,
                1,
                SIGN + 1,
                LARGEST,
                SIGN + LARGEST,
                PLUS,
                MINUS,
                NAN,
                ONE,
                SIGN + ONE,
                ONE - 1,
                ONE + 1,
                TWO,
                (1 << 52) - 1,
                1 << 52,
            ]),
            1 => sign + digits,
            2 => sign + PLUS + digits,
            3 | 4 => self.next(),
            5 => sign + ((self.below(40) + 1000) << 52) + (digits >> 48 << 48),
            _ => sign + ((self.below(40) + 1000) << 52) + digits,
        }
    }

    /// How often a leg was driven; ends are common.
    pub fn times(&mut self) -> u16 {
        let any = self.next() as u16;
        self.one_of(&[0, 1, 1, 2, 255, 256, 0x8000, u16::MAX - 1, u16::MAX, any, any, any])
    }

    pub fn patterns(&mut self) -> [u64; 3] {
        [self.pattern(), self.pattern(), self.pattern()]
    }
}
