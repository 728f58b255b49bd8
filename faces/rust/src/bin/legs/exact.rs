//! A sum of floats, exactly: what a sheet's 272 bytes of total are, and the one rounding at its end.
//!
//! A sheet's total is proved to be the exact sum of its rows. The totals of several sheets are added here limb by limb, as the format has
//! them (modulo 2^2176, in two's complement), so nothing is lost before `times` rounds. The tests hold `times` to the library's own rounding.

const LIMBS: usize = 34;
const INFINITY: u64 = 0x7ff0_0000_0000_0000;

/// A whole number of units of 2^-1074, modulo 2^2176, lowest limb first.
#[derive(Clone, Debug, PartialEq)]
pub struct Exact([u64; LIMBS]);

/// A float's whole digits and the power of two that they count.
fn parts(x: f64) -> (u64, i32) {
    let digits = x.to_bits() & ((1 << 52) - 1);
    match (x.to_bits() >> 52 & 0x7ff) as i32 {
        0 => (digits, -1074),
        field => (digits | 1 << 52, field - 1075),
    }
}

impl Exact {
    pub const ZERO: Exact = Exact([0; LIMBS]);

    /// The last 272 bytes of a sheet.
    pub fn of_sheet(sheet: &[u8]) -> Exact {
        let mut limbs = [0; LIMBS];
        let total = &sheet[sheet.len() - 8 * LIMBS..];
        for (limb, bytes) in limbs.iter_mut().zip(total.chunks_exact(8)) {
            *limb = u64::from_le_bytes(bytes.try_into().expect("8 bytes"));
        }
        Exact(limbs)
    }

    /// A finite float; an infinity or NaN is none.
    pub fn of(x: f64) -> Option<Exact> {
        if !x.is_finite() {
            return None;
        }
        let (digits, power) = parts(x);
        let shift = (power + 1074) as usize;
        let wide = (digits as u128) << (shift % 64);
        let mut limbs = [0; LIMBS];
        limbs[shift / 64] = wide as u64;
        limbs[shift / 64 + 1] = (wide >> 64) as u64;
        Some(if x < 0.0 { Exact(negated(limbs)) } else { Exact(limbs) })
    }

    pub fn add(&mut self, other: &Exact) {
        let mut carry = false;
        for (limb, more) in self.0.iter_mut().zip(other.0) {
            let (sum, over) = limb.overflowing_add(more);
            let (sum, over_again) = sum.overflowing_add(carry as u64);
            (*limb, carry) = (sum, over || over_again);
        }
    }

    /// The product with a finite scale above 0, rounded once to nearest, ties to even: too large is infinite, an exact zero is +0.
    pub fn times(&self, scale: f64) -> f64 {
        let negative = self.0[LIMBS - 1] >> 63 == 1;
        let size = if negative { negated(self.0) } else { self.0 };
        let (digits, power) = parts(scale);
        let product = product(&size, digits);
        let Some(length) = length(&product) else { return 0.0 };

        // The product counts units of 2^(power - 1074). What stays is 53 digits of it, or fewer where the float's last place is 2^-1074.
        let drop = (length as i32 - 53).max(-power);
        let kept = if drop < 0 { product[0] << -drop } else { rounded(&product, drop as usize) };
        // A carry out of the digits falls into the exponent's field, and an exponent past the last is an infinity.
        let pattern = if kept < 1 << 52 { kept } else { (((power + drop) as u64) << 52) + kept };
        f64::from_bits(pattern.min(INFINITY) | (negative as u64) << 63)
    }
}

fn negated(mut limbs: [u64; LIMBS]) -> [u64; LIMBS] {
    let mut carry = true;
    for limb in &mut limbs {
        (*limb, carry) = (!*limb).overflowing_add(carry as u64);
    }
    limbs
}

fn product(size: &[u64; LIMBS], digits: u64) -> [u64; LIMBS + 1] {
    let mut product = [0; LIMBS + 1];
    let mut carry = 0;
    for (limb, &of) in product.iter_mut().zip(size) {
        let wide = of as u128 * digits as u128 + carry;
        (*limb, carry) = (wide as u64, wide >> 64);
    }
    product[LIMBS] = carry as u64;
    product
}

/// How many binary digits it has; none for zero.
fn length(limbs: &[u64]) -> Option<usize> {
    let top = limbs.iter().rposition(|&limb| limb != 0)?;
    Some(64 * top + 64 - limbs[top].leading_zeros() as usize)
}

/// Without its lowest `drop` digits, rounded to nearest, ties to even. At most 53 digits stay.
fn rounded(limbs: &[u64], drop: usize) -> u64 {
    let limb = |k: usize| limbs.get(k).copied().unwrap_or(0);
    let (k, shift) = (drop / 64, drop % 64);
    let kept = ((limb(k) as u128 | (limb(k + 1) as u128) << 64) >> shift) as u64;
    if drop == 0 {
        return kept;
    }
    let (k, bit) = ((drop - 1) / 64, (drop - 1) % 64);
    let half = limb(k) >> bit & 1 == 1;
    let below = limb(k) & ((1 << bit) - 1) != 0 || limbs.iter().take(k).any(|&limb| limb != 0);
    kept + (half && (below || kept % 2 == 1)) as u64
}

#[cfg(test)]
mod tests {
    use super::*;
    use shuttlemint::Sheet;

    /// Steele, Lea and Flood's SplitMix64.
    struct Random(u64);

    impl Random {
        fn next(&mut self) -> u64 {
            self.0 = self.0.wrapping_add(0x9e37_79b9_7f4a_7c15);
            let z = (self.0 ^ self.0 >> 30).wrapping_mul(0xbf58_476d_1ce4_e5b9);
            let z = (z ^ z >> 27).wrapping_mul(0x94d0_49bb_1331_11eb);
            z ^ z >> 31
        }

        /// Any finite float: every size alike, digits often few, so that ties come.
        fn float(&mut self) -> f64 {
            let digits = self.next() >> 12;
            let digits = if self.next() >> 63 == 0 { digits } else { digits >> 40 << 40 };
            let field = match self.next() % 4 {
                0 => self.next() % 3,
                1 => 2046 - self.next() % 3,
                2 => 1023 + self.next() % 60,
                _ => self.next() % 2047,
            };
            f64::from_bits(self.next() >> 63 << 63 | field << 52 | digits)
        }
    }

    /// The library's own rounding of these limbs: of a sheet without rows whose total they are.
    fn by_the_library(exact: &Exact) -> f64 {
        let mut bytes = Sheet::blank(0).unwrap().into_bytes();
        let at = bytes.len() - 8 * LIMBS;
        for (k, limb) in exact.0.iter().enumerate() {
            bytes[at + 8 * k..at + 8 * k + 8].copy_from_slice(&limb.to_le_bytes());
        }
        assert_eq!(Exact::of_sheet(&bytes), *exact);
        Sheet::from_bytes(bytes).unwrap().total()
    }

    #[test]
    fn a_float_times_a_float_is_the_processor_s() {
        let mut random = Random(1);
        for _ in 0..200_000 {
            let (x, scale) = (random.float(), random.float().abs().max(f64::from_bits(1)));
            let expected = if x == 0.0 { 0.0 } else { x * scale };
            assert_eq!(Exact::of(x).unwrap().times(scale).to_bits(), expected.to_bits(), "{x:e} times {scale:e}");
        }
    }

    #[test]
    fn a_sum_of_two_is_the_processor_s() {
        let mut random = Random(2);
        for k in 0..200_000 {
            let x = random.float();
            // Near in size, so that digits cancel, or anywhere.
            let near = -x * (1.0 + random.next() as f64 * 2f64.powi(-70));
            let y = if k % 2 == 0 || !near.is_finite() { random.float() } else { near };
            let (mut sum, y_exact) = (Exact::of(x).unwrap(), Exact::of(y).unwrap());
            sum.add(&y_exact);
            let expected = if x + y == 0.0 { 0.0 } else { x + y };
            assert_eq!(sum.times(1.0).to_bits(), expected.to_bits(), "{x:e} plus {y:e}");
        }
    }

    #[test]
    fn any_limbs_are_rounded_as_the_library_does() {
        let mut random = Random(3);
        for k in 0..100_000 {
            let mut limbs = [0; LIMBS];
            // Stretches of zeros, ones and anything, from any place on, and with the sign carried up.
            for limb in &mut limbs {
                *limb = [0, 0, u64::MAX, random.next(), 1 << (random.next() % 64)][random.next() as usize % 5];
            }
            let top = random.next() as usize % LIMBS;
            limbs[top..].fill(if k % 2 == 0 { 0 } else { u64::MAX });
            let exact = Exact(limbs);
            assert_eq!(exact.times(1.0).to_bits(), by_the_library(&exact).to_bits(), "{limbs:x?}");
        }
    }

    #[test]
    fn edges() {
        let of = |floats: &[f64]| {
            let mut sum = Exact::ZERO;
            floats.iter().for_each(|&x| sum.add(&Exact::of(x).unwrap()));
            assert_eq!(sum.times(1.0).to_bits(), by_the_library(&sum).to_bits());
            sum
        };
        let largest = f64::MAX;
        assert_eq!(of(&[]).times(7.0).to_bits(), 0);
        assert_eq!(of(&[-0.0]).times(7.0).to_bits(), 0);
        assert_eq!(of(&[largest, largest]).times(1.0), f64::INFINITY);
        assert_eq!(of(&[largest, largest]).times(0.5), largest);
        assert_eq!(of(&[-largest, -largest]).times(f64::MAX), f64::NEG_INFINITY);
        assert_eq!(of(&[largest, 2f64.powi(970)]).times(1.0), f64::INFINITY);
        assert_eq!(of(&[largest, 2f64.powi(970), -f64::from_bits(1)]).times(1.0), largest);
        assert_eq!(of(&[1e300, 1.0, -1e300]).times(6356752.314245179), 6356752.314245179);
        assert_eq!(of(&[f64::from_bits(3)]).times(0.5), f64::from_bits(2)); // 1.5 units: a tie, to even
        assert_eq!(of(&[f64::from_bits(1)]).times(0.5), 0.0); // half a unit: a tie, to even
        assert_eq!(of(&[f64::from_bits(1)]).times(0.75), f64::from_bits(1));
        assert_eq!(of(&[f64::from_bits(1)]).times(f64::from_bits(1)), 0.0);
        assert_eq!(of(&[2f64.powi(53), 1.0]).times(1.0), 2f64.powi(53)); // ties to even, both ways
        assert_eq!(of(&[2f64.powi(53), 3.0]).times(1.0), 2f64.powi(53) + 4.0);
        assert_eq!(Exact::of(f64::NAN), None);
        assert_eq!(Exact::of(f64::INFINITY), None);
        // Modulo 2^2176: as many times the largest as there are sheets of them, and back.
        let mut sum = of(&[largest; 1024]);
        for _ in 0..1024 {
            sum.add(&Exact::of(-largest).unwrap());
        }
        assert_eq!(sum, Exact::ZERO);
    }
}
