//! RF by docs/STEPS.md on the hardware: ellip's files call one that is not among them. The mean is formed from quarters, so that no sum overflows where the library scales its arguments
//! (docs/changes/00-wide.md); elsewhere that changes no bit.

/// NaN where 64 rounds do not meet the stop test.
pub fn rf(x: f64, y: f64, z: f64) -> f64 {
    let (mut x, mut y, mut z) = (x, y, z);
    let mut a = 4.0 * ((x / 4.0 + y / 4.0 + z / 4.0) / 3.0);
    let mut far = (a - x).abs().max((a - y).abs()).max((a - z).abs());
    for _ in 0..64 {
        if far < a / 512.0 {
            break;
        }
        let l = x.sqrt() * y.sqrt() + y.sqrt() * z.sqrt() + z.sqrt() * x.sqrt();
        (x, y, z, a, far) = ((x + l) / 4.0, (y + l) / 4.0, (z + l) / 4.0, (a + l) / 4.0, far / 4.0);
    }
    if !(far < a / 512.0) {
        return f64::NAN;
    }
    let (x, y) = ((a - x) / a, (a - y) / a);
    let z = -(x + y);
    let (e2, e3) = (x * y - z * z, x * y * z);
    (1.0 - e2 / 10.0 + e3 / 14.0 + e2 * e2 / 24.0 - 3.0 * e2 * e3 / 44.0) / a.sqrt()
}
