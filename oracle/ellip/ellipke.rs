/*
 * Ellip is licensed under The 3-Clause BSD, see LICENSE.
 * Copyright 2026 Sira Pornsiriprasert <code@psira.me>
 */

use crate::coeffs::*;
use crate::ellipk::to_i64;
use crate::polyeval::polyeval;

pub fn ellipke(m: f64) -> Result<(f64, f64), u8> {
    if m < 0.0 && m.is_finite() {
        let c = (1.0 - m).sqrt();
        let m1 = m / (m - 1.0);
        if m1 >= 0.9 {
            // Complementary parameter mc1 = 1 - m1 = 1 / (1 - m) = 1 / c^2.
            // Passing y0 = 1 / c directly avoids catastrophic cancellation near 1.
            let (k1, e1) = ellipke_agm_from_y0(1.0 / c);
            return Ok((k1 / c, c * e1));
        }
        let (k1, e1) = _ellipke(m1)?;
        return Ok((k1 / c, c * e1));
    }

    _ellipke(m)
}

#[inline]
fn _ellipke(m: f64) -> Result<(f64, f64), u8> {
    match to_i64(m * 20.0) {
        Some(0) | Some(1) => {
            let delta = m - 0.05;
            Ok((
                polyeval(delta, &K_0_1),
                polyeval(delta, &E_0_1),
            ))
        }
        Some(2) | Some(3) => {
            let delta = m - 0.15;
            Ok((
                polyeval(delta, &K_2_3),
                polyeval(delta, &E_2_3),
            ))
        }
        Some(4) | Some(5) => {
            let delta = m - 0.25;
            Ok((
                polyeval(delta, &K_4_5),
                polyeval(delta, &E_4_5),
            ))
        }
        Some(6) | Some(7) => {
            let delta = m - 0.35;
            Ok((
                polyeval(delta, &K_6_7),
                polyeval(delta, &E_6_7),
            ))
        }
        Some(8) | Some(9) => {
            let delta = m - 0.45;
            Ok((
                polyeval(delta, &K_8_9),
                polyeval(delta, &E_8_9),
            ))
        }
        Some(10) | Some(11) => {
            let delta = m - 0.55;
            Ok((
                polyeval(delta, &K_10_11),
                polyeval(delta, &E_10_11),
            ))
        }
        Some(12) | Some(13) => {
            let delta = m - 0.65;
            Ok((
                polyeval(delta, &K_12_13),
                polyeval(delta, &E_12_13),
            ))
        }
        Some(14) | Some(15) => {
            let delta = m - 0.75;
            Ok((
                polyeval(delta, &K_14_15),
                polyeval(delta, &E_14_15),
            ))
        }
        Some(16) => {
            let delta = m - 0.825;
            Ok((
                polyeval(delta, &K_16),
                polyeval(delta, &E_16),
            ))
        }
        Some(17) => {
            let delta = m - 0.875;
            Ok((
                polyeval(delta, &K_17),
                polyeval(delta, &E_17),
            ))
        }
        Some(_) => {
            if m < 1.0 {
                Ok(ellipke_agm(m))
            } else if m == 1.0 {
                Ok((f64::INFINITY, 1.0))
            } else {
                Err(2)
            }
        }
        None => {
            if m.is_nan() {
                return Err(1);
            }
            if m == f64::NEG_INFINITY {
                return Ok((0.0, f64::INFINITY));
            }
            if m > 1.0 {
                return Err(2);
            }
            Err(0)
        }
    }
}

#[inline]
pub fn ellipke_agm_from_y0(y0: f64) -> (f64, f64) {
    let mut xn: f64 = 1.0;
    let mut yn = y0;
    let mean = (xn + yn) / 2.0;
    let mut e = mean * mean;
    let mut compensation = mean.mul_add(mean, -e);
    let mut sum_pow = 0.25;

    let tol = f64::EPSILON.sqrt();

    for _ in 0..32 {
        let diff = (xn - yn).abs();
        if diff >= tol * xn.abs() {
            let t = (xn * yn).sqrt();
            xn = (xn + yn) / 2.0;
            yn = t;
            sum_pow = sum_pow * 2.0;
            let correction = sum_pow * (xn - yn) * (xn - yn) - compensation;
            let next = e - correction;
            compensation = (e - next) - correction;
            e = next;
            continue;
        }
        break;
    }

    let diff = xn - yn;
    let s = xn + yn;
    let corr = 1.0 - (diff * diff) / (4.0 * s * s);
    let k = std::f64::consts::PI / (s * corr);
    let e = if y0 <= tol {
        crate::ellipe::ellipe_near_one(y0)
    } else {
        e * (std::f64::consts::PI / s)
    };
    (k, e)
}

#[inline]
pub fn ellipke_agm(m: f64) -> (f64, f64) {
    ellipke_agm_from_y0((1.0 - m).sqrt())
}
