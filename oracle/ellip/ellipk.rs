/*
 * Ellip is licensed under The 3-Clause BSD, see LICENSE.
 * Copyright 2025 Sira Pornsiriprasert <code@psira.me>
 * This code is modified from Boost Math, see LICENSE in this directory.
 */

// Original header from Boost Math
//  Copyright (c) 2006 Xiaogang Zhang
//  Copyright (c) 2006 John Maddock
//  Copyright (c) 2024 Matt Borland
//  Use, modification and distribution are subject to the
//  Boost Software License, Version 1.0.

use crate::coeffs::*;
use crate::polyeval::polyeval;

pub fn ellipk(m: f64) -> Result<f64, u8> {
    // Negative parameters use the AGM, never the polynomial selector.
    if m < 0.0 && m.is_finite() {
        return ellipk_precise(m);
    }
    _ellipk(m)
}

#[inline]
pub fn _ellipk(m: f64) -> Result<f64, u8> {
    match to_i64(m * 20.0) {
        Some(0) | Some(1) => Ok(polyeval(m - 0.05, &K_0_1)),
        Some(2) | Some(3) => Ok(polyeval(m - 0.15, &K_2_3)),
        Some(4) | Some(5) => Ok(polyeval(m - 0.25, &K_4_5)),
        Some(6) | Some(7) => Ok(polyeval(m - 0.35, &K_6_7)),
        Some(8) | Some(9) => Ok(polyeval(m - 0.45, &K_8_9)),
        Some(10) | Some(11) => Ok(polyeval(m - 0.55, &K_10_11)),
        Some(12) | Some(13) => Ok(polyeval(m - 0.65, &K_12_13)),
        Some(14) | Some(15) => Ok(polyeval(m - 0.75, &K_14_15)),
        Some(16) => Ok(polyeval(m - 0.825, &K_16)),
        Some(17) => Ok(polyeval(m - 0.875, &K_17)),
        Some(_) => ellipk_precise(m),
        None => {
            if m.is_nan() {
                return Err(1);
            }
            if m == f64::NEG_INFINITY {
                return Ok(0.0);
            }
            if m > 1.0 {
                // Also handles inf
                return Err(2);
            }
            Err(0)
        }
    }
}

#[inline]
pub fn ellipk_precise(m: f64) -> Result<f64, u8> {
    // Special cases: https://dlmf.nist.gov/19.6.E1
    if m >= 1.0 {
        if m == 1.0 {
            return Ok(f64::INFINITY);
        }
        return Err(2);
    }

    Ok(ellipk_precise_unchecked(m))
}

#[inline]
pub fn ellipk_precise_unchecked(m: f64) -> f64 {
    let mut xn: f64 = 1.0;
    let mut yn = (1.0 - m).sqrt();
    let mut t;

    let tol = 1e-7;

    for _ in 0..MAX_ITERATION {
        let diff = (xn - yn).abs();
        if diff >= tol * xn.abs() {
            t = (xn * yn).sqrt();
            xn = (xn + yn) / 2.0;
            yn = t;
            continue;
        }
        break;
    }

    let diff = xn - yn;
    let sum = xn + yn;
    let corr = 1.0 - (diff * diff) / (4.0 * sum * sum);
    std::f64::consts::PI / (sum * corr)
}

const MAX_ITERATION: usize = 32;

/// num_traits' `to_i64`: the truncated value where it fits, nothing for NaN and beyond.
pub fn to_i64(x: f64) -> Option<i64> {
    if x >= -9223372036854775808.0 && x < 9223372036854775808.0 {
        Some(x as i64)
    } else {
        None
    }
}
