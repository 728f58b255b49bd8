/*
 * Ellip is licensed under The 3-Clause BSD, see LICENSE.
 * Copyright 2025 Sira Pornsiriprasert <code@psira.me>
 * This code is modified from Boost Math, see LICENSE in this directory.
 */

// Original header from Boost Math
//  Copyright (c) 2006 Xiaogang Zhang
//  Copyright (c) 2006 John Maddock
//  Copyright (c) 2024 Matt Borland
//  Use, modification and distribution are subject to the
//  Boost Software License, Version 1.0.

use crate::coeffs::*;
use crate::ellipk::to_i64;
use crate::polyeval::polyeval;

pub fn ellipe(m: f64) -> Result<f64, u8> {
    let mut m = m;
    let mut c: f64 = 1.0;
    if m < 0.0 {
        if m == f64::NEG_INFINITY {
            return Ok(f64::INFINITY);
        }
        // Negative m: Abramowitz & Stegun, 1972
        c = c * (1.0 - m).sqrt();
        m = m / (m - 1.0);
        if m >= 0.9 {
            // Retain the complementary modulus when the transformed m rounds to 1.
            return Ok(c * ellipe_agm_from_y0(1.0 / c));
        }
    }

    Ok(c * _ellipe(m)?)
}

#[inline]
pub fn _ellipe(m: f64) -> Result<f64, u8> {
    match to_i64(m * 20.0) {
        Some(0) | Some(1) => Ok(polyeval(m - 0.05, &E_0_1)),
        Some(2) | Some(3) => Ok(polyeval(m - 0.15, &E_2_3)),
        Some(4) | Some(5) => Ok(polyeval(m - 0.25, &E_4_5)),
        Some(6) | Some(7) => Ok(polyeval(m - 0.35, &E_6_7)),
        Some(8) | Some(9) => Ok(polyeval(m - 0.45, &E_8_9)),
        Some(10) | Some(11) => Ok(polyeval(m - 0.55, &E_10_11)),
        Some(12) | Some(13) => Ok(polyeval(m - 0.65, &E_12_13)),
        Some(14) | Some(15) => Ok(polyeval(m - 0.75, &E_14_15)),
        Some(16) => Ok(polyeval(m - 0.825, &E_16)),
        Some(17) => Ok(polyeval(m - 0.875, &E_17)),
        Some(_) => ellipe_precise(m),
        None => {
            if m.is_nan() {
                return Err(1);
            }
            if m > 1.0 {
                // Infinity cases
                return Err(2);
            }
            Err(0)
        }
    }
}

#[inline]
fn ellipe_precise(m: f64) -> Result<f64, u8> {
    // Special cases: https://dlmf.nist.gov/19.6.E1
    if m >= 1.0 {
        if m == 1.0 {
            return Ok(1.0);
        }
        return Err(2);
    }

    Ok(ellipe_agm_from_y0((1.0 - m).sqrt()))
}

#[inline]
pub fn ellipe_near_one(y0: f64) -> f64 {
    1.0 + (y0 * y0 / 2.0) * ((4.0f64).ln() - y0.ln() - 0.5)
}

#[inline]
fn ellipe_agm_from_y0(y0: f64) -> f64 {
    if y0 <= f64::EPSILON.sqrt() {
        return ellipe_near_one(y0);
    }
    let mut xn: f64 = 1.0;
    let mut yn = y0;
    let mean = (xn + yn) / 2.0;
    let mut e = mean * mean;
    let mut compensation = mean.mul_add(mean, -e);
    let mut sum_pow = 0.25;

    while (xn - yn).abs() >= 2.7 * f64::EPSILON * xn.abs() {
        let t = (xn * yn).sqrt();
        xn = (xn + yn) / 2.0;
        yn = t;
        sum_pow = sum_pow * 2.0;
        let correction = sum_pow * (xn - yn) * (xn - yn) - compensation;
        let next = e - correction;
        compensation = (e - next) - correction;
        e = next;
    }
    let rf = std::f64::consts::PI / (xn + yn);
    e * rf
}
