/*
 * Ellip is licensed under The 3-Clause BSD, see LICENSE.
 * Copyright 2025 Sira Pornsiriprasert <code@psira.me>
 * This code is modified from Boost Math, see LICENSE in this directory.
 */

// Original header from Boost Math
//  Copyright (c) 2006 Xiaogang Zhang
//  Copyright (c) 2006 John Maddock
//  Copyright (c) 2024 Matt Borland
//  Use, modification and distribution are subject to the
//  Boost Software License, Version 1.0.

use std::f64::consts::FRAC_PI_2;

use crate::ellipk::ellipk_precise_unchecked;

/// `elliprf_unchecked` is in none of the given files: the caller hands one in.
pub fn ellipf(phi: f64, m: f64, elliprf_unchecked: impl Fn(f64, f64, f64) -> f64) -> Result<f64, u8> {
    if phi.is_nan() || m.is_nan() {
        return Err(1);
    }
    if m == 0.0 {
        return Ok(phi);
    }
    if m >= 1.0 && (phi.abs() >= FRAC_PI_2 || m * phi.sin().powi(2) >= 1.0) {
        return Err(3);
    }
    let sign = phi.signum();
    let phi = phi.abs();

    if phi > 1.0 / f64::EPSILON {
        if phi.is_infinite() {
            return Ok(sign * f64::INFINITY);
        }
        return Ok(sign * phi * (ellipk_precise_unchecked(m) / FRAC_PI_2));
    }

    let mut rphi = phi % FRAC_PI_2;
    let mut mm = ((phi - rphi) / FRAC_PI_2).round();

    let mut s = 1.0;
    if mm % 2.0 > 0.5 {
        mm = mm + 1.0;
        s = -1.0;
        rphi = FRAC_PI_2 - rphi;
    }

    let sphi = rphi.sin();
    let s2p = sphi * sphi;
    if m * s2p >= 1.0 {
        return Err(3);
    }
    let cphi = rphi.cos();
    let c2p = cphi * cphi;
    let mut ans;

    let c = s2p.recip();
    let c_minus_one = c2p / s2p;
    let arg2 = if m != 0.0 {
        let cross = (c / m).abs();
        if cross > 0.9 && cross < 1.1 {
            c_minus_one + 1.0 - m
        } else {
            c - m
        }
    } else {
        c
    };
    ans = if c.is_infinite() {
        s * sphi * elliprf_unchecked(c2p, 1.0 - (m * sphi) * sphi, 1.0)
    } else {
        s * elliprf_unchecked(c_minus_one, arg2, c)
    };

    if mm != 0.0 {
        ans = ans + mm * ellipk_precise_unchecked(m);
    }

    ans = sign * ans;
    if ans.is_finite() {
        return Ok(ans);
    }
    if m == f64::NEG_INFINITY {
        return Ok(0.0);
    }
    Err(0)
}
