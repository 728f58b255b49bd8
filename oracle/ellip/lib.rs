/*
 * Ellip is licensed under The 3-Clause BSD, see LICENSE.
 * Copyright 2025, 2026 Sira Pornsiriprasert <code@psira.me>
 * This code is modified from Boost Math, see LICENSE in this directory.
 */

// Original header from Boost Math
//  Copyright (c) 2006 Xiaogang Zhang
//  Copyright (c) 2006 John Maddock
//  Copyright (c) 2024 Matt Borland
//  Use, modification and distribution are subject to the
//  Boost Software License, Version 1.0.

//! polyeval.rs, coeffs.rs, ellipk.rs, ellipe.rs, ellipke.rs and ellipf.rs of crate ellip 1.2.3 read at f64: the generics are f64, the
//! macros are written out, and an error is its refusal number (1: NaN, 2: m > 1, 3: m sin²φ ≥ 1; 0: the files' "Unexpected error").
//! Root, multiply-add and logarithm are the platform's. Built by rustc alone: `rustc --crate-type lib -O lib.rs`.
//! coeffs.rs is written by `make_coeffs.py` from the crate's.

pub mod coeffs;
pub mod ellipe;
pub mod ellipf;
pub mod ellipk;
pub mod ellipke;
pub mod polyeval;

pub use ellipe::ellipe;
pub use ellipf::ellipf;
pub use ellipk::ellipk;
pub use ellipke::ellipke;
