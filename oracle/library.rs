//! The proved library, by its C names. Numbers go over as bit patterns, so that every NaN may.
#![allow(dead_code)]

mod raw {
    #[link(name = "shuttlemint", kind = "static")]
    unsafe extern "C" {
        pub safe fn sm_magnitude(x: u64) -> u64;
        pub safe fn sm_trunc(x: u64) -> u64;
        pub safe fn sm_floor(x: u64) -> u64;
        pub safe fn sm_round(x: u64) -> u64;
        pub safe fn sm_root(x: u64) -> u64;
        pub safe fn sm_fused(x: u64, y: u64, z: u64) -> u64;
        pub safe fn sm_remainder(x: u64, y: u64) -> u64;
        pub safe fn sm_sine(x: u64) -> u64;
        pub safe fn sm_cosine(x: u64) -> u64;
        pub safe fn sm_logarithm(x: u64) -> u64;
        pub fn sm_blank(sheet: *mut u8, len: usize, rows: u32) -> u8;
        pub fn sm_edit(sheet: *mut u8, len: usize, row: u32, function: u8, a: u64, b: u64, c: u64, times: u16) -> u8;
        pub fn sm_evaluate(function: u8, a: u64, b: u64, c: u64, out: *mut u64, len: usize) -> u8;
    }
}

pub fn single(name: &str, x: u64) -> u64 {
    match name {
        "magnitude" => raw::sm_magnitude(x),
        "trunc" => raw::sm_trunc(x),
        "floor" => raw::sm_floor(x),
        "round" => raw::sm_round(x),
        "root" => raw::sm_root(x),
        _ => unreachable!(),
    }
}

pub fn root(x: f64) -> f64 {
    f64::from_bits(raw::sm_root(x.to_bits()))
}

pub fn sine(x: f64) -> f64 {
    f64::from_bits(raw::sm_sine(x.to_bits()))
}

pub fn cosine(x: f64) -> f64 {
    f64::from_bits(raw::sm_cosine(x.to_bits()))
}

pub fn logarithm(x: f64) -> f64 {
    f64::from_bits(raw::sm_logarithm(x.to_bits()))
}

pub fn fused([x, y, z]: [u64; 3]) -> u64 {
    raw::sm_fused(x, y, z)
}

pub fn remainder([x, y]: [u64; 2]) -> u64 {
    raw::sm_remainder(x, y)
}

pub fn remainder_of(x: f64, y: f64) -> f64 {
    f64::from_bits(raw::sm_remainder(x.to_bits(), y.to_bits()))
}

/// Refusal number, first and second answer's patterns.
pub fn evaluate(function: u8, a: u64, b: u64, c: u64) -> (u8, u64, u64) {
    let mut out = [0u64; 2];
    // SAFETY: the two numbers are lent for the call.
    let refusal = unsafe { raw::sm_evaluate(function, a, b, c, out.as_mut_ptr(), out.len()) };
    (refusal, out[0], out[1])
}

pub fn blank(sheet: &mut [u8], rows: u32) -> u8 {
    // SAFETY: the bytes are lent for the call, here and below.
    unsafe { raw::sm_blank(sheet.as_mut_ptr(), sheet.len(), rows) }
}

pub fn edit(sheet: &mut [u8], row: u32, function: u8, arguments: [u64; 3], times: u16) -> u8 {
    let [a, b, c] = arguments;
    unsafe { raw::sm_edit(sheet.as_mut_ptr(), sheet.len(), row, function, a, b, c, times) }
}
