//! The answers that oracle/errors.py measures: `oracle/run error_answers < POINTS`.
//! A line of POINTS has a function's number, two arguments and the modulus k with k² = m, or `-` where there is none; numbers as 16 hex digits. For each the patterns of the first and the
//! second answer are printed, `-` for none, of: the proved library; ellip's files on the hardware (oracle/ellip); Boost.Math as it comes; Boost.Math in double alone.
//! ellip's RF is in none of the given files: RF here is docs/STEPS.md's, on the hardware (rf.rs).
//! c++: error_boost
mod library;
mod rf;

use rf::rf;
use std::io::{BufRead, Write};

#[link(name = "error_boost", kind = "static")]
#[link(name = "stdc++")]
unsafe extern "C" {
    safe fn boost_k(k: f64) -> f64;
    safe fn boost_e(k: f64) -> f64;
    safe fn boost_pi(n: f64, k: f64) -> f64;
    safe fn boost_einc(phi: f64, k: f64) -> f64;
    safe fn boost_f(phi: f64, k: f64) -> f64;
    safe fn plain_k(k: f64) -> f64;
    safe fn plain_e(k: f64) -> f64;
    safe fn plain_pi(n: f64, k: f64) -> f64;
    safe fn plain_einc(phi: f64, k: f64) -> f64;
    safe fn plain_f(phi: f64, k: f64) -> f64;
}

type Answers = [Option<f64>; 2];
const NONE: Answers = [None, None];

fn one(x: f64) -> Answers {
    [Some(x), None]
}

fn proved(function: u8, a: f64, b: f64) -> Answers {
    match library::evaluate(function, a.to_bits(), b.to_bits(), 0) {
        (0, first, second) => [Some(f64::from_bits(first)), (function == 3).then(|| f64::from_bits(second))],
        _ => NONE,
    }
}

fn given(function: u8, a: f64, b: f64) -> Answers {
    match function {
        1 => ellip::ellipk(a).map_or(NONE, one),
        2 => ellip::ellipe(a).map_or(NONE, one),
        3 => ellip::ellipke(a).map_or(NONE, |(k, e)| [Some(k), Some(e)]),
        6 => ellip::ellipf(a, b, rf).map_or(NONE, one),
        _ => NONE,
    }
}

fn boost(function: u8, a: f64, k: f64) -> [Answers; 2] {
    match function {
        1 => [one(boost_k(k)), one(plain_k(k))],
        2 => [one(boost_e(k)), one(plain_e(k))],
        3 => [[Some(boost_k(k)), Some(boost_e(k))], [Some(plain_k(k)), Some(plain_e(k))]],
        4 if a < 1.0 => [one(boost_pi(a, k)), one(plain_pi(a, k))],
        5 => [one(boost_einc(a, k)), one(plain_einc(a, k))],
        6 => [one(boost_f(a, k)), one(plain_f(a, k))],
        _ => [NONE, NONE],
    }
}

fn main() {
    let mut out = std::io::stdout().lock();
    for line in std::io::stdin().lock().lines() {
        let line = line.expect("text");
        let words: Vec<&str> = line.split(' ').collect();
        let number = |i: usize| u64::from_str_radix(words[i], 16).map(f64::from_bits).ok();
        let function: u8 = words[0].parse().expect("a function's number");
        let (a, b) = (number(1).expect("16 hex digits"), number(2).expect("16 hex digits"));
        let boost = number(3).map_or([NONE, NONE], |k| boost(function, a, k));
        let answers = [proved(function, a, b), given(function, a, b), boost[0], boost[1]];
        let shown: Vec<String> = answers.iter().flatten().map(|x| x.map_or("-".into(), |x| format!("{:016x}", x.to_bits()))).collect();
        writeln!(out, "{}", shown.join(" ")).expect("standard output takes it");
    }
}
