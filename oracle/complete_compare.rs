//! K and E through the static library against the f64 reading of the given Rust: `oracle/run complete_compare [MILLIONS]`, 10 by
//! default. Bits must agree on exact paths; where E goes by way of the logarithm the largest relative difference is shown.
mod complete_cases;
mod library;
mod patterns;

use complete_cases::{argument, by_logarithm, rust};
use patterns::Random;

fn main() {
    let millions: u64 = std::env::args().nth(1).map_or(10, |n| n.parse().expect("a number of millions"));
    let mut random = Random(millions);
    let (mut differ, mut logarithms, mut largest) = (0u64, 0u64, 0f64);
    for _ in 0..millions * 1_000_000 {
        let m = argument(&mut random);
        let near = by_logarithm(m);
        for function in 1..=3u8 {
            let ours = library::evaluate(function, m, 0, 0);
            let theirs = rust(function, m);
            if ours == theirs {
                continue;
            }
            let e = |(_, first, second): (u8, u64, u64)| f64::from_bits(if function == 3 { second } else { first });
            if near && function > 1 && ours.0 == theirs.0 && (function == 2 || ours.1 == theirs.1) {
                logarithms += 1;
                largest = largest.max(((e(ours) - e(theirs)) / e(theirs)).abs());
                continue;
            }
            differ += 1;
            if differ <= 10 {
                println!("function {function} at {m:016x}: {ours:x?}, the Rust {theirs:x?}");
            }
        }
    }
    println!("{millions} million arguments of ellipk, ellipe and ellipke: {differ} differ in bits on exact paths;");
    println!("by way of the logarithm {logarithms} differ, by at most {largest:e} relative");
    std::process::exit((differ > 0) as i32);
}
