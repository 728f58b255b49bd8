//! The remainder through the static library against the C library's fmod: `oracle/run remainder_compare [MILLIONS]`, 10 by default.
//! Every two corners, then pairs of all kinds; the first ten differences are written out.
mod library;
mod patterns;
mod remainder_cases;

use patterns::Random;
use remainder_cases::{corners, pair, remainder};

fn main() {
    let millions: u64 = std::env::args().nth(1).map_or(10, |n| n.parse().expect("a number of millions"));
    let mut random = Random(millions);
    let mut differ = 0u64;
    let more = (0..millions * 1_000_000).map(|_| pair(&mut random));
    for p in corners().chain(more) {
        let (ours, theirs) = (library::remainder(p), remainder(p));
        if ours != theirs {
            differ += 1;
            if differ <= 10 {
                println!("remainder of {p:x?}: {ours:016x}, fmod {theirs:016x}");
            }
        }
    }
    println!("{} corner pairs and {millions} million others, {differ} differ", corners().count());
    std::process::exit((differ > 0) as i32);
}
