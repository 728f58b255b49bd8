//! The float floor through the static library against the hardware: `oracle/run floor_compare [MILLIONS]`, 10 by default.
//! Each round tries every function on arguments of its own; the first ten differences are written out.
mod floor_cases;
mod library;
mod patterns;

use floor_cases::{argument, fused, single, triple, SINGLE};
use patterns::{shown, Random};

fn main() {
    let millions: u64 = std::env::args().nth(1).map_or(10, |n| n.parse().expect("a number of millions"));
    let mut random = Random(millions);
    let mut differ = 0u64;
    let mut report = |name: &str, arguments: &[u64], ours: u64, theirs: u64| {
        if ours != theirs {
            differ += 1;
            if differ <= 10 {
                println!("{name} of {arguments:x?}: {ours:016x}, the hardware {theirs:016x}");
            }
        }
    };
    for _ in 0..millions * 1_000_000 {
        for name in SINGLE {
            let x = argument(name, &mut random);
            report(name, &[x], library::single(name, x), shown(single(name, f64::from_bits(x))));
        }
        let t = triple(&mut random);
        report("fused", &t, library::fused(t), fused(t));
    }
    println!("{millions} million arguments of each of {} functions, {differ} differ", SINGLE.len() + 1);
    std::process::exit((differ > 0) as i32);
}
