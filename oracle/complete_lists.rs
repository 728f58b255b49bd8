//! Writes the stored list of K and E: `oracle/run complete_lists FOLDER`, by the f64 reading of the given Rust. A line is function
//! and refusal in one word, three arguments and two answers, all in hex.
mod complete_cases;
mod patterns;

use complete_cases::{argument, by_logarithm, rust};
use patterns::{Random, CORNERS};
use std::fmt::Write;

fn main() {
    let folder = std::env::args().nth(1).expect("the folder to write to");
    let mut random = Random(45);
    let mut text = String::new();
    let half = 0.5f64.to_bits();
    let mut arguments: Vec<u64> = CORNERS.to_vec();
    arguments.push(half);
    while arguments.len() < 1100 {
        let m = argument(&mut random);
        if !by_logarithm(m) {
            arguments.push(m);
        }
    }
    for &m in &arguments {
        for function in 1..=3u8 {
            let (refusal, first, second) = rust(function, m);
            writeln!(text, "{:016x} {m:016x} {:016x} {:016x} {first:016x} {second:016x}", function as u64 * 256 + refusal as u64, 0, 0).unwrap();
        }
    }
    std::fs::write(format!("{folder}/complete.txt"), text).unwrap();
}
