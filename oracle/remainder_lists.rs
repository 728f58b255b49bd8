//! Writes the stored list of the remainder: `oracle/run remainder_lists FOLDER`, by the C library's fmod. A line is the arguments'
//! patterns and the result's.
mod patterns;
mod remainder_cases;

use patterns::Random;
use remainder_cases::{corners, pair, remainder};
use std::fmt::Write;

fn main() {
    let folder = std::env::args().nth(1).expect("the folder to write to");
    let mut random = Random(20_261_115);
    let mut text = String::new();
    let more = std::iter::repeat_with(|| pair(&mut random));
    for p in corners().chain(more).take(2000) {
        writeln!(text, "{:016x} {:016x} {:016x}", p[0], p[1], remainder(p)).unwrap();
    }
    std::fs::write(format!("{folder}/remainder.txt"), text).unwrap();
}
