//! Writes the stored lists of the float floor: `oracle/run floor_lists FOLDER`, by the hardware's root and multiply-add and the
//! standard library's abs, trunc, floor and round. A line is the arguments' patterns and the result's.
mod floor_cases;
mod patterns;

use floor_cases::{argument, fused, single, triple, SINGLE};
use patterns::{shown, Random, CORNERS};
use std::fmt::Write;

fn main() {
    let folder = std::env::args().nth(1).expect("the folder to write to");
    let mut random = Random(20_261_115);
    for name in SINGLE {
        let count = if name == "root" { 2400 } else { 600 };
        let mut text = String::new();
        for i in 0..count {
            let x = if i < CORNERS.len() { CORNERS[i] } else { argument(name, &mut random) };
            let r = shown(single(name, f64::from_bits(x)));
            writeln!(text, "{x:016x} {r:016x}").unwrap();
        }
        std::fs::write(format!("{folder}/{name}.txt"), text).unwrap();
    }
    let mut text = String::new();
    for i in 0..2400 {
        let n = CORNERS.len();
        let t = if i < 3 * n {
            [CORNERS[i % n], CORNERS[(i * 7 + i / n) % n], CORNERS[(i * 11 + 5) % n]]
        } else {
            triple(&mut random)
        };
        writeln!(text, "{:016x} {:016x} {:016x} {:016x}", t[0], t[1], t[2], fused(t)).unwrap();
    }
    std::fs::write(format!("{folder}/fused.txt"), text).unwrap();
}
