//! The night run (02, [11]): 1,024 rows of ellipke, m spread evenly from -10 to 0.999, in one run with the same in Rust. The team's program has the same tables and
//! iteration (ellip/, the f64 reading of the given files) and its root and multiply-add in integers: the root by u128::isqrt, or by digits with a branch on each.
//! It keeps both answers of each row and adds up the first ones. The library does that, and then what a night run really does: a sheet of 1,024 rows, made blank, every row
//! edited, and its exact total.
//! twin: fused
#[path = "target/by_digits/lib.rs"]
#[allow(unused_imports, dead_code)]
mod by_digits;
#[path = "target/by_isqrt/lib.rs"]
#[allow(unused_imports, dead_code)]
mod by_isqrt;
mod library;

use std::hint::black_box;
use std::time::Instant;

const ROWS: usize = 1024;

fn by_rust(ellipke: impl Fn(f64) -> Result<(f64, f64), u8>, ms: &[f64], rows: &mut [(f64, f64)]) -> f64 {
    let mut total = 0.0;
    for (&m, row) in ms.iter().zip(rows) {
        *row = ellipke(black_box(m)).unwrap();
        total += row.0;
    }
    total
}

fn main() {
    let ms: Vec<f64> = (0..ROWS).map(|i| -10.0 + 10.999 * i as f64 / (ROWS - 1) as f64).collect();
    let ours: Vec<(u8, u64, u64)> = ms.iter().map(|m| library::evaluate(3, m.to_bits(), 0, 0)).collect();
    for (&m, &(refusal, k, e)) in ms.iter().zip(&ours) {
        for (name, (a, b)) in [("isqrt", by_isqrt::ellipke(m).unwrap()), ("digits", by_digits::ellipke(m).unwrap())] {
            assert_eq!((refusal, k, e), (0, a.to_bits(), b.to_bits()), "by {name} at {m:e}");
        }
    }
    println!("{ROWS} rows of ellipke, m from -10 to 0.999: the same bits by the library, by isqrt and by digits");
    let mut sheet = vec![0u8; 328 + 48 * ROWS];
    let mut rows = vec![(0.0, 0.0); ROWS];
    let names = ["the library, answers alone", "the library, the sheet and its exact total", "in Rust, root by u128::isqrt", "in Rust, root by digits that branch"];
    let mut best = [f64::INFINITY; 4];
    for _ in 0..400 {
        for (i, best) in best.iter_mut().enumerate() {
            let start = Instant::now();
            match i {
                0 => {
                    for (&m, row) in ms.iter().zip(&mut rows) {
                        let (_, k, e) = library::evaluate(3, black_box(m).to_bits(), 0, 0);
                        *row = (f64::from_bits(k), f64::from_bits(e));
                    }
                }
                1 => {
                    assert_eq!(library::blank(&mut sheet, ROWS as u32), 0);
                    for (i, &m) in ms.iter().enumerate() {
                        assert_eq!(library::edit(&mut sheet, i as u32, 3, [black_box(m).to_bits(), 0, 0], 1), 0);
                    }
                }
                2 => {
                    black_box(by_rust(by_isqrt::ellipke, &ms, &mut rows));
                }
                _ => {
                    black_box(by_rust(by_digits::ellipke, &ms, &mut rows));
                }
            }
            black_box(&rows);
            *best = best.min(start.elapsed().as_nanos() as f64 / 1000.0);
        }
    }
    println!("microseconds a run, the best of 400; then the ratio to each of the two in Rust");
    for (name, time) in names.iter().zip(best) {
        println!("  {name:44} {time:8.1}   {:5.2}  {:5.2}", time / best[2], time / best[3]);
    }
}
