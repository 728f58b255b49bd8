//! K and E: the proved library against the same tables and iteration in Rust, in one run. m is spread evenly from -10 to 0.999, and then
//! over the part that iterates. `twin` is the library's own code as Rust, called the same way (by function number, on patterns) and then
//! directly, `ellip` the f64 reading of the given files on the hardware's root, `by_isqrt` that reading with root by u128::isqrt and multiply-add in integers.
//! twin: sheet fused
#[path = "target/by_isqrt/lib.rs"]
#[allow(unused_imports)]
mod by_isqrt;
mod library;
mod timing;

use timing::Contest;
use twin::answer::Parameter;

const PASSES: usize = 40;

fn by_twin(function: u8, m: f64) -> (u8, u64, u64) {
    let z = twin::answer::read(twin::sheet::evaluate(function, m.to_bits(), 0, 0));
    (z.refusal, twin::bits::to_pattern(z.first), twin::bits::to_pattern(z.second))
}

fn contest(title: &str, arguments: &[f64]) {
    for function in 1..=3u8 {
        let name = ["ellipk", "ellipe", "ellipke"][function as usize - 1];
        let mut c = Contest::new(arguments);
        c.enter("proved library (over the C face)", PASSES, move |m: f64| library::evaluate(function, m.to_bits(), 0, 0));
        c.enter("the same code in Rust", PASSES, move |m| by_twin(function, m));
        match function {
            1 => {
                c.enter("the same code in Rust, called directly", PASSES, |m| twin::legendre::ellipk(Parameter(m)));
                c.enter("root by u128::isqrt, in Rust", PASSES, by_isqrt::ellipk);
                c.enter("hardware root", PASSES, ellip::ellipk);
            }
            2 => {
                c.enter("the same code in Rust, called directly", PASSES, |m| twin::legendre::ellipe(Parameter(m)));
                c.enter("root by u128::isqrt, in Rust", PASSES, by_isqrt::ellipe);
                c.enter("hardware root", PASSES, ellip::ellipe);
            }
            _ => {
                c.enter("the same code in Rust, called directly", PASSES, |m| twin::legendre::ellipke(Parameter(m)));
                c.enter("root by u128::isqrt, in Rust", PASSES, by_isqrt::ellipke);
                c.enter("hardware root", PASSES, ellip::ellipke);
            }
        }
        c.show(&format!("{name}, {title}"));
    }
}

fn main() {
    let spread = |from: f64, to: f64| (0..4000).map(|i| from + (to - from) * i as f64 / 4000.0).collect::<Vec<f64>>();
    contest("m from -10 to 0.999", &spread(-10.0, 0.999));
    contest("m from 0.9 to 0.999, iterating", &spread(0.9, 0.999));
}
