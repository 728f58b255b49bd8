//! Sine, cosine and logarithm: the proved library against the same steps in Rust and Rust's own functions, in one run.
//! twin: angle logarithm
mod library;
mod patterns;
mod timing;

use patterns::Random;
use timing::Contest;

fn value(answer: Result<twin::answer::Answer, twin::answer::Refusal>) -> f64 {
    twin::answer::value(answer)
}

fn contest(title: &str, arguments: &[f64], proved: fn(f64) -> f64, twin: fn(f64) -> f64, rust: fn(f64) -> f64) {
    for &x in arguments {
        assert_eq!(proved(x).to_bits(), twin(x).to_bits(), "{title} {x:e}");
        assert!((proved(x) - rust(x)).abs() <= 4e-16 * rust(x).abs().max(1.0), "{title} {x:e}");
    }
    let mut c = Contest::new(arguments);
    c.enter("proved library (over the C face)", 25, proved);
    c.enter("the same steps in Rust", 25, twin);
    c.enter("Rust's own", 25, rust);
    c.show(title);
}

fn main() {
    let mut random = Random(11);
    let angles: Vec<f64> = (0..10_000).map(|_| (random.below(1 << 53) as f64 / (1u64 << 52) as f64 - 1.0) * 4.0).collect();
    let positive: Vec<f64> = (0..10_000).map(|_| f64::from_bits(((random.below(2046) + 1) << 52) | random.below(1 << 52))).collect();
    contest("sine, |x| up to 4", &angles, library::sine, |x| value(twin::angle::sine(x)), f64::sin);
    contest("cosine, |x| up to 4", &angles, library::cosine, |x| value(twin::angle::cosine(x)), f64::cos);
    contest("logarithm, all normal numbers above zero", &positive, library::logarithm, |x| value(twin::logarithm::logarithm(x)), f64::ln);
}
