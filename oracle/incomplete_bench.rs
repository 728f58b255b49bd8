//! ellippi, ellipeinc and ellipf: the proved library against the same code in Rust and Boost.Math, in one run, and the rounds that Carlson's
//! recipes make on typical legs: meridian arcs on WGS84, by b·E(β, -e'²).
//! twin: sheet
//! c++: boost_calls
mod library;
mod patterns;
mod timing;

use patterns::Random;
use timing::Contest;
use twin::answer::{value, Amplitude, Characteristic, Parameter};

#[link(name = "boost_calls", kind = "static")]
#[link(name = "stdc++")]
unsafe extern "C" {
    safe fn boost_ellippi(n: f64, m: f64) -> f64;
    safe fn boost_ellipeinc(phi: f64, m: f64) -> f64;
    safe fn boost_ellipf(phi: f64, m: f64) -> f64;
}

type Call = fn(f64, f64) -> f64;

fn contest(title: &str, arguments: &[(f64, f64)], proved: Call, twin: Call, boost: Option<Call>) {
    for &(a, b) in arguments {
        assert_eq!(proved(a, b).to_bits(), twin(a, b).to_bits(), "{title} {a:e} {b:e}");
        if let Some(boost) = boost {
            assert!((proved(a, b) - boost(a, b)).abs() <= 1e-13 * boost(a, b).abs(), "{title} {a:e} {b:e}");
        }
    }
    let mut c = Contest::new(arguments);
    c.enter("proved library (over the C face)", 25, move |(a, b)| proved(a, b));
    c.enter("the same code in Rust", 25, move |(a, b)| twin(a, b));
    if let Some(boost) = boost {
        c.enter("Boost.Math, hardware root and sine", 25, move |(a, b)| boost(a, b));
    }
    c.show(title);
}

fn evaluate(function: u8, a: f64, b: f64) -> f64 {
    f64::from_bits(library::evaluate(function, a.to_bits(), b.to_bits(), 0).1)
}

/// The rounds of RF and RD for a leg with angle phi and m < 0.
fn rounds(phi: f64, m: f64) -> (usize, usize) {
    let (s, c) = phi.sin_cos();
    let (c, c1) = (1.0 / (s * s), c * c / (s * s));
    (twin::rf::rf(c1, c - m, c).rounds, twin::rd::with_rf(c1, c - m, c).second.rounds)
}

fn main() {
    const WGS84: f64 = -0.006739496742276434;
    let mut random = Random(13);
    let mut between = |from: f64, to: f64| from + (to - from) * (random.below(1 << 53) as f64 / (1u64 << 53) as f64);
    let pi: Vec<(f64, f64)> = (0..4000).map(|_| (between(-10.0, 0.9), between(0.01, 0.9))).collect();
    let e: Vec<(f64, f64)> = (0..4000).map(|_| (between(0.01, 1.57), between(0.01, 0.9))).collect();
    let legs: Vec<(f64, f64)> = (0..4000).map(|_| (between(0.01, 1.57), WGS84)).collect();
    let ellipeinc: Call = |a, b| value(twin::ellipeinc::ellipeinc(Amplitude(a), Parameter(b)).answer);
    contest("ellippi, n from -10 to 0.9, m from 0.01 to 0.9", &pi, |a, b| evaluate(4, a, b), |a, b| value(twin::ellippi::ellippi(Characteristic(a), Parameter(b)).answer), Some(|a, b| boost_ellippi(a, b)));
    contest("ellipeinc, φ from 0.01 to 1.57, m from 0.01 to 0.9", &e, |a, b| evaluate(5, a, b), ellipeinc, Some(|a, b| boost_ellipeinc(a, b)));
    contest("ellipf, φ from 0.01 to 1.57, m from 0.01 to 0.9", &e, |a, b| evaluate(6, a, b), |a, b| value(twin::ellipf::ellipf(Amplitude(a), Parameter(b)).answer), Some(|a, b| boost_ellipf(a, b)));
    contest("ellipeinc, legs (m = -e'²)", &legs, |a, b| evaluate(5, a, b), ellipeinc, None);
    let all: Vec<(usize, usize)> = legs.iter().map(|&(a, b)| rounds(a, b)).collect();
    let spread = |name: &str, each: &dyn Fn(&(usize, usize)) -> usize| {
        let counts: Vec<usize> = all.iter().map(each).collect();
        let sum: usize = counts.iter().sum();
        println!("  {name}: from {} to {} rounds, {:.2} on average", counts.iter().min().unwrap(), counts.iter().max().unwrap(), sum as f64 / counts.len() as f64);
    };
    println!("rounds on those legs");
    spread("RF", &|r| r.0);
    spread("RD", &|r| r.1);
}
