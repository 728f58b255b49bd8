//! The remainder by π/2: the proved library against the same method in Rust and the C library's fmod, in one run.
//! twin: remainder
mod library;
mod patterns;
mod remainder_cases;
mod timing;

use patterns::Random;
use remainder_cases::fmod;
use std::f64::consts::FRAC_PI_2;
use timing::Contest;

fn main() {
    let mut random = Random(7);
    for (title, top) in [("|x| < pi/2", FRAC_PI_2), ("|x| up to 1000", 1000.0), ("|x| up to 2^52", 4503599627370496.0)] {
        let angles: Vec<f64> = (0..20_000).map(|_| (random.below(1 << 53) as f64 / 4503599627370496.0 - 1.0) * top).collect();
        for &x in &angles {
            let r = fmod(x, FRAC_PI_2);
            assert_eq!(library::remainder_of(x, FRAC_PI_2).to_bits(), r.to_bits(), "library {x:e}");
            assert_eq!(twin::remainder::remainder(x, FRAC_PI_2).to_bits(), r.to_bits(), "twin {x:e}");
        }
        let mut contest = Contest::new(&angles);
        contest.enter("proved library (over the C face)", 15, |x| library::remainder_of(x, FRAC_PI_2));
        contest.enter("the same method in Rust", 15, |x| twin::remainder::remainder(x, FRAC_PI_2));
        contest.enter("the C library's fmod", 15, |x| fmod(x, FRAC_PI_2));
        contest.show(&format!("remainder by pi/2, {title}"));
    }
}
